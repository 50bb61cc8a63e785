"""A run as moments: lines under the frame that they act on, what each printed, and why something was refused."""

import unittest

from .support import Case, given

from buskeld import moments, printed

BOX = '{"version": 1, "view": [640, 1280], "root": {"w": "SizedBox"}}\n%%\n'
FRAME = "frame {}\noffset 0 0\nend\n"


def of(script, text, program=BOX):
    """The moments of a script and what it printed."""
    made, refused = moments.of_text(given(program + "".join(f"{line}\n" for line in script)), text)
    return made.shown(), refused


def lines(moment):
    """The lines of a moment, each with the texts that it printed."""
    return [(line["text"], [it.get("text") for it in line["answers"]]) for line in moment["lines"]]


class Grouping(Case):
    def test_lines_stand_under_the_frame_that_they_act_on(self):
        script = ["hit 1 1", "frame", "hit 1 1", "set #1 n 1", "frame", "states"]
        text = "hits\n" + FRAME.format(1) + "hits #1\n" + FRAME.format(2) + "states\n#1 Page n=1\nend\n"
        before, first, second = of(script, text)[0]
        self.assertEqual((before["title"], lines(before)), ("before the first frame", [("hit 1 1", ["hits"])]))
        self.assertEqual((first["title"], lines(first)), ("frame 1", [("frame", []), ("hit 1 1", ["hits #1"]), ("set #1 n 1", [])]))
        self.assertEqual((second["number"], second["states"]), (2, [{"node": 1, "name": "Page", "fields": [["n", "1"]]}]))
        self.assertNotIn("states", first)

    def test_each_gesture_has_what_came_of_it(self):
        script = ["frame", "down 1 5 5", "up 1", "set #1 n 1", "down 2 9 9", "move 2 9 99", "up 2", "frame"]
        text = FRAME.format(1) + "arena 1 #3 tap\ntap #3\narena 2 #5 pan\nstart #5 pan\nend #5 pan\n" + FRAME.format(2)
        wanted = [
            ("frame", []),
            ("down 1 5 5\nup 1\nset #1 n 1", ["arena 1 #3 tap", "tap #3"]),
            ("down 2 9 9\nmove 2 9 99\nup 2", ["arena 2 #5 pan", "start #5 pan", "end #5 pan"]),
        ]
        self.assertEqual(lines(of(script, text)[0][0]), wanted)

    def test_gestures_that_can_not_be_told_apart_stand_together(self):
        script = ["frame", "down 1 5 5", "up 1", "down 1 9 9", "up 1", "resize 9 9"]
        text = FRAME.format(1) + "arena 1 #3 tap\ntap #3\n"
        wanted = [("frame", []), ("down 1 5 5\nup 1\ndown 1 9 9\nup 1", ["arena 1 #3 tap", "tap #3"]), ("resize 9 9", [])]
        self.assertEqual(lines(of(script, text)[0][0]), wanted)

    def test_actions_and_refusals_are_told_apart(self):
        script = ["frame", "act #3 tap", "press", "up 1", "down 1 5 5", "focus next"]
        text = FRAME.format(1) + "tap #3\ntap #5\nrefused 4 12 PointerIsUp\narena 1 none\nfocus #3\n"
        (moment,) = of(script, text)[0]
        said = [["tap #3"], ["tap #5"], ["refused 4 12 PointerIsUp"], ["arena 1 none"], ["focus #3"]]
        self.assertEqual([it for _, it in lines(moment)[1:]], said)
        self.assertEqual(moment["focus"], 3)

    def test_a_text_of_another_script_is_taken_too(self):
        made, _ = of(["frame"], FRAME.format(1) + FRAME.format(2) + "states\n")
        self.assertEqual([it["title"] for it in made], ["frame 1"])
        made, _ = of(["frame", "states", "frame"], FRAME.format(1))
        self.assertEqual(lines(made[0]), [("frame", []), ("states", []), ("frame", [])])


class Told(Case):
    def test_view_and_time(self):
        text = "refused 2 18 ViewOutOfRange\n"
        made, _ = of(["frame", "resize 0 9", "resize 640 64", "at 250", "frame"], FRAME.format(1) + text + FRAME.format(2))
        self.assertEqual([(it["view"], it["time"]) for it in made], [((640, 1280), 0), ((640, 64), 250)])

    def test_why_a_line_is_refused(self):
        (made,), _ = of(["farme"], "refused 1 3 UnknownLine\n")
        (answer,) = made["lines"][0]["answers"]
        self.assertEqual(answer["why"][0], "app.frame:3:1: script line 1: no line begins with `farme`. Did you mean `frame`?")
        self.assertTrue(answer["why"][-1].startswith("what to do: see the table of lines"))

    def test_why_a_program_is_refused(self):
        program = '{"version": 1, "view": [9, 9], "root": {"w": "Paddin"}}\n%%\n'
        made, refused = of(["frame"], "program shape 4 /root\n", program)
        self.assertEqual(made, [])
        self.assertEqual(refused[0], "program shape 4 /root")
        self.assertIn("app.frame:1:46: there is no kind `Paddin`. Did you mean `Padding`?", refused[1])

    def test_a_program_that_is_refused_by_its_check_has_its_component(self):
        program = '{"version": 1, "view": [9, 9], "components": [{"name": "A", "body": {"w": "use", "name": "B"}}], "root": {"w": "SizedBox"}}\n%%\n'
        _, refused = of([], "program check 2 A\n", program)
        self.assertIn("app.frame:1:47: somewhere in this component", refused[1])

    def test_a_fault_has_a_moment_of_its_own(self):
        made, _ = of(["frame", "frame", "states"], FRAME.format(1) + "fault tree-too-large\n")
        self.assertEqual([it["title"] for it in made], ["frame 1", "frame 2 has a fault"])
        self.assertIn("app.frame:4:1: the frame of script line 2 has this fault", made[1]["lines"][0]["answers"][0]["why"])

    def test_notes_and_the_picture_s_name(self):
        text = 'frame 1\nnote #3 overflow 99\noffset 0 0\n  picture\n    text 0 0 ff000000 "Hello"\nend\n'
        (made,), _ = of(["frame"], text)
        self.assertEqual(made["notes"], ["note #3 overflow 99: its children take more than it has"])
        self.assertIn('aria-label="frame 1: Hello"', made["picture"])

    def test_cells_in_pieces(self):
        block = printed.read('cells 4 1 2\n"a\u4f60b"\nend\n')[0]
        self.assertEqual(moments.answer(block, [])["rows"], [[["a", False], ["\u4f60", True], ["b", False]]])

    def test_a_very_long_line(self):
        (made,), _ = of(["x" * 1000], "refused 1 3 UnknownLine\n")
        self.assertEqual(made["lines"][0]["text"], "x" * 80 + ".. (1000 characters)")


if __name__ == "__main__":
    unittest.main()
