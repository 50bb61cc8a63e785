"""A program that is played for a page: what is done on it, what of that fits when the program changes, what is saved."""

import contextlib
import io
import unittest

from .support import PROGRAM, SECONDS, Case, ProgramCase, ask, given, script
from .test_testing import BUTTONS

from buskeld import moments, paths, server, source, watch
from buskeld.live import Live

TWINS = '{"version":1,"view":[9,9],"root":{"w":"Row","children":[{"w":"Row","key":["local",1]},{"w":"Row","key":["local",1]}]}}'


COVERED = """{"version": 1, "view": [10240, 2048], "components": [{"name": "Page", "fields": [["n", "int", 0]],
 "body": {"w": "Stack", "children": [
  {"w": "Detector", "behavior": "opaque", "tap": [["set", "n", 1]], "child": {"w": "Text", "text": "A long text"}},
  {"w": "Positioned", "left": 2048, "top": 0, "width": 4096, "height": 1024, "child":
   {"w": "Detector", "behavior": "opaque", "tap": [["set", "n", 2]]}}
 ]}}], "root": {"w": "use", "name": "Page"}}
%%
frame
"""


class LiveCase(ProgramCase):
    def live(self, text=BUTTONS):
        made = Live(PROGRAM, SECONDS)
        self.addCleanup(made.close)
        made.load(given(text))
        return made

    def done(self, live):
        """What was done, and whether it fits."""
        return [(it.text, it.fits) for it in live.done]

    def titles(self, live):
        return [it["title"] for it in live.data()["moments"]]

    def field(self, live, name):
        """The value of a field, as the page has it."""
        live.settle()
        return dict(live.data()["moments"][-1]["states"][0]["fields"])[name]


class OnThePage(LiveCase):
    def test_a_tap_is_told_by_its_text(self):
        live = self.live()
        live.tap(100, 100)
        self.assertEqual(self.done(live), [('tap "More"', True)])
        self.assertEqual(self.field(live, "n"), "1")
        line = live.data()["moments"][-1]["lines"][-1]
        self.assertEqual((line["text"], line["played"]), ('tap "More"', ["down 99 1024 512", "up 99"]))
        self.assertEqual([it["text"] for it in line["answers"]], ["arena 99 #3 tap", "tap #3"])

    def test_a_tap_that_nothing_takes_is_told_by_its_lines(self):
        live = self.live()
        live.tap(100, 3500)
        live.tap(9000, 6000)
        wanted = ["down 99 256 3584", "up 99", "down 1 9000 6000", "up 1"]
        self.assertEqual(self.done(live), [(line, True) for line in wanted])
        self.assertEqual(live.pointers, {})

    def test_a_text_whose_middle_is_covered(self):
        live = self.live(COVERED)
        live.tap(100, 100)
        self.assertEqual(self.done(live), [("down 1 100 100", True), ("up 1", True)])
        self.assertEqual(self.field(live, "n"), "1")

    def test_one_of_several_texts(self):
        live = self.live()
        self.assertEqual(live.text_at(100, 5200), '"Plain"[2]')
        self.assertIsNone(live.text_at(9000, 5200))

    def test_a_long_press_and_a_drag(self):
        live = self.live()
        live.press_down(100, 1500)
        live.hold()
        live.press_up()
        self.assertEqual(self.field(live, "said"), '"held"')
        live.press_down(100, 2500)
        live.moved(3000, 2500)
        live.moved(3500, 2500)
        live.press_up()
        self.assertEqual(self.field(live, "n"), "3400")
        self.assertEqual(live.data()["time"], 500)

    def test_a_wheel_turns_the_innermost_viewport(self):
        live = self.live((paths.EXAMPLES / "list.frame").read_text(encoding="utf-8"))
        live.scroll(1000, 1000, -700)
        live.scroll(100, 5000, -800)
        self.assertEqual([it.text for it in live.done], ["scroll #1 -700", "scroll #1 -800"])
        other = self.live()
        other.scroll(100, 100, 700)
        self.assertEqual(other.done, [])

    def test_letters_go_to_a_field(self):
        live = self.live()
        for key in ("A", "\u00e9", "Backspace", '"'):
            live.type(1, "said", key)
        self.assertEqual(live.done[-1].text, 'set #1 said "A\\""')
        live.type(1, "n", "A")
        self.assertEqual(len(live.done), 4)

    def test_who_has_the_focus(self):
        live = self.live((paths.EXAMPLES / "pattern_list_item.frame").read_text(encoding="utf-8").split("%%")[0])
        live.line("focus prev")
        focused = live.focus
        self.assertEqual(live.data()["moments"][-1]["focus"], focused)
        live.line("frame")
        self.assertEqual(live.focus, focused)
        live.line("press")
        live.line("frame")
        self.assertIsNone(live.data()["moments"][-1]["focus"])

    def test_tweens_have_an_end(self):
        live = self.live()
        live.line("at 50")
        live.line("tween #1 n 0 100 200 linear")
        self.assertEqual(live.data()["tweensEnd"], 250)
        live.line("at 250")
        live.line("frame")
        self.assertEqual(live.data()["tweensEnd"], 0)
        self.assertEqual(self.field(live, "n"), "100")

    def test_what_is_asked_is_no_line_of_the_script(self):
        live = self.live()
        live.line("farme")
        self.assertEqual(live.data()["moments"][-1]["lines"][-1]["answers"][0]["text"], "refused 2 3 UnknownLine")
        self.assertEqual(live.data()["script"], ["frame"])

    def test_an_expectation_that_is_not_met(self):
        live = self.live()
        live.line('see "7"')
        self.assertIn('wanted "7" to be seen', live.data()["moments"][-1]["lines"][-1]["wrong"])
        live.line("refused NoField set #1 x 1")
        self.assertEqual(live.data()["test"], ["frame", "refused NoField set #1 x 1"])

    def test_the_end_of_a_run(self):
        live = self.live(TWINS)
        self.assertEqual((live.ended, self.titles(live)), (4, ["frame 1 has a fault"]))
        live.line("frame")
        self.assertEqual((live.data()["isOpen"], len(live.done)), (False, 1))


class WhatFits(LiveCase):
    def test_what_was_done_is_played_again(self):
        live = self.live()
        live.tap(100, 100)
        live.line("frame")
        live.load(given(BUTTONS.replace('"children": [', '"children": [{"w": "Text", "text": "New"},')))
        self.assertEqual(self.done(live), [('tap "More"', True), ("frame", True)])
        self.assertEqual((self.titles(live), self.field(live, "n")), (["frame 1", "frame 2"], "1"))
        self.assertEqual(live.data()["moments"][0]["lines"][-1]["played"][0], "down 99 1024 1536")

    def test_what_does_not_fit_is_tried_again_later(self):
        live = self.live()
        live.tap(100, 100)
        live.line("farme")
        live.load(given(BUTTONS.replace('"More"', '"Less"')))
        self.assertEqual(self.done(live), [('tap "More"', False)])
        self.assertIn('1 no longer fit: tap "More"', live.said)
        self.assertEqual(live.data()["test"], ["frame"])
        live.load(given(BUTTONS))
        self.assertEqual(self.done(live), [('tap "More"', True)])

    def test_a_refused_program_leaves_what_was_played(self):
        live = self.live()
        live.load(given(BUTTONS.replace('"Column"', '"Colum"')))
        self.assertEqual(live.refused[0], "program shape 4 /components/0/body")
        self.assertIn("Did you mean `Column`?", live.refused[1])
        self.assertTrue(live.is_open())
        live.load(given(BUTTONS))
        self.assertEqual(live.refused, [])

    def test_a_program_that_is_refused_at_first(self):
        live = self.live("{")
        self.assertEqual((live.data()["moments"], live.data()["isOpen"], live.refused[0]), ([], False, "program json"))
        live.again([])
        self.assertEqual(live.test(), [])

    def test_a_script_without_a_frame_gets_one(self):
        text = BUTTONS.rpartition("frame\n")[0]
        live = self.live(text)
        self.assertEqual((self.titles(live), live.data()["canUndo"]), (["frame 1"], False))
        live.line('tap "More"')
        live.undo()
        self.assertEqual(self.done(live), [("frame", True)])
        live.load(given(BUTTONS))
        self.assertEqual(self.done(live), [])

    def test_undo_takes_back_an_act(self):
        live = self.live()
        for act, lines in enumerate((['tap "More"', "frame"], ['tap "More"', "frame"]), 1):
            live.act = act
            for line in lines:
                live.line(line)
        live.undo()
        self.assertEqual(self.field(live, "n"), "1")
        live.again([])
        self.assertEqual(self.titles(live), ["frame 1"])


    def test_a_program_that_dies(self):
        live = self.live()
        live.player.held.process.kill()
        live.line("frame")
        self.assertIn("was ended by signal 9", live.data()["broken"])
        self.assertFalse(live.is_open())
        live.tap(100, 100)
        self.assertEqual(self.done(live), [("frame", False)])
        live.load(given(BUTTONS))
        self.assertEqual((live.broken, live.is_open(), self.done(live)), ("", True, []))

    def test_a_program_that_gives_no_answer_at_first(self):
        live = Live(self.file("silent", "#!/bin/sh\nexit 2\n", True), SECONDS)
        live.load(given(BUTTONS))
        self.assertIn("ended with status 2", live.broken)
        self.assertEqual(live.data()["moments"], [])


    def test_what_was_done_before_a_refused_program_can_be_undone(self):
        live = self.live()
        live.line('tap "More"')
        live.load(given("{"))
        live.undo()
        self.assertEqual((self.field(live, "n"), live.refused[0]), ("0", "program json"))

    def test_lines_after_the_end_of_a_run(self):
        live = self.live(TWINS + "\n%%\nframe\nstates\n")
        lines = live.data()["moments"][-1]["lines"]
        self.assertEqual([(it["text"], it["wrong"]) for it in lines], [("frame", []), ("states", ["not played: the run had ended"])])


class Texts(LiveCase):
    """What a text alone tells of a run is what the run itself tells, line by line."""

    def test_each_example(self):
        for path in sorted(paths.EXAMPLES.glob("*.frame")):
            if path.with_suffix(".args").exists():
                continue
            with self.subTest(path.name):
                (taken,), text = source.inputs_of([path]), path.with_suffix(".out").read_text(encoding="utf-8")
                live = Live(PROGRAM, SECONDS)
                self.addCleanup(live.close)
                live.load(taken, False)
                told, refused = moments.of_text(taken, text, moments.Reasons(taken, ask, PROGRAM))
                self.assertEqual(refused, live.refused)
                ran = live.moments.shown() if live.moments else []
                self.assertEqual([it["title"] for it in ran], [it["title"] for it in told.shown()])
                for one, other in zip(ran, told.shown()):
                    self.same_lines(one["lines"], other["lines"])

    def same_lines(self, ran, told):
        """Each of the lines that stand together in a text is what so many lines of the run are."""
        for line in told:
            count = len(line["text"].split("\n"))
            some, ran = ran[:count], ran[count:]
            self.assertEqual("\n".join(it["text"] for it in some), line["text"])
            self.assertEqual([answer for it in some for answer in it["answers"]], line["answers"])
            self.assertEqual(sum((it["wrong"] for it in some), []), line["wrong"])
        self.assertEqual(ran, [])


class Changes(LiveCase):
    def test_only_what_may_have_changed_is_told(self):
        live = self.live()
        live.line("frame")
        generation = live.data()["generation"]
        live.line("frame")
        told = live.data(generation, 2)
        self.assertEqual((told["first"], [it["title"] for it in told["moments"]]), (1, ["frame 2", "frame 3"]))
        self.assertEqual(live.data(generation - 1, 2)["first"], 0)


class Saved(LiveCase):
    def setUp(self):
        super().setUp()
        self.path = self.file("app.frame", BUTTONS)
        self.files = watch.Files([str(self.path)])
        self.page = self.live()
        self.page.tap(100, 100)
        self.page.line("frame")
        self.save = watch.saver(self.files)

    def test_a_test_and_a_script_are_written(self):
        self.assertEqual(self.save(self.page, "app.test", False), "wrote app.test: 3 lines")
        self.assertEqual((self.folder / "app.test").read_text(encoding="utf-8"), 'frame\ntap "More"\nframe\n')
        self.assertEqual(self.save(self.page, "played.frame", False), "wrote played.frame: 4 lines")
        self.assertTrue((self.folder / "played.frame").read_text(encoding="utf-8").endswith("%%\nframe\ndown 99 1024 512\nup 99\nframe\n"))

    def test_what_is_there_is_kept(self):
        self.assertIn("is the file that is watched", self.save(self.page, "app.frame", True))
        self.file("app.test", "frame\n")
        self.assertIn("is there already", self.save(self.page, "app.test", False))
        self.assertEqual((self.folder / "app.test").read_text(encoding="utf-8"), "frame\n")
        self.assertIn("wrote", self.save(self.page, "app.test", True))

    def test_files_are_seen_to_change(self):
        self.assertFalse(self.files.has_changed())
        self.path.write_text(BUTTONS + "states\n", encoding="utf-8")
        self.assertTrue(self.files.has_changed())
        self.assertFalse(self.files.has_changed())
        self.path.unlink()
        self.assertFalse(self.files.has_changed())

    def test_a_reload_is_told(self):
        served = server.Served(self.page, str, self.save)
        self.path.write_text("{", encoding="utf-8")
        with contextlib.redirect_stdout(io.StringIO()) as told:
            watch.reload(served, self.files)
        self.assertIn("program json", told.getvalue())
        self.assertEqual((served.revision, self.page.refused[0]), (2, "program json"))
        self.assertEqual(source.inputs_of([self.path])[0].script, [])


class Command(Case):
    def test_words_that_are_none(self):
        for words in ((), ("--port",), ("--port", "x", "app.frame"), ("--port", "99999", "app.frame"), ("--tyr", "app.frame")):
            status, text, told = script("watch", *words)
            self.assertEqual((status, text, told), (2, "", watch.__doc__ + "\n"))
        self.assertEqual(script("watch", "--help"), (0, watch.__doc__ + "\n", ""))

    def test_a_file_that_is_not_there(self):
        self.assertIn("none can't be read", script("watch", self.folder / "none")[2])


if __name__ == "__main__":
    unittest.main()
