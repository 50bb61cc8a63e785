"""bin/test: golden texts, steps by what is shown, and reports."""

import shutil
import unittest
import xml.etree.ElementTree

from .support import PROGRAM, PROGRAMS, SECONDS, Case, ProgramCase, given, script

from buskeld import found, golden, printed, steps
from buskeld.drawing import Drawing, Scale, cells_of
from buskeld.held import Refusal
from buskeld.player import Player, StepFault
from buskeld.steps import BadStep

BUTTONS = """{"version": 1, "view": [10240, 6144], "components": [{"name": "Page", "fields": [["n", "int", 0], ["said", "text", ""]],
 "body": {"w": "Column", "cross": "start", "children": [
  {"w": "Detector", "tap": [["set", "n", ["+", ["field", "n"], 1]]], "child": {"w": "Text", "text": "More"}},
  {"w": "Detector", "long": [["set", "said", "held"]], "child": {"w": "Text", "text": "Hold"}},
  {"w": "Detector", "pan": [["set", "n", ["+", ["field", "n"], ["event", "dx"]]]], "child": {"w": "Text", "text": "Move"}},
  {"w": "Text", "text": ["show", ["field", "n"]]},
  {"w": "Text", "text": "Plain"}, {"w": "Text", "text": "Plain"}
 ]}}], "root": {"w": "use", "name": "Page"}}
%%
frame
"""


class Own(ProgramCase):
    """The three programs in tools/tests/programs."""

    def test_they_are_as_wanted(self):
        status, text, told = script("test", PROGRAMS)
        self.assertEqual((status, told), (0, ""), text)
        for name in ("settings", "chat", "board"):
            self.assertIn(f"{name}.test\n", text)
        self.assertTrue(text.endswith("6 tests, 0 failed\n"))

    def test_a_program_that_shows_something_else_fails(self):
        for path in PROGRAMS.glob("settings.*"):
            shutil.copy(path, self.folder)
        path = self.folder / "settings.frame"
        path.write_text(path.read_text(encoding="utf-8").replace('"Wi-Fi"', '"WiFi"'), encoding="utf-8")
        status, text, _ = script("test", self.folder)
        self.assertEqual(status, 1)
        self.assertIn('settings.out:6: wanted `    text 512 2560 ff000000 "Wi-Fi"`\n    found `    text 512 2560 ff000000 "WiFi"`', text)
        self.assertIn('settings.test:4: wanted "Wi-Fi" to be seen\n', text)
        self.assertIn('is "WiFi" meant?', text)
        self.assertTrue(text.endswith("2 tests, 2 failed\n"))


class Goldens(ProgramCase):
    def setUp(self):
        super().setUp()
        self.path = self.file("page.frame", BUTTONS)

    def test_a_text_that_is_not_there_yet_is_written(self):
        self.assertEqual(script("test", self.path)[0], 1)
        self.assertEqual(script("test", "--update", self.path)[0], 0)
        self.assertTrue((self.folder / "page.out").read_text(encoding="utf-8").startswith("frame 1\n"))
        self.assertEqual(script("test", self.path)[0], 0)

    def test_pictures(self):
        self.file("page.out", "")
        self.file("page.test", "frame\npicture first\ntap \"More\"\nframe\npicture first\n")
        script("test", "--update", self.path)
        status, text, _ = script("test", self.path)
        self.assertEqual(status, 1)
        self.assertIn("page.test:2: wanted ", text)
        self.assertIn("page.first.svg:", text)
        self.assertNotIn("page.test:5", text)
        picture = xml.etree.ElementTree.parse(self.folder / "page.first.svg").getroot()
        self.assertEqual(picture.get("viewBox"), "0 0 10240 6144")

    def test_words_and_a_status(self):
        self.file("page.out", "checked 1\n")
        self.file("page.args", "check\n")
        self.assertEqual(script("test", self.path)[0], 0)
        self.file("page.status", "3\n")
        status, text, _ = script("test", self.path)
        self.assertEqual(status, 1)
        self.assertIn("page.status:1: wanted status 3\n    found status 0", text)

    def test_a_refused_program_is_explained(self):
        self.path.write_text(BUTTONS.replace('"Text", "text": "Plain"}]', '"Text", "text": 7}]').replace('"Plain"}, {', '"Plain"}, {"w": "Txt"}, {'), encoding="utf-8")
        self.file("page.out", "frame 1\n")
        self.file("page.test", "frame\n")
        status, text, _ = script("test", self.path)
        self.assertEqual(status, 1)
        self.assertEqual(text.count("there is no kind `Txt`. Did you mean `Text`?"), 2)

    def test_differences(self):
        self.assertIsNone(golden.difference("a\n", "a\n"))
        self.assertEqual(golden.difference("a\nb\n", "a\nc\n"), (2, "`b`", "`c`"))
        self.assertEqual(golden.difference("a\nb\n", "a\n"), (2, "`b`", "the end of the text"))
        self.assertEqual(golden.difference("", "a\n"), (1, "the end of the text", "`a`"))


class Reports(ProgramCase):
    def setUp(self):
        super().setUp()
        self.path = self.file("page.frame", BUTTONS)
        script("test", "--update", self.path)
        self.file("page.test", 'frame\nsee "a<b#"\nsee "More"\nno "Hold"\n')

    def test_a_failure_says_file_line_wanted_and_found(self):
        status, text, _ = script("test", self.path)
        self.assertEqual(status, 1)
        self.assertIn('page.test:2: wanted "a<b#" to be seen\n    found none among "More", "Hold", "Move", "0", "Plain"\n', text)
        self.assertIn('page.test:4: wanted no "Hold"\n    found it at (1024, 1536)\n', text)
        self.assertTrue(text.endswith("2 tests, 1 failed\n"))

    def test_tap(self):
        status, text, _ = script("test", "--tap", self.path)
        lines = text.split("\n")
        self.assertEqual((status, lines[0], lines[-2]), (1, "TAP version 13", "1..2"))
        self.assertEqual([line.split(" - ")[0] for line in lines if "ok" in line.split(" ")[:2]], ["ok 1", "not ok 2"])

    def test_junit(self):
        status, _, _ = script("test", "--junit", self.folder / "out.xml", self.path)
        suite = xml.etree.ElementTree.parse(self.folder / "out.xml").getroot()
        self.assertEqual((status, suite.get("tests"), suite.get("failures")), (1, "2", "1"))
        self.assertEqual(len(suite.findall("testcase/failure")), 2)
        self.assertIn('wanted "a<b#" to be seen', suite.find("testcase/failure").get("message"))

    def test_what_is_no_step(self):
        self.file("page.test", "frame\ntap More\n")
        status, text, _ = script("test", self.path)
        self.assertEqual(status, 1)
        self.assertIn('page.test:2: wanted a step\n    found `tap` wants a text in "double quotes": tap More', text)

    def test_words_that_are_none(self):
        for words in (("--updat",), (self.folder / "none.frame",)):
            self.assertEqual(script("test", *words)[0], 2)


class Steps(ProgramCase):
    def player(self, text=BUTTONS):
        player = Player(PROGRAM, given(text).program.content, SECONDS)
        self.addCleanup(player.close)
        return player

    def play(self, player, *lines):
        for step in steps.read("\n".join(lines)):
            step.does(player, None)

    def fault(self, player, line):
        with self.assertRaises(StepFault) as caught:
            self.play(player, line)
        return caught.exception.wanted, caught.exception.found

    def test_gestures(self):
        player = self.player()
        self.play(player, "frame", 'tap "More"', 'tap "More"', "frame", 'see "2"', "field Page.n 2", 'long "Hold"', 'field Page.said "held"')
        self.assertEqual(player.time, 500)
        self.play(player, 'drag "Move" 40 -7', "field Page.n 42", 'drag "Move" -3000 0', "field Page.n -2958", "field #1.n -2958")

    def test_before_the_first_frame(self):
        self.assertEqual(self.fault(self.player(), 'see "More"'), ("a frame", "none yet: give a line `frame` first"))

    def test_a_text_at_no_node_or_at_several(self):
        player = self.player()
        self.play(player, "frame")
        self.assertEqual(self.fault(player, 'tap "Mroe"'), ('"Mroe" once', 'none among "More", "Hold", "Move", "0", "Plain"; is "More" meant?'))
        wanted, said = self.fault(player, 'tap "Plain"')
        self.assertEqual((wanted, said), ('"Plain" once', 'it 2 times: [1] at (1280, 4608), [2] at (1280, 5632); "Plain"[1] is the first'))
        self.play(player, 'see "Plain"[2]')
        self.assertIn("2 times", self.fault(player, 'see "Plain"[3]')[1])

    def test_a_tap_that_nothing_takes(self):
        player = self.player()
        self.play(player, "frame")
        self.assertEqual(self.fault(player, 'tap "Plain"[1]'), ('a tap on "Plain" to be taken', "nothing there that takes a gesture, at (1280, 4608)"))
        self.assertIn("`arena", self.fault(player, 'tap "Hold"')[1])

    def test_what_changed_since_the_frame_is_hinted_at(self):
        player = self.player()
        self.play(player, "frame", 'tap "More"')
        self.assertIn("give a line `frame`", self.fault(player, 'see "1"')[1])
        self.play(player, 'no "1"', "frame", 'see "1"', 'no "0"')

    def test_fields(self):
        player = self.player()
        self.play(player, "frame")
        self.assertEqual(self.fault(player, "field Page.n 7"), ("Page.n to be 7", "0"))
        self.assertEqual(self.fault(player, "field Page.n false"), ("Page.n to be false", "0"))
        self.assertEqual(self.fault(player, "field Page.m 7"), ("one Page.m", "none among #1 Page.n, #1 Page.said"))

    def test_script_lines_are_accepted_or_said_to_be_refused(self):
        player = self.player()
        self.play(player, "frame", "refused NoField set #1 m 1", "refused PointerIsUp up 3")
        self.assertEqual(self.fault(player, "up 3"), ("`up 3` to be accepted", "`refused 4 12 PointerIsUp`"))
        self.assertEqual(self.fault(player, "refused NoNode set #1 n 1"), ("`set #1 n 1` to be refused as NoNode", "it accepted"))

    def test_a_label_that_is_said_and_not_drawn(self):
        text = '{"version":1,"view":[640,640],"root":{"w":"Align","child":{"w":"Detector","tap":[],"child":{"w":"Semantics","label":"Add","child":{"w":"ColoredBox","child":{"w":"SizedBox","width":64,"height":64}}}}}}'
        player = self.player(text)
        self.play(player, "frame", 'see "Add"', 'tap "Add"')
        player = self.player('{"version":1,"view":[640,640],"root":{"w":"Semantics","label":"Add"}}')
        self.play(player, "frame", 'see "Add"')
        self.assertIn("at no place of its own", self.fault(player, 'tap "Add"')[1])

    def test_a_viewport_within_another(self):
        inner = '{"w":"SizedBox","height":1024,"child":{"w":"Viewport","children":[{"w":"SliverToBox","child":{"w":"Text","text":"inner\\nmore\\nlast"}}]}}'
        text = '{"version":1,"view":[5120,2048],"root":{"w":"Viewport","children":[{"w":"SliverToBox","child":%s},{"w":"SliverFixed","extent":4096,"children":[{"w":"Text","text":"outer"}]}]}}' % inner
        player = self.player(text)
        self.play(player, "frame", 'see "inner"', 'no "more"')
        self.assertEqual(self.fault(player, 'tap "more"')[1], "it outside of what is to be seen")
        self.play(player, 'scroll "inner" 1024', "frame", 'see "more"', 'no "inner"', 'see "outer"')
        self.play(player, 'scroll "outer" 1024', "frame", 'no "more"')

    def test_what_shows_no_viewport(self):
        player = self.player()
        self.play(player, "frame")
        self.assertEqual(self.fault(player, 'scroll "More" 1')[0], 'a Viewport that shows "More"')

    def test_a_refused_program(self):
        with self.assertRaises(Refusal):
            Player(PROGRAM, "{}", SECONDS)


class Reading(unittest.TestCase):
    def test_lines(self):
        made = steps.read('# a remark\n\nframe\n  tap "a \\"b\\""[2]\nscroll #3 5\nlong "x"\n')
        self.assertEqual([step.number for step in made], [3, 4, 5, 6])

    def test_what_is_no_step(self):
        for line in ("tap", "see Home", 'tap "a', 'drag "a" 1', 'scroll "a" x', 'tap "a"[0]', "field Page 1", "field Page.n x", "picture a/b", 'see "a" b'):
            with self.subTest(line), self.assertRaisesRegex(BadStep, "^line 2: "):
                steps.read(f"frame\n{line}\n")


class Texts(unittest.TestCase):
    FRAME = """frame 1
offset 0 0
  picture
    text 512 0 ff000000 "one two"
    text 512 1024 ff000000 "three"
    text 0 2048 ff000000 "好的"
  offset 1024 4096
    clip 0 0 1024 1024
      picture
        text 0 0 ff000000 "half seen"
        text 0 512 ff000000 "under"
        text 4096 0 ff000000 "off"
  opacity 64 64 128
    picture
      text 0 0 ff000000 "one two"
end
"""

    def lines(self):
        return found.lines_of(printed.read(self.FRAME)[0], (10240, 10240), Scale(1))

    def test_where_texts_stand(self):
        lines = {line.text: line for line in self.lines()}
        self.assertEqual(lines["three"].area, (512, 1024, 2560, 1024))
        self.assertEqual(lines["好的"].area[2], 2048)
        self.assertEqual(lines["half seen"].area, (1024, 4096, 4608, 1024))
        self.assertEqual(lines["half seen"].seen, (1024, 4096, 1024, 1024))
        self.assertEqual(lines["under"].seen, (1024, 4608, 1024, 512))
        self.assertFalse(lines["off"].is_seen())

    def test_a_wrapped_text_is_one(self):
        (spot,) = found.drawn("one two three", self.lines())
        self.assertEqual(spot.area, (512, 0, 3584, 1024))
        self.assertEqual(found.drawn("two three", self.lines()), [])

    def test_in_the_order_of_reading(self):
        nothing = printed.Semantics([], "semantics", [])
        spots = found.spots_of("one two", self.lines(), nothing, (10240, 10240))
        self.assertEqual([spot.area[:2] for spot in spots], [(512, 0), (64, 64)])

    def test_cells(self):
        rows = {"": 0, "abc": 3, "好的!": 5, "e\u0301": 1, "👨\u200d👩\u200d👧": 2, "❤\ufe0f": 1}
        self.assertEqual({text: cells_of(text) for text in rows}, rows)

    def test_pictures_are_whole(self):
        picture = Drawing(Scale(1)).picture(printed.read(self.FRAME)[0], (10240, 10240), "a & b")
        root = xml.etree.ElementTree.fromstring(picture)
        self.assertEqual((root.get("aria-label"), root.get("width")), ("a & b", "160"))
        self.assertEqual(len(list(root.iter("{http://www.w3.org/2000/svg}text"))), 7)


class WithoutTheProgram(Case):
    def test_a_golden_without_a_difference(self):
        path = self.file("a.out", "x\n")
        self.assertIsNone(golden.Golden(False).compare(path, "x\n"))
        self.assertEqual(golden.Golden(False).compare(path, "y\n").line, 1)


if __name__ == "__main__":
    unittest.main()
