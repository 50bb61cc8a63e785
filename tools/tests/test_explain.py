"""Explanations of refused lines, faults and notes, and bin/frame, which tells them."""

import json
import os
import subprocess
import sys
import unittest
from unittest import mock

from .support import PROGRAM, SECONDS, Case, ProgramCase, ask, given, script

from buskeld import json_text, node_names, paths
from buskeld.explain import Explainer

ROWS = """{"version": 1, "view": [640, 640], "components": [
  {"name": "Wide", "props": [["w", "int"]], "body":
    {"w": "Row", "children": [{"w": "SizedBox", "width": ["prop", "w"]}, {"w": "SizedBox", "width": 600}]}},
  {"name": "Page", "fields": [["shown", "bool", false], ["more", "int", 1]], "body": {"w": "Column", "children": [
    {"w": "if", "cond": ["field", "shown"], "then": {"w": "Row", "key": ["local", 1], "children": [{"w": "SizedBox", "width": 700}]}},
    {"w": "each", "var": "i", "in": ["range", ["field", "more"]], "body": {"w": "use", "name": "Wide", "props": {"w": ["*", 40, ["var", "i"]]}}},
    {"w": "Row", "children": [{"w": "SizedBox", "width": 20}]}
  ]}}], "root": {"w": "use", "name": "Page"}}
%%
"""


class Told(ProgramCase):
    def explained(self, text, printed):
        return Explainer(given(text), ask, 1, PROGRAM).of_text(printed)

    def test_a_refused_line_has_its_text_and_its_number(self):
        told = self.explained("{}\n%%\nframe\nfarme\nat 1 2\n", "refused 2 3 UnknownLine\nrefused 3 3 UnknownLine\n")
        self.assertEqual(told[:4], [
            "refused 2 3 UnknownLine",
            "  app.frame:4:1: script line 2: no line begins with `farme`. Did you mean `frame`?",
            "    farme",
            "    ^",
        ])
        self.assertIn("  app.frame:5:1: script line 3: `at` has 1 words after it, and 2 stand here", told)
        self.assertEqual(sum(line.startswith("  cause: ") for line in told), 1)

    def test_a_fault_has_the_line_of_its_frame(self):
        told = self.explained("{}\n%%\nframe\nat 1\nframe\n", 'frame 1\noffset 0 0\nend\nfault repeated-sibling-key 1\n')
        self.assertIn("  app.frame:5:1: the frame of script line 3 has this fault", told)
        self.assertTrue(any("what to do: give the items of an `each` keys that differ" in line for line in told))

    def test_a_long_line_is_shown_around_its_place(self):
        program = '{"version":1,"view":[1,1],"root":{"w":"Row","children":[%s{"w":"Rwo"}]}}' % ('{"w":"Row"},' * 30)
        told = self.explained(program, "program shape 4 /root/children/30\n")
        self.assertEqual(told[1], "  app.frame:1:422: there is no kind `Rwo`. Did you mean `Row`?")
        mark = told[3].index("^")
        self.assertEqual(told[2][mark : mark + 5], '"Rwo"')
        self.assertLess(len(told[2]), 120)

    def test_a_program_that_is_no_json(self):
        told = self.explained('{"version": 1,\n "view": [1, 1],\n}\n%%\n', "program json\n")
        self.assertIn("  app.frame:3:1: a member is missing before this bracket: is there a comma too many?", told)

    def test_a_fault_that_is_not_found_has_its_component(self):
        program = '{"version":1,"view":[1,1],"components":[\n{"name":"A","body":{"w":"Row"}}],"root":{"w":"Row"}}'
        told = self.explained(program, "program check 2 A\n")
        self.assertEqual(told[1], "  app.frame:2:1: somewhere in this component")
        self.assertEqual(self.explained(program, "program check 2 -\n")[1][:9], "  cause: ")


class Notes(ProgramCase):
    def widgets(self, lines, wanted):
        made = node_names.noted_widgets(given(ROWS + lines), PROGRAM, wanted, SECONDS)
        return {number: json_text.Text("", ROWS).place(node.start) for number, node in made.items()}

    @staticmethod
    def place(front):
        """Where a text begins that stands once."""
        return json_text.Text("", ROWS).place(ROWS.index(front))

    def test_the_first_frame(self):
        # 1 Page, 2 Column, 3 Wide, 4 Row, 5 and 6 its boxes, 7 Row, 8 its box.
        wanted = {2: self.place('{"w": "Column"'), 4: (3, 5), 7: (7, 5)}
        self.assertEqual(self.widgets("frame\n", [2, 4, 7, 5]), wanted)

    def test_nodes_that_come_and_go_on(self):
        # More: 9 Wide, 10 Row, 11, 12; shown: 13 Row, 14; less, and more again: 15 Wide, 16 Row.
        lines = "frame\nset #1 more 2\nframe\nset #1 shown true\nframe\nset #1 more 1\nframe\nset #1 more 2\nframe\n"
        shown = self.place('{"w": "Row", "key"')
        wanted = {4: (3, 5), 7: (7, 5), 10: (3, 5), 13: shown, 16: (3, 5)}
        self.assertEqual(self.widgets(lines, [4, 7, 10, 13, 16, 15]), wanted)

    def test_a_root_of_the_script(self):
        lines = 'frame\nroot {"w":"Row","children":[{"w":"SizedBox","width":700}]}\nframe\n'
        made = node_names.noted_widgets(given(ROWS + lines), PROGRAM, [9], SECONDS)
        self.assertEqual(made[9].shown(), "app.frame:11:6")

    def test_they_are_told(self):
        # 9 Wide, 10 Row, 13 Wide, 14 Row of 80 and 600, 17 Wide, 18 Row of 120 and 600; 640 are there.
        status, text, told = script("frame", "--explain", self.file("rows.frame", ROWS + "frame\nset #1 more 4\nframe\n"))
        self.assertEqual(status, 0)
        self.assertIn("note #14 overflow 40\nnote #18 overflow 80\n", text)
        self.assertIn("rows.frame:3:5: this Row is #14: its children take more than it has", told)
        self.assertIn("rows.frame:3:5: this Row is #18: its children take more than it has", told)

    def test_names_that_are_taken(self):
        text = '{"version":1,"view":[1,1],"components":[{"name":"MarkRow","body":{"w":"Row"}}],"root":{"w":"use","name":"MarkRow","props":{}}}'
        marked = node_names.Marked(json_text.read(json_text.Text("t", text)))
        self.assertEqual(marked.names["Row"], "MarkRow_")
        self.assertEqual(ask([json.dumps(marked.program).encode()]), ["checked 4"])


class Script(ProgramCase):
    def test_a_file_and_standard_input(self):
        path = paths.EXAMPLES / "keyboard.frame"
        wanted = path.with_suffix(".out").read_text(encoding="utf-8")
        self.assertEqual(script("frame", path), (1, wanted, ""))
        self.assertEqual(script("frame", stdin=path.read_text(encoding="utf-8")), (1, wanted, ""))

    def test_lines_are_taken_as_they_come(self):
        command = [sys.executable, str(paths.TOP / "bin" / "frame")]
        env, pipe = {**os.environ, "BUSKELD_PROGRAM": str(PROGRAM)}, subprocess.PIPE
        with subprocess.Popen(command, stdin=pipe, stdout=pipe, env=env) as run:
            run.stdin.write(b'{"version":1,"view":[9,9],"root":{"w":"Row"}}\n%%\nframe\n')
            run.stdin.flush()
            self.assertEqual([run.stdout.readline() for _ in range(3)], [b"frame 1\n", b"offset 0 0\n", b"end\n"])
            run.stdin.close()
            self.assertEqual(run.wait(SECONDS), 0)

    def test_several_files(self):
        first, words = paths.EXAMPLES / "first.frame", paths.EXAMPLES / "misspelled.frame"
        status, text, told = script("frame", first, words)
        self.assertEqual((status, told), (3, ""))
        self.assertEqual(text.split("\n")[0], f"== {first}")
        self.assertIn(f"end\n== {words}\nprogram shape 4 /root/children/1\n", text)

    def test_a_program_and_its_script_in_two_files(self):
        program = self.file("app.json", '{"version":1,"view":[9,9],\n"root":{"w":"Row"}}')
        played = self.file("app.script", "frame\nup 1\n")
        status, text, told = script("frame", "--explain", program, played)
        self.assertEqual((status, text), (1, "frame 1\noffset 0 0\nend\nrefused 2 12 PointerIsUp\n"))
        self.assertIn(f"{played}:2:1: script line 2", told)

    def test_a_refusal_is_explained_with_its_place(self):
        status, text, told = script("frame", "--explain", paths.EXAMPLES / "misspelled.frame")
        self.assertEqual((status, text), (3, "program shape 4 /root/children/1\n"))
        self.assertIn("misspelled.frame:6:11: there is no kind `Paddin`. Did you mean `Padding`?", told)
        self.assertIn("what to do: look the kind up in the table of kinds", told)

    def test_what_is_no_file(self):
        for words in (("--tyr", "a"), (self.folder,), (self.folder / "none",)):
            status, text, told = script("frame", *words)
            self.assertEqual((status, text), (2, ""))
            self.assertTrue(told)

    def test_help(self):
        self.assertEqual(script("frame", "--help")[0], 0)


class Tries(Case):
    """bin/frame --try, with a command of the toolchain's name that does as that one does."""

    RT = """#!/bin/sh
[ "$1 $2 $3 $4" = "try --seconds 600 --cases" ] || exit 9
for file in "$5"/run*; do
    case $file in *.args) continue ;; esac
    echo "== $(basename "$file")"
    cat "$file" | tail -n 1
    echo "case=$(basename "$file") run=ended status=0 runners=1 proved=no" >&2
done
echo "cases=2 ended=2 fault=0 differs=0 no-answer=0 proved=no" >&2
"""

    def run_with(self, rt, *words):
        self.file("rt", rt, True)
        with mock.patch.dict(os.environ, {"PATH": f"{self.folder}:{os.environ['PATH']}"}):
            return script("frame", "--try", *words)

    def test_one_build_for_any_number_of_files(self):
        one, other = self.file("one.frame", "{}\n%%\nframe\n"), self.file("other.frame", "{}\n%%\nstates\n")
        status, text, told = self.run_with(self.RT, one, other)
        self.assertEqual((status, text), (0, f"== {one}\nframe\n== {other}\nstates\n"))
        self.assertEqual(told.count("building the program by rt try, for 2 inputs"), 1)
        self.assertIn("one to three minutes", told)

    def test_a_text_past_the_limit_is_said_to_be_missing(self):
        rt = self.RT.replace("run=ended status=0 runners=1", "run=no-answer")
        status, _, told = self.run_with(rt, self.file("one.frame", "{}\n%%\nframe\n"))
        self.assertEqual(status, 2)
        self.assertIn("more than 1,048,576 bytes", told)

    def test_a_build_that_fails_is_told(self):
        status, text, told = self.run_with("#!/bin/sh\necho 'no such thing' >&2\nexit 2\n", self.file("one.frame", "{}\n"))
        self.assertEqual((status, text), (2, ""))
        self.assertIn("no such thing", told)
        self.assertIn("bin/frame: rt try didn't run the program", told)


if __name__ == "__main__":
    unittest.main()
