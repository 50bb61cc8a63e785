"""The program held over a pipe."""

import unittest

from .support import PROGRAM, SECONDS, Case, ProgramCase

from buskeld import held, printed, source
from buskeld.held import Held, HeldFault, Refusal
from buskeld.paths import EXAMPLES

BOX = '{"version":1,"view":[100,50],"root":{"w":"SizedBox"}}'
TWINS = '{"version":1,"view":[9,9],"root":{"w":"Row","children":[{"w":"Row","key":["local",1]},{"w":"Row","key":["local",1]}]}}'


class WithTheProgram(ProgramCase):
    def test_each_line_has_its_own_answer(self):
        with Held(PROGRAM, SECONDS) as run:
            run.load(BOX)
            self.assertEqual(run.line("frame"), ["frame 1", "offset 0 0", "end"])
            self.assertEqual(run.line(""), [])
            self.assertEqual(run.line("up 1"), ["refused 3 12 PointerIsUp"])
            self.assertEqual(run.line("no such line"), ["refused 4 3 UnknownLine"])
            self.assertEqual(run.line("frame"), ["frame 2", "offset 0 0", "end"])

    def test_answers_together_are_the_whole_text(self):
        for name in ("counter", "todo", "slide", "keyboard", "refusals", "twins"):
            with self.subTest(name), Held(PROGRAM, SECONDS) as run:
                given = source.inputs_of([EXAMPLES / f"{name}.frame"])[0]
                run.load(given.program.content)
                said = [line for _, answer in held.play(run, given.script) for line in answer]
                self.assertEqual(said, (EXAMPLES / f"{name}.out").read_text(encoding="utf-8").split("\n")[:-1])

    def test_a_refused_program(self):
        with Held(PROGRAM, SECONDS) as run, self.assertRaises(Refusal) as caught:
            run.load('{"version":1}')
        self.assertEqual(caught.exception.line, "program shape 1 ")

    def test_a_fault_ends_the_run(self):
        with Held(PROGRAM, SECONDS) as run:
            run.load(TWINS)
            self.assertEqual(run.line("frame"), ["fault repeated-sibling-key 1"])
            self.assertEqual(run.status, 4)
            with self.assertRaises(HeldFault):
                run.line("frame")

    def test_what_is_no_line(self):
        with Held(PROGRAM, SECONDS) as run:
            run.load(BOX)
            with self.assertRaises(ValueError):
                run.line("frame\nframe")

    def test_a_long_line_and_a_long_answer(self):
        texts = ",".join('"%s"' % ("x" * 1000) for _ in range(200))
        component = '{"name":"A","fields":[["t","texts",["texts",%s]]],"body":{"w":"Row"}}' % texts
        with Held(PROGRAM, SECONDS) as run:
            run.load('{"version":1,"view":[9,9],"components":[%s],"root":{"w":"use","name":"A"}}' % component)
            run.line("frame")
            (states,) = printed.of_lines(run.line("states"))
            self.assertEqual(states.states[0].fields["t"], ["x" * 1000] * 200)
            self.assertEqual(run.line("x" * 300000), ["refused 3 1 LineTooLong"])


class WithoutIt(Case):
    def program(self, body):
        return self.file("program", f"#!/bin/sh\n{body}\n", True)

    def test_no_answer_in_time(self):
        with Held(self.program("exec sleep 60"), 0.2) as run, self.assertRaisesRegex(HeldFault, "no answer within 0.2 s"):
            run.load(BOX)

    def test_a_death_is_told(self):
        with Held(self.program("kill -9 $$"), SECONDS) as run, self.assertRaisesRegex(HeldFault, "signal 9"):
            run.load(BOX)

    def test_an_end_is_told_with_its_reason(self):
        with Held(self.program("echo no memory >&2; exit 7"), SECONDS) as run:
            with self.assertRaisesRegex(HeldFault, "status 7 .*: no memory"):
                run.load(BOX)

    def test_what_does_not_start(self):
        with self.assertRaisesRegex(HeldFault, "does not start"):
            Held(self.folder / "none")


if __name__ == "__main__":
    unittest.main()
