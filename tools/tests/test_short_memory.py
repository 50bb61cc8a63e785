"""bin/check-memory: what it reads of case files, and what it finds wrong with a run in which an allocation was refused."""

import shutil
import unittest

from .support import PROGRAM, Case, ProgramCase, script

from buskeld import short_memory

TEXT = """# One case, one with parts, one form.
case an empty frame
word demo
< {"version":1}
< %%
> frame 1
> end
status 1

case parts
<- {"version"
> end

form many
< @
> @

case another
< frame
> end
"""


class Reading(unittest.TestCase):
    def test_cases_are_read_that_their_lines_say_whole(self):
        first, second = short_memory.cases_of(TEXT)
        self.assertEqual((first.name, first.words, first.status), ("an empty frame", ["demo"], 1))
        self.assertEqual((first.given, first.text), ('{"version":1}\n%%\n', "frame 1\nend\n"))
        self.assertEqual((second.name, second.given, second.text, second.status), ("another", "frame\n", "end\n", 0))

    def test_the_cases_that_are_run_without_a_file_are_there(self):
        for name, of in short_memory.CASES:
            self.assertEqual(len(short_memory.named(short_memory.DATA / name, of)), 1)

    def test_a_case_that_is_not_there_is_told(self):
        with self.assertRaises(short_memory.NoCases):
            short_memory.named(short_memory.DATA / "counter.cases", "no such case")


class Sweeping(unittest.TestCase):
    """Sweeps of a case with three allocations, by a program that is only pretended."""

    def setUp(self):
        self.case = short_memory.Case("three", given="frame\n", text="frame 1\nend\n")

    def sweep(self, ends):
        """A sweep where the runs that refuse these allocations end so, and no other one is reached."""
        return short_memory.sweep(self.case, lambda first, last: (*ends[first], True) if first in ends else (0, self.case.text, False))

    def test_fronts_with_status_7_are_as_wanted(self):
        swept = self.sweep({1: (7, ""), 2: (7, "frame 1\n"), 3: (7, "frame 1\nend\n")})
        self.assertEqual((swept.allocations, swept.runs, swept.without, len(swept.fronts), swept.faults), (3, 6, 0, 3, []))

    def test_a_run_may_do_without_what_was_refused(self):
        swept = self.sweep({1: (0, "frame 1\nend\n")})
        self.assertEqual((swept.allocations, swept.runs, swept.without, swept.faults), (1, 2, 2, []))

    def test_other_ends_are_faults(self):
        swept = self.sweep({1: (0, ""), 2: (7, "frame 2\n"), 3: (7, "fra"), 4: (None, "")})
        self.assertEqual(len(swept.faults), 8)
        self.assertIn("allocation 1: wanted status 7, found 0", swept.faults)
        self.assertIn("allocation 2 and all later: what it wrote is no front of the text: 'frame 2\\n'", swept.faults)
        self.assertIn("allocation 3: what it wrote ends within a line: 'fra'", swept.faults)

    def test_a_run_in_which_nothing_is_refused_has_to_be_the_case(self):
        swept = short_memory.sweep(self.case, lambda first, last: (0, "", False))
        self.assertEqual(len(swept.faults), 1)

    def test_many_allocations_are_not_all_refused(self):
        seen = []

        def run(first, last):
            seen.append(first)
            return (7, "", True) if first <= 2300 else (0, self.case.text, False)

        swept = short_memory.sweep(self.case, run)
        self.assertEqual((swept.allocations, swept.runs), (2291, 2 * (2000 + 3)))
        self.assertEqual(seen[-1], 2388)


@unittest.skipUnless(shutil.which("cc"), "no C compiler is installed")
class Running(ProgramCase):
    """Runs of the built program."""

    def test_an_empty_frame(self):
        cases = self.file("own.cases", 'case a frame\n< {"version":1,"view":[1,1],"root":{"w":"SizedBox"}}\n< %%\n< frame\n> frame 1\n> offset 0 0\n> end\n')
        status, text, told = script("check-memory", PROGRAM, cases)
        self.assertEqual((status, told), (0, ""), text)
        self.assertRegex(text, r"^a frame: \d\d+ allocations, \d+ runs, .*, 0 faults\n$")

    def test_another_text_is_told(self):
        cases = self.file("own.cases", "case nothing\n< %%\n> frame 1\n")
        status, _, told = script("check-memory", PROGRAM, cases)
        self.assertEqual(status, 1)
        self.assertIn("bin/check-memory: nothing: with nothing refused: status 3, or another text\n", told)


class Words(Case):
    def test_without_words_it_says_how_it_is_called(self):
        status, _, told = script("check-memory")
        self.assertEqual(status, 2)
        self.assertIn("usage: bin/check-memory PROGRAM", told)
