"""Tests of tools/buskeld/documents.py: what is planted into a document is told."""

import pathlib
import sys
import unittest

TOP = pathlib.Path(__file__).resolve().parent.parent.parent
sys.path.insert(0, str(TOP / "tools"))

from buskeld import documents  # noqa: E402

REPOSITORY = documents.Repository(TOP)


def lengths(text):
    return list(documents.length_faults("x.md", text))


class Lengths(unittest.TestCase):
    def test_a_long_line_is_told_but_in_tables_and_code(self):
        words = "word " * 30
        self.assertEqual(len(lengths(f"Short.\n\n{words}\n")), 1)
        self.assertEqual(lengths(f"| a | b |\n|---|---|\n| {words} | c |\n\n    {words}\n\n```\n{words}\n```\n"), [])

    def test_a_long_sentence_is_told(self):
        line = "ten words that stand in a line of a text\n"
        self.assertEqual(lengths(line * 6), [])
        self.assertEqual(len(lengths(line * 7)), 1)
        self.assertEqual(len(lengths("- an item\n" + f"  {line}" * 6)), 1)
        self.assertEqual(lengths(line * 4 + "that end here. Then\n" + line * 5), [])
        self.assertEqual(lengths(line * 4 + "that end `here`. `Then`\n" + line * 5), [])

    def test_what_stands_in_code_marks_is_one_word(self):
        self.assertEqual(lengths("`a b c d e f g h i j k l` [two words](docs/x.md) " + "word " * 10 + "\n"), [])
        self.assertEqual(documents.word_count("`a b c` [two words](docs/x.md) - end"), 4)

    def test_a_long_cell_is_told(self):
        self.assertEqual(len(lengths("| a |\n|---|\n| " + "word " * 41 + "|\n")), 1)
        self.assertEqual(lengths("| a |\n|---|\n| " + "word " * 40 + "| `b|c` |\n"), [])


class Names(unittest.TestCase):
    def test_a_definition_that_is_nowhere(self):
        row = "| `no_such_definition` | Len | a number |\n"
        text = f"## Lengths: `crates/fx_geom/specs`\n\n| definition | file | in words |\n|---|---|---|\n{row}"
        self.assertTrue(any("no_such_definition" in fault for fault in documents.definition_faults(REPOSITORY, text)))

    def test_a_definition_in_another_file(self):
        head = "## Lengths: `crates/fx_geom/specs`\n\n| definition | file | in words |\n|---|---|---|\n"
        right = list(documents.definition_faults(REPOSITORY, head + "| `limit_of` | Len | a number |\n"))
        wrong = list(documents.definition_faults(REPOSITORY, head + "| `limit_of` | Bounds | a number |\n"))
        self.assertFalse(any("limit_of" in fault for fault in right))
        self.assertTrue(any("`limit_of` doesn't stand in fx_geom/Bounds" in fault for fault in wrong))

    def test_a_file_of_specs_that_no_row_names(self):
        faults = list(documents.definition_faults(REPOSITORY, "# Nothing\n"))
        self.assertTrue(any("crates/fx_geom/specs/Len.antt is in no row" in fault for fault in faults))

    def test_a_call_a_clause_and_a_file(self):
        head = "| crate | call | promise | clauses | file |\n|---|---|---|---|---|\n"
        for row, told in (
            ("| `draw_records` | `push_quoted` | a text | `ok`, `err` | src/quote.rt |", None),
            ("| `draw_records` | `push_quotes` | a text | `ok` | src/quote.rt |", "push_quotes"),
            ("| `draw_records` | `push_quoted` | a text | `okay` | src/quote.rt |", "okay"),
            ("| `draw_records` | `push_quoted` | a text | `ok` | src/record.rt |", "push_quoted"),
            ("| `draw_records` | `push_quoted` | a text | `ok` | src/quotes.rt |", "src/quotes.rt"),
            ("| `draw_records` | law | a law | `laws::quoted_is_injektive` | src/laws.rt |", "quoted_is_injektive"),
            ("| `draw_record` | `push_quoted` | a text | `ok` | src/quote.rt |", "draw_record"),
        ):
            faults = list(documents.promise_faults(REPOSITORY, head + row + "\n"))
            with self.subTest(row):
                self.assertEqual(any(told in fault for fault in faults) if told else faults, bool(told) or [])

    def test_names_in_a_text(self):
        told = list(documents.name_faults(REPOSITORY, "x.md", "What `no_such_name` gives, `push_quoted` and `src/quote.rt`.\n"))
        self.assertEqual(told, ["x.md:1: nothing has the name `no_such_name`"])
        text = "In `draw_records` `quote` has texts, and `no_such_file` more.\n"
        self.assertTrue(any("no_such_file" in fault for fault in documents.architecture_faults(REPOSITORY, text)))

    def test_a_line_that_no_example_has(self):
        text = "`examples/first.frame` has\n\n    frame\n    rect 10 5 90 45 ff0000ff\n"
        self.assertEqual(list(documents.shown_faults(REPOSITORY, "x.md", text)), [])
        for planted in (text.replace("90 45", "91 45"), text.replace("first", "last"), text.replace("has\n", "has\n\n## More\n")):
            self.assertTrue(list(documents.shown_faults(REPOSITORY, "x.md", planted)))

    def test_the_table_of_crates(self):
        faults = list(documents.architecture_faults(REPOSITORY, "| crate | what for |\n|---|---|\n| `fx_geometry` | lengths |\n"))
        self.assertTrue(any("there is no crate fx_geometry" in fault for fault in faults))
        self.assertTrue(any("has fx_geom 0 times" in fault for fault in faults))


if __name__ == "__main__":
    unittest.main()
