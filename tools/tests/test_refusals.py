"""Causes of refusals, and the tables of docs/FORMATS.md that are made from them."""

import re
import unittest

from .support import script

from buskeld import paths, printed, refusals


class Tables(unittest.TestCase):
    def test_the_document_has_them(self):
        text = paths.FORMATS.read_text(encoding="utf-8")
        self.assertEqual(len(refusals.MARKED.findall(text)), len(refusals.HEADS))
        self.assertEqual(refusals.with_tables(text), text)

    def test_the_script_says_so(self):
        self.assertEqual(script("refusal-tables", "--check")[0], 0)
        self.assertEqual(script("refusal-tables", "--chek")[0], 2)

    def test_a_table_that_is_behind_is_made_anew(self):
        text = paths.FORMATS.read_text(encoding="utf-8")
        behind = text.replace("| 5 | an operator is unknown |", "| 5 | an operater is unknown |")
        self.assertNotEqual(behind, text)
        self.assertEqual(refusals.with_tables(behind), text)

    def test_each_code_has_one_row(self):
        tables = refusals.tables()
        self.assertEqual([row["code"] for row in tables["program shape"]], list(range(1, 11)))
        self.assertEqual([row["code"] for row in tables["program check"]], list(range(1, 8)))
        self.assertEqual([row["code"] for row in tables["refused"]], [code for code in range(1, 27) if code != 21])
        self.assertEqual(len(tables["fault"]) + len(tables["program"]), 7)

    def test_each_refusal_of_the_examples_has_its_cause(self):
        for path in sorted(paths.EXAMPLES.glob("*.out")):
            for block in printed.read(path.read_text(encoding="utf-8")):
                if block.kind in ("refused", "fault", "program"):
                    row = refusals.of_block(block)
                    self.assertTrue(row and row["when"] and row["advice"], block.lines)
                    if block.kind == "refused":
                        self.assertEqual(row["name"], block.name)

    def test_a_refusal_has_a_row_for_each_name_of_the_program(self):
        source = "".join(path.read_text(encoding="utf-8") for path in (paths.TOP / "crates").glob("*/src/*.rt"))
        for row in refusals.tables()["refused"]:
            self.assertTrue(re.search(rf"\b{row['name']}\b", source), row["name"])


if __name__ == "__main__":
    unittest.main()
