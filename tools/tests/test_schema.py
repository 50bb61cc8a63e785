"""Tests of bin/check-schema: it tells what is planted into the schema."""

import copy
import importlib.machinery
import importlib.util
import json
import pathlib
import unittest

TOP = pathlib.Path(__file__).resolve().parent.parent.parent
LOADER = importlib.machinery.SourceFileLoader("check_schema", str(TOP / "bin" / "check-schema"))
check_schema = importlib.util.module_from_spec(importlib.util.spec_from_loader("check_schema", LOADER))
LOADER.exec_module(check_schema)
SCHEMA = json.loads((TOP / "docs" / "program.schema.json").read_text(encoding="utf-8"))


class Tables(unittest.TestCase):
    def faults(self, change):
        schema = copy.deepcopy(SCHEMA)
        change(schema["$defs"])
        return list(check_schema.table_faults(schema))

    def test_the_schema_says_what_the_tables_say(self):
        self.assertEqual(self.faults(lambda defs: None), [])

    def test_a_planted_difference_is_told(self):
        changes = [
            lambda defs: defs["template"]["properties"]["w"]["enum"].append("Container"),
            lambda defs: defs["without_version_2"]["if"]["properties"]["w"]["enum"].remove("Keep"),
            lambda defs: defs["kind_Row"]["properties"]["main"]["enum"].append("middle"),
            lambda defs: defs["kind_Row"]["properties"]["main"].update(default="end"),
            lambda defs: defs["kind_Text"]["required"].remove("text"),
            lambda defs: defs["kind_slot"]["properties"].update(key={}),
            lambda defs: defs["kind_Align"]["properties"].pop("ay"),
            lambda defs: defs["kind_SizedBox"]["properties"]["width"].update(description="a bool"),
            lambda defs: defs["operation"]["allOf"][3]["then"].update(minItems=2, maxItems=2),
            lambda defs: defs["operation"]["prefixItems"][0]["enum"].remove("show"),
        ]
        for number, change in enumerate(changes):
            with self.subTest(number):
                self.assertTrue(self.faults(change))


if __name__ == "__main__":
    unittest.main()
