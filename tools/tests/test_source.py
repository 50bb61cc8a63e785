"""Inputs in their parts, and JSON with places."""

import json
import unittest

from .support import Case, given, marked, place_of

from buskeld import json_text, source
from buskeld.json_text import JsonFault, Text


class Parts(Case):
    def test_the_program_and_the_script(self):
        made = given("{}\n%%  \r\nframe\r\n\nup 1")
        self.assertEqual(made.program.content, "{}\n")
        self.assertEqual(made.script, ["frame", "", "up 1"])
        self.assertEqual([made.place(1), made.place(3)], ["app.frame:3", "app.frame:5"])

    def test_a_space_before_the_return_stays(self):
        self.assertEqual(given("{}\n%%\r \nframe\n").script, [])

    def test_without_an_end_all_is_the_program(self):
        made = given("{}")
        self.assertEqual((made.program.content, made.script), ("{}", []))

    def test_bytes_stay_as_they_are(self):
        path = self.folder / "a.frame"
        path.write_bytes(b"{}\n%%\nset #1 t \"\xff\"\n")
        self.assertEqual(source.inputs_of([path])[0].data, path.read_bytes())

    def test_two_files(self):
        program, played = self.file("app.json", "{}"), self.file("app.script", "frame\n")
        one, other = source.inputs_of([program, played, self.file("b.frame", "{}\n%%\n")])
        self.assertEqual(one.data, b"{}\n%%\nframe\n")
        self.assertEqual(one.place(1), f"{played}:1")
        self.assertEqual(other.script, [])

    def test_what_is_no_file(self):
        for name in (self.folder, self.folder / "none.frame"):
            with self.assertRaises(source.BadInput):
                source.inputs_of([name])


class Json(unittest.TestCase):
    def test_values_are_those_of_json(self):
        text = '{"a": [1, -2, "\\u00e9\\n\\ud83d\\ude00", true, null], "b": {}, "a ": []}'
        self.assertEqual(json_text.read(Text("t", text)).plain(), json.loads(text))

    def test_values_know_where_they_stand(self):
        text, at = marked('{\n  "a": [1,\n    «"x"]\n}')
        node = json_text.read(Text("t", text)).member("a").value.entries[1]
        self.assertEqual((node.start, node.source(), node.shown()), (at, '"x"', "t:3:5"))

    def test_of_two_members_the_last_counts(self):
        self.assertEqual(json_text.read(Text("t", '{"a": 1, "a": 2}')).member("a").value.value, 2)

    def test_faults_are_found_where_they_are(self):
        deep = "[" * 127 + "«[" + "]" * 128
        rows = [
            "«", "{«", '{"a" «1}', '{"a": 1,«}', "[1,«]", "[1«", '«"abc', "[«'a']", "[«01]", "[«-]", "[1«x]", '["a«\\x"]',
            '["«\t"]', '["«\\ud800"]', '["«\\udc00"]', "[1]«2", "{}\n«// so\n", "«\ufeff{}", '{"a": «1e999}', "[«\udcff]", "[«1.]", deep,
        ]
        for row in rows:
            with self.subTest(row):
                text, at = marked(row)
                with self.assertRaises(JsonFault) as caught:
                    json_text.read(Text("t", text))
                self.assertEqual(place_of(text, caught.exception.offset), place_of(text, at))
                self.assertTrue(caught.exception.why)


if __name__ == "__main__":
    unittest.main()
