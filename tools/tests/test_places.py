"""A mistake of each code of `program shape` and of `program check` is found by line and column, by the program's own check.
In each row the mark « stands right before the place that has to be told."""

import unittest

from .support import PROGRAM, ProgramCase, ask, given, marked, place_of

from buskeld import check_fault, json_text, schema, shape_fault
from buskeld.explain import Explainer

WHOLE = '{"version": 1, "view": [640, 640],\n %s}'
ROOT = WHOLE % '"root":\n  %s'
BODY = WHOLE % (
    '"inherited": [["theme", "int", 0]],\n "components": [\n'
    '  {"name": "Face", "props": [["label", "text"], ["size", "int"]], "slots": ["inside"], "body": {"w": "SizedBox"}},\n'
    '  {"name": "List", "body": {"w": "SliverFixed", "extent": 64}},\n'
    '  {"name": "Page", "props": [["title", "text"]], "fields": [["count", "int", 0], ["names", "texts", ["texts"]]],\n   "body":\n    %s},\n'
    '  {"name": "Later", "body": {"w": "SizedBox"}}],\n "root": {"w": "use", "name": "Page", "props": {"title": ""}}'
)

SHAPE = [
    (1, ROOT % '«{"w": "Text"}', "lacks `text`"),
    (1, ROOT % '«{"w": "Text", "txt": "a"}', "is `txt` meant to be that?"),
    (1, '«{"version": 1, "root": {"w": "Row"}}', "lacks `view`"),
    (1, ROOT % '{"w": "Row", "children": [\n   {"w": "Row"},\n   «{}]}', "lacks `w`"),
    (2, ROOT % '{"w": "Row",\n   «"chldren": []}', "Did you mean `children`?"),
    (2, WHOLE % '"root": {"w": "Row"},\n «"titel": 1', "no member `titel`"),
    (3, ROOT % '{"w": "Row", "main": «"centre"}', "Did you mean `center`?"),
    (3, ROOT % '{"w": "Row", "children": «{"w": "Row"}}', "an object stands here; wanted is a list"),
    (3, ROOT % '{"w": "SizedBox", "width": «null}', "wanted is an expression"),
    (3, ROOT % '«7', "wanted is a widget"),
    (3, WHOLE % '"components": [{"name": "A", "props": [["a", «"number"]], "body": {"w": "Row"}}], "root": {"w": "Row"}', "one of `int`"),
    (4, ROOT % '{"w": «"Paddin", "left": 1}', "Did you mean `Padding`?"),
    (4, ROOT % '{"w": «"Wrap"}', "from version 3 on"),
    (5, ROOT % '{"w": "SizedBox", "width": [«"plus", 1, 2]}', "no operator `plus`"),
    (5, ROOT % '{"w": "SizedBox", "width": ["+", 1, [«"rang", 2]]}', "Did you mean `range`?"),
    (6, ROOT % '{"w": "SizedBox", "width": «["+", 1]}', "takes 2 operands, and has 1 here"),
    (6, ROOT % '{"w": "Detector", "tap": [\n   «["set", "count"]]}', "2 entries, and 3 are wanted"),
    (6, ROOT % '{"w": "SizedBox", "width": «[]}', "begins with an operator"),
    (7, ROOT % '{"w": "use", "name": «"my-page"}', "is no name"),
    (7, ROOT % '{"w": "use", "name": "Page", "props": {\n   "a": 1,\n   «"1st": 2}}', "`1st` is no name"),
    (8, ROOT % '{"w": "SizedBox", "width": «1.5}', "1.5 is no integer"),
    (8, ROOT % '{"w": "SizedBox", "width": «9223372036854775808}', "no integer of 64 bits"),
    (9, ROOT % ('{"w": "Text", "text": «"%s"}' % ("é" * 513)), "1026 bytes"),
    (9, ROOT % ('{"w": "Row", "children": «[%s]}' % ",".join(['{"w": "Row"}'] * 4097)), "4097 entries"),
    (10, '{"version": «4, "view": [1, 1], "root": {"w": "Row"}}', "wanted is 1, 2 or 3"),
    (10, '{"version": 1, "view": [1,\n  «0], "root": {"w": "Row"}}', "from 1 to 16,777,216"),
]

CHECK = [
    (1, WHOLE % '"inherited": [["a", "int", 0], [«"a", "text", ""]], "root": {"w": "Row"}', "`a` is declared already"),
    (1, WHOLE % '"components": [{"name": "A", "body": {"w": "Row"}},\n {"name": «"A", "body": {"w": "Row"}}], "root": {"w": "Row"}', "`A`"),
    (1, WHOLE % '"components": [{"name": "A", "slots": ["s",\n «"s"], "body": {"w": "Row"}}], "root": {"w": "Row"}', "`s`"),
    (2, BODY % '{"w": "Text", "text": ["show", ["field", «"cuont"]]}', "Did you mean `count`?"),
    (2, BODY % '{"w": "Text", "text": ["prop", «"titel"]}', "Did you mean `title`?"),
    (2, BODY % '{"w": "Row", "children": [{"w": "each", "var": "name", "in": ["field", "names"], "body":\n {"w": "Text", "text": ["var", «"nam"]}}]}', "`name`"),
    (2, BODY % '{"w": "SizedBox", "width": ["inherit", «"them"]}', "Did you mean `theme`?"),
    (2, BODY % '{"w": "Inherit", "name": «"them", "value": 1, "child": {"w": "Row"}}', "Did you mean `theme`?"),
    (2, BODY % '{"w": "SizedBox", "width": ["event", «"dx"]}', "in handlers alone"),
    (2, BODY % '{"w": "Detector", "tap": [["set", "count", 1], ["set", «"total", 1]]}', "no field `total`"),
    (2, BODY % '{"w": "slot", "name": «"inside"}', "no slot `inside`"),
    (2, BODY % '{"w": "use", "name": «"Fase"}', "Did you mean `Face`?"),
    (3, BODY % '{"w": "Text", "text": «["field", "count"]}', "this is an int; wanted is a text"),
    (3, BODY % '{"w": "Padding", "child": {"w": "SizedBox", "width": ["+", 1, ["len", «["field", "count"]]]}}', "wanted is a list"),
    (3, BODY % '{"w": "Detector", "tap": [["set", "count", «["cat", "a", "b"]]]}', "this is a text; wanted is an int"),
    (3, BODY % '{"w": "SizedBox", "key": ["global", «1]}', "wanted is a text"),
    (3, BODY % '{"w": "use", "name": "Face", "props": {"label": "a",\n "size": «"b"}, "slots": {"inside": {"w": "Row"}}}', "this is a text"),
    (4, BODY % '{"w": "Column", "children": [{"w": "Row"},\n «{"w": "use", "name": "List"}]}', "a box is wanted here"),
    (4, BODY % '{"w": "Viewport", "children": [\n {"w": "use", "name": "List"},\n «{"w": "Text", "text": "a"}]}', "a sliver is wanted here"),
    (5, BODY % '{"w": "Flexible", "child": «{"w": "if", "cond": true, "then": {"w": "Row"}}}', "give it an `else`"),
    (5, BODY % '{"w": "Padding", "child":\n «{"w": "each", "var": "v", "in": ["range", 2], "body": {"w": "Row"}}}', "only in a list of children"),
    (5, BODY % '«{"w": "if", "cond": true, "then": {"w": "Row"}}', "give it an `else`"),
    (6, BODY % '{"w": "Row", "children": [{"w": "use",\n "name": «"Page"}]}', "in its own body"),
    (6, BODY % '{"w": "use", "name": «"Later"}', "before its declaration"),
    (7, BODY % '«{"w": "use", "name": "Face"}', "declares `label`, `size` in its props"),
    (7, BODY % '{"w": "use", "name": "Face", "props": «{"lable": "", "size": 1}}', "is `lable` meant to be that?"),
    (7, BODY % '{"w": "use", "name": "Face", "props": {"label": "", "size": 1,\n "color": «1}}', "declares no `color`"),
    (7, BODY % '{"w": "use", "name": "Face", "props": {"label": "", "size": 1}, "slots": {"inside": {"w": "Row"}, "out":\n «{"w": "Row"}}}', "`out`"),
]

# Two faults each: the first in the order of the check is the one that is told, and the one that is found.
SEVERAL = [
    BODY % '{"w": "Row", "children": [{"w": "Text", "text": «1}, {"w": "Text", "text": 2}]}',
    BODY % '{"w": "Row", "children": [{"w": "Text", "text": ["show", «"a"], "color": "b"}, {"w": "use", "name": "X"}]}',
    BODY % '{"w": "SizedBox", "width": ["len", ["cat", ["field", «"x"], 1]], "height": ["field", "y"]}',
    BODY % '{"w": "Flexible", "child": «{"w": "if", "cond": 1, "then": {"w": "if", "cond": true, "then": {"w": "Row"}}}}',
]


class Places(ProgramCase):
    def told(self, text):
        """What the program says of a program, and the place that is found."""
        (line,) = ask([text.encode("utf-8")])
        program = json_text.read(json_text.Text("here", text))
        words = line.split(" ", 3)
        if words[1] == "shape":
            return line, shape_fault.shape_place(program, int(words[2]), words[3])
        return line, check_fault.check_place(program, line, ask)

    def compare(self, table, rows):
        for code, row, said in rows:
            with self.subTest(row[-90:]):
                text, at = marked(row)
                line, place = self.told(text)
                self.assertEqual(line.split(" ")[:3], ["program", table, str(code)])
                self.assertEqual(place_of(text, place.offset), place_of(text, at))
                self.assertIn(said, place.said)

    def test_each_code_of_form(self):
        self.assertEqual({code for code, _, _ in SHAPE}, set(range(1, 11)))
        self.compare("shape", SHAPE)

    def test_each_code_of_the_check(self):
        self.assertEqual({code for code, _, _ in CHECK}, set(range(1, 8)))
        self.compare("check", CHECK)

    def test_of_several_faults_the_first(self):
        for row in SEVERAL:
            with self.subTest(row[-90:]):
                text, at = marked(row)
                self.assertEqual(place_of(text, self.told(text)[1].offset), place_of(text, at))

    def test_many_at_once(self):
        text, at = marked(BODY % '{"w": "Text", "text": ["show", ["field", «"cuont"]]}')
        program = json_text.read(json_text.Text("here", text))
        for width in (1, 3, 200):
            place = check_fault.check_place(program, "program check 2 Page", ask, width)
            self.assertEqual(place.offset, at)

    def test_what_is_not_told_is_not_found(self):
        program = json_text.read(json_text.Text("here", BODY % '{"w": "Row"}'))
        with self.assertRaises(check_fault.NotFound):
            check_fault.check_place(program, "program check 2 Page", ask)

    def test_a_template_of_a_script_line(self):
        text = '{"version":1,"view":[9,9],"root":{"w":"Row"}}\n%%\nframe\nroot {"w":"Text","text":["cat","a",1]}\nroot {"w":"Txt"}\nroot {\n'
        run = Explainer(given(text), ask, 1, PROGRAM)
        told = run.of_text("refused 2 17 WidgetCheck\nrefused 3 16 BadWidget\nrefused 4 16 BadWidget\n")
        self.assertIn("  app.frame:4:36: this is an int; wanted is a text", told)
        self.assertIn("  app.frame:5:11: there is no kind `Txt`. Did you mean `Text`?", told)
        self.assertIn("  app.frame:6:7: the text ends in an object", told)


class Schema(unittest.TestCase):
    def test_nearest_words(self):
        self.assertEqual(schema.nearest("paddin", schema.kinds()), "Padding")
        self.assertEqual(schema.nearest("COLUMN", schema.kinds()), "Column")
        self.assertEqual(schema.nearest("Mroe", ["More", "Move", "0"]), "More")
        self.assertIsNone(schema.nearest("Scaffold", schema.kinds()))
        self.assertIsNone(schema.nearest("7", ["0", "1"]))

    def test_versions(self):
        self.assertEqual([schema.version_of(name) for name in ("Row", "Keep", "Table")], [1, 2, 3])


if __name__ == "__main__":
    unittest.main()
