"""Tests of tools/buskeld/write.py."""

import importlib.util
import json
import pathlib
import sys
import tempfile
import unittest

TOP = pathlib.Path(__file__).resolve().parent.parent.parent
sys.path.insert(0, str(TOP / "tools"))

from buskeld import write as w  # noqa: E402


def program_of(name):
    """The program part of an example."""
    return json.loads((TOP / "examples" / f"{name}.frame").read_text(encoding="utf-8").split("\n%%\n")[0])


def written(name):
    """The program that an example in Python makes."""
    spec = importlib.util.spec_from_file_location(name, TOP / "examples" / f"{name}.py")
    module = importlib.util.module_from_spec(spec)
    spec.loader.exec_module(module)
    return module.PROGRAM


class Examples(unittest.TestCase):
    def test_they_give_the_same_program(self):
        names = sorted(path.stem for path in (TOP / "examples").glob("*.py"))
        self.assertEqual(names, ["counter", "theme", "todo"])
        for name in names:
            with self.subTest(name):
                self.assertEqual(json.loads(json.dumps(written(name))), program_of(name))

    def test_a_file_is_written(self):
        with tempfile.TemporaryDirectory() as folder:
            path = pathlib.Path(folder) / "x.frame"
            w.write(path, w.program(view=w.px(2, 1), root=w.Padding(left=w.px(16), child=w.Text("Menu", color="#2196f3"))), script=["frame"])
            first, mark, script, end = path.read_text(encoding="utf-8").split("\n")
        root = {"w": "Padding", "left": 1024, "child": {"w": "Text", "text": "Menu", "color": 0xFF2196F3}}
        self.assertEqual(json.loads(first), {"version": 1, "view": [128, 64], "root": root})
        self.assertEqual((mark, script, end), ("%%", "frame", ""))


class Kinds(unittest.TestCase):
    def test_each_kind_has_its_function(self):
        for kind in w.KINDS:
            if kind[0].isupper():
                self.assertTrue(callable(getattr(w, kind)), kind)

    def test_faults_are_told(self):
        tries = {
            "Row has no member child": lambda: w.Row(child=w.SizedBox()),
            "Text wants a member text": lambda: w.Text(),
            "main is one of start": lambda: w.Row(main="middle"),
            "is no color": lambda: w.ColoredBox(color="blue"),
            "child is a widget": lambda: w.Padding("Menu"),
            "is no name": lambda: w.slot("1st"),
            "no truth value": lambda: w.inherit("dark") and 1,
            "takes": lambda: w.component("A", w.SizedBox(), props={"n": "int"})(),
            "isn't known": lambda: w.component("A", w.SizedBox(), fields={"l": w.Expression(["prop", "x"])}),
        }
        for said, make in tries.items():
            with self.subTest(said), self.assertRaises(w.Fault) as told:
                make()
            with self.subTest(said):
                self.assertIn(said, str(told.exception))


class Expressions(unittest.TestCase):
    def test_operators(self):
        n, t = w.Field("n", "int"), w.Field("t", "text")
        field = ["field", "n"]
        for made, wanted in (
            (n + 1, ["+", field, 1]),
            (1 - n, ["-", 1, field]),
            (2 * n, ["*", field, 2]),
            (n // 2, ["div", field, 2]),
            (n % 2, ["mod", field, 2]),
            (n < 3, ["<", field, 3]),
            (n > 3, ["<", 3, field]),
            (n == 3, ["=", field, 3]),
            (~(n < 3) & (n == 1) | True, ["or", ["and", ["not", ["<", field, 3]], ["=", field, 1]], True]),
            ("a" + t, ["cat", "a", ["field", "t"]]),
            (w.show(n) + "b", ["cat", ["show", field], "b"]),
            (w.ints(1) + [2], ["cat", ["ints", 1], ["ints", 2]]),
            (w.at(w.texts("a"), n, "?") + "!", ["cat", ["at", ["texts", "a"], field, "?"], "!"]),
            (w.if_(n < 1, "a", "b") + "c", ["cat", ["if", ["<", field, 1], "a", "b"], "c"]),
            (w.event.dx + n, ["+", ["event", "dx"], field]),
        ):
            with self.subTest(wanted):
                self.assertEqual(made.form, wanted)
        self.assertEqual(n.set(n + 1), ["set", "n", ["+", field, 1]])

    def test_colors_and_lengths(self):
        self.assertEqual((w.color("#2196f3"), w.color("#802196f3"), w.color(5)), (4280391411, 0x802196F3, 5))
        self.assertEqual((w.px(16), w.px(16, version=3), w.px(1, 2)), (1024, 4096, [64, 128]))


if __name__ == "__main__":
    unittest.main()
