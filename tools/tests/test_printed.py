"""The printed text as data."""

import unittest

from .support import PROGRAMS

from buskeld import paths, printed


class Blocks(unittest.TestCase):
    def test_each_stored_text_is_read_whole(self):
        stored = sorted(paths.EXAMPLES.glob("*.out")) + sorted(PROGRAMS.glob("*.out"))
        self.assertGreater(len(stored), 18)
        for path in stored:
            with self.subTest(path.name):
                text = path.read_text(encoding="utf-8")
                blocks = printed.read(text)
                self.assertEqual("".join(line + "\n" for block in blocks for line in block.lines), text)
                self.assertNotIn("line", {block.kind for block in blocks})
                self.assertNotIn("cut", {block.kind for block in blocks})

    def test_a_frame(self):
        text = 'frame 2\nnote #3 overflow 64\nnote #4 unbounded\noffset 0 0\n  opacity 1 2 128\n    picture\n      rect 1 2 3 4 ff0000ff\n'
        text += '  clip 5 6 7 8\n    picture\n      text -1 0 ff000000 "a \\"b\\" \\u000a"\nend\n'
        (frame,) = printed.read(text)
        self.assertEqual((frame.kind, frame.number), ("frame", 2))
        self.assertEqual([(note.node, note.kind, note.length) for note in frame.notes], [(3, "overflow", 64), (4, "unbounded", 0)])
        opacity, clip = frame.root.items
        self.assertEqual((opacity.kind, opacity.x, opacity.y, opacity.alpha), ("opacity", 1, 2, 128))
        self.assertEqual(opacity.items[0].records[0].size, (3, 4))
        self.assertEqual((clip.size, clip.items[0].records[0].text), ((7, 8), 'a "b" \n'))

    def test_what_lines_print(self):
        text = "hits #3 #1\nhits\narena 1 #4 tap\narena 2 none\ntap #4\nstart #5 pan\nupdate #5 pan -1 2\nend #5 pan\nfocus #6\nfocus none\n"
        text += "refused 7 12 PointerIsUp\nfault repeated-global-key \"a b\"\nchecked 3\n"
        hits, none, arena, nobody, tap, start, update, end, focus, away, refused, fault, checked = printed.read(text)
        self.assertEqual((hits.nodes, none.nodes), ([3, 1], []))
        self.assertEqual((arena.pointer, arena.node, arena.gesture, nobody.node), (1, 4, "tap", None))
        self.assertEqual((tap.kind, tap.node, start.gesture, update.moved, end.kind), ("tap", 4, "pan", (-1, 2), "end"))
        self.assertEqual((focus.node, away.node), (6, None))
        self.assertEqual((refused.number, refused.code, refused.name), (7, 12, "PointerIsUp"))
        self.assertEqual((fault.name, fault.key, checked.components), ("repeated-global-key", '"a b"', 3))

    def test_semantics_and_states_and_cells(self):
        text = 'semantics\n#0 0 0 9 9 "a\\u000ab"\n  #3 1 2 3 4 "" button tap\n    #4 1 2 3 4 "x" long\n  #5 0 0 1 1 "y"\nend\n'
        text += 'states\n#1 A n=-1 t="a b=\\"" b=true l=[1,2] m=["x",""] e=[]\n#2 Viewport scroll=7\nend\n'
        text += 'cells 2 1 2\n"好"\nend\n'
        semantics, states, cells = printed.read(text)
        self.assertEqual([node.node for node in semantics.each()], [0, 3, 4, 5])
        inner = semantics.nodes[0].below[0]
        self.assertEqual((inner.area, inner.marks, inner.below[0].label), ((1, 2, 3, 4), ["button", "tap"], "x"))
        self.assertEqual(states.states[0].fields, {"n": -1, "t": 'a b="', "b": True, "l": [1, 2], "m": ["x", ""], "e": []})
        self.assertEqual((states.states[1].name, states.states[1].fields), ("Viewport", {"scroll": 7}))
        self.assertEqual((cells.columns, cells.rows, cells.damage, cells.texts), (2, 1, 2, ["好"]))

    def test_programs_that_are_refused(self):
        json, shape, top, check = printed.read("program json\nprogram shape 3 /root/w\nprogram shape 1 \nprogram check 2 -\n")
        self.assertEqual((json.table, shape.code, shape.place, top.place), ("json", 3, "/root/w", ""))
        self.assertEqual((check.table, check.code, check.place), ("check", 2, "-"))

    def test_a_text_that_is_cut_off(self):
        tap, cut = printed.read("tap #1\nframe 1\noffset 0 0\n")
        self.assertEqual((tap.kind, cut.kind, cut.lines), ("tap", "cut", ["frame 1", "offset 0 0"]))

    def test_what_is_none(self):
        with self.assertRaises(printed.Unreadable):
            printed.read("tap 4x\n")


if __name__ == "__main__":
    unittest.main()
