#!/usr/bin/env python3
"""inputs [ROW SIZE REPEATS]: writes the input of a row of the table, which is always the same for the same three;
without words it lists the rows. `inputs --check PROGRAM` runs the smallest of each row and tells where its status isn't
the row's."""
import dataclasses
import json
import random
import subprocess
import sys
import typing

STRIP = 128
TEXT = "The quick brown fox jumps over the lazy dog, and 漢字 stand beside it; naïve façades don't. "


def use(name, **given):
    return {"w": "use", "name": name} | {member: value for member, value in given.items() if value}


def repeated(name, count, body):
    return {"w": "each", "var": name, "in": ["range", count], "body": body}


def box(kind, child=None, **members):
    return {"w": kind} | members | ({"child": child} if child else {})


def component(name, body, props=(), fields=()):
    return {"name": name, "props": list(props), "fields": list(fields), "body": body}


def program(root, components=(), view=(1_000_000, 1_000_000), inherited=()):
    whole = {"version": 1, "view": list(view), "inherited": list(inherited), "components": list(components)}
    whole["root"] = root
    return (json.dumps(whole, ensure_ascii=False) + "\n%%\n").encode()


def repeat(lines, times):
    """Lines, which may be too many to be held at once, so many times."""
    whole = max(1, min(times, (1 << 20) // max(1, len(lines))))
    for _ in range(times // whole):
        yield lines * whole
    yield lines * (times % whole)


def first(size, times):
    """A Column of Rows of 128 boxes that are drawn; frames of it."""
    rows = max(1, (size - 1) // 257)
    leaf = box("SizedBox", box("ColoredBox", color=["var", "v"]), width=8, height=8)
    row = {"w": "Row", "children": [repeated("v", 128, leaf)]}
    yield program({"w": "Column", "children": [repeated("r", rows, row)]})
    yield from repeat(b"frame\n", times)


def strips(size, drawn):
    """A component Board, over strips of 128 Leaves and a box, with a boundary for layout and for painting round each:
    each Leaf is drawn, or none, and the box of a strip is."""
    count = max(1, (size - 2) // ((3 if drawn else 2) * STRIP + 5))
    leaf = box("SizedBox", box("ColoredBox", color=["field", "n"]) if drawn else None, width=["field", "n"], height=8)
    mark = box("SizedBox", box("ColoredBox", color=7), width=8, height=8)
    leaves = {"w": "Row", "children": [repeated("v", STRIP, use("Leaf")), mark]}
    strip = box("SizedBox", box("RepaintBoundary", leaves), width=4096, height=16)
    board = {"w": "Column", "children": [repeated("s", count, strip)]}
    components = [component("Leaf", leaf, fields=[["n", "int", 8]]), component("Board", board)]
    return use("Board"), components, count


def leaf_of(drawn, strip, leaf):
    """The number of a Leaf: the Board and its Column come first, and each strip has three nodes above its Row's."""
    each = 3 if drawn else 2
    return 3 + strip * (STRIP * each + 5) + 3 + leaf * each


def nothing(drawn):
    def write(size, times):
        root, components, _ = strips(size, drawn)
        yield program(root, components)
        yield b"frame\n"
        yield from repeat(b"frame\n", times)

    return write


def one_leaf(size, times):
    root, components, count = strips(size, False)
    yield program(root, components)
    yield b"frame\n"
    for k in range(times):
        yield b"set #%d n %d\nframe\n" % (leaf_of(False, k % count, k % STRIP), 8 + k % 5)


def set_lines(size, times):
    root, components, count = strips(size, False)
    yield program(root, components)
    yield b"frame\n"
    lines = [b"set #%d n %d\n" % (leaf_of(False, k % count, k % STRIP), 8 + k % 5) for k in range(1000)]
    for k in range(times):
        yield lines[k % 1000]


def beside(size, other, members):
    """A program of the strips and another box after them, and the number of what is in this box."""
    root, components, count = strips(size - 150, False)
    row = {"w": "Row", "children": [root, box("SizedBox", other, width=4096, height=4096)]}
    return program(row, components + members), leaf_of(False, count, 0) - 1


def scroll_lines(size, times):
    tile = box("ColoredBox", color=5)
    listed = {"w": "SliverFixed", "extent": 640, "children": [repeated("v", 64, tile)]}
    text, viewport = beside(size, {"w": "Viewport", "children": [listed]}, [])
    yield text + b"frame\n"
    yield from repeat(b"scroll #%d 100\nscroll #%d -100\n" % (viewport, viewport), times // 2)


def tap_lines(size, times):
    button = box("Detector", box("ColoredBox", color=["field", "n"]), tap=[["set", "n", ["+", ["field", "n"], 1]]])
    text, _ = beside(size, use("Button"), [component("Button", button, fields=[["n", "int", 0]])])
    yield text + b"frame\n"
    yield from repeat(b"down 1 4101 498000\nup 1\n", times)


def inherited(size, times):
    rows = max(1, (size - 3) // 385)
    leaf = box("SizedBox", box("ColoredBox", color=["inherit", "ink"]), width=8, height=8)
    row = {"w": "Row", "children": [repeated("v", 128, use("Leaf"))]}
    tall = {"w": "Column", "children": [repeated("r", rows, row)]}
    board = box("Inherit", tall, name="ink", value=["field", "c"])
    components = [component("Leaf", leaf), component("Board", board, fields=[["c", "int", 1]])]
    yield program(use("Board"), components, inherited=[["ink", "int", 0]])
    yield b"frame\n"
    for k in range(times):
        yield b"set #1 c %d\nframe\n" % (k % 1000)


def scrolled(size, times):
    tile = component("Tile", box("ColoredBox", color=["field", "n"]), [["i", "int"]], [["n", "int", ["prop", "i"]]])
    item = use("Tile", key=["local", ["var", "v"]], props={"i": ["var", "v"]})
    listed = {"w": "SliverFixed", "extent": 640, "children": [repeated("v", size, item)]}
    yield program({"w": "Viewport", "children": [listed]}, [tile], (12_800, 12_800))
    yield b"frame\n"
    yield from repeat(b"scroll #1 6000\nframe\nscroll #1 -3000\nframe\n", times // 2)


def keyed(size, times):
    drawn = box("SizedBox", box("ColoredBox", color=["field", "n"]), width=8, height=8)
    item = component("Item", drawn, [["i", "int"]], [["n", "int", ["prop", "i"]]])
    each = {"w": "each", "var": "v", "in": ["field", "l"],
            "body": use("Item", key=["local", ["var", "v"]], props={"i": ["var", "v"]})}
    board = component("Board", {"w": "Column", "children": [each]}, fields=[["l", "ints", ["range", size]]])
    yield program(use("Board"), [item, board])
    yield b"frame\n"
    chance = random.Random(1)
    orders = []
    for _ in range(8):
        order = list(range(size))
        chance.shuffle(order)
        orders.append(b"set #1 l %s\nframe\n" % json.dumps(order, separators=(",", ":")).encode())
    for k in range(times):
        yield orders[k % 8]


def texts(size, times):
    """Paragraphs that are wrapped afresh at each frame, since the view has another width."""
    paragraph = (TEXT * 8)[:700]
    text = {"w": "Text", "text": ["cat", ["cat", ["show", ["var", "v"]], " "], paragraph]}
    yield program({"w": "Column", "cross": "start", "children": [repeated("v", size, text)]}, view=(20_000, 16_000_000))
    yield b"frame\n"
    for k in range(times):
        yield b"resize %d 16000000\nframe\n" % (20_000 + 512 * (k % 7 + 1))


def refused(_, times):
    yield program({"w": "SizedBox"})
    yield from repeat(b"x\n", times)


def empty(_, times):
    yield program({"w": "SizedBox"})
    yield from repeat(b"\n", times)


def gestures(size, times):
    """Detectors in one another with all gestures, each the body of a component, of which a program has at most 256; and
    32 pointers that go down, move and go up."""
    tree = box("ColoredBox", color=1)
    for _ in range(6):
        tree = {"w": "Padding", "child": tree}
    handlers = {gesture: [] for gesture in ("tap", "long", "vertical", "horizontal", "pan")}
    components = []
    for k in range(size):
        components.append(component(f"Nest{k}", box("Detector", use(f"Nest{k - 1}") if k else tree, **handlers)))
    yield program(use(f"Nest{size - 1}"), components)
    yield b"frame\n"
    lines = []
    for word, at in ("down", 0), ("move", 500), ("move", 1000), ("move", 2000), ("move", 5000):
        lines += [b"%s %d %d %d\n" % (word.encode(), p, 10 + p, 10 + p + at) for p in range(32)]
    lines += [b"up %d\n" % p for p in range(32)]
    yield from repeat(b"".join(lines), times)


def hits(size, times):
    rows = max(1, (size - 1) // 513)
    leaf = box("SizedBox", box("ColoredBox", color=1), width=8, height=8)
    row = {"w": "Row", "children": [repeated("v", 256, leaf)]}
    yield program({"w": "Column", "children": [repeated("r", rows, row)]}, view=(2048, 8 * rows))
    yield b"frame\n"
    chance = random.Random(1)
    lines = b"".join(b"hit %d %d\n" % (chance.randrange(2048), chance.randrange(8 * rows)) for _ in range(1000))
    for k in range(times // 1000):
        yield lines
    yield b"".join(lines.splitlines(True)[:times % 1000])


def semantics(size, times):
    rows = max(1, (size - 1) // 129)
    leaf = box("Semantics", {"w": "SizedBox"}, label=["cat", "item ", ["show", ["var", "v"]]], container=True)
    other = box("Detector", {"w": "Text", "text": ["show", ["var", "v"]]}, tap=[])
    row = box("MergeSemantics", {"w": "Row", "children": [repeated("v", 8, leaf)]})
    tall = {"w": "Row", "children": [repeated("v", 32, leaf), repeated("v", 20, other), row]}
    yield program({"w": "Column", "children": [repeated("r", rows, tall)]})
    yield b"frame\n"
    yield from repeat(b"semantics\n", times)


def limits(size, times):
    """As many nodes as there may be, with long texts that differ, and frames of them."""
    rows = max(1, (size - 1) // 257)
    words = ["cat", ["cat", ["show", ["var", "r"]], " "], ["cat", ["show", ["var", "v"]], " " + TEXT]]
    row = {"w": "Row", "children": [repeated("v", 256, {"w": "Text", "text": words})]}
    yield program({"w": "Column", "children": [repeated("r", rows, row)]})
    yield from repeat(b"frame\n", times)


@dataclasses.dataclass
class Row:
    name: str
    what: str
    write: typing.Callable
    sizes: list
    repeats: int
    unit: str
    bar: tuple
    status: int = 0
    more: int = 1  # How many times the repeats the other program does, where it is much quicker.
    own: int = 1  # How many times the repeats this program does, where it is much quicker.

    @property
    def small(self):
        return [max(1, self.sizes[0] // 8)]


NODES = [16_384, 32_768, 65_536]
ROWS = {row.name: row for row in [
    Row("first", "a first frame", first, NODES, 0, "frame", ("ratio", 1.0)),
    Row("nothing", "a frame after nothing, few records", nothing(False), NODES, 10, "frame", ("ratio", 0.01), own=2000),
    Row("printed", "a frame after nothing, a record a leaf", nothing(True), NODES, 10, "frame", ("writing", 0.001), own=50),
    Row("leaf", "a frame after one leaf", one_leaf, NODES, 10, "frame", ("ratio", 0.02), own=50),
    Row("inherited", "a frame after an inherited value", inherited, NODES, 10, "frame", ("ratio", 1.0)),
    Row("scrolled", "a scrolled list", scrolled, [1024, 2048, 4096], 40, "frame", ("ratio", 0.1)),
    Row("keyed", "a keyed list, reordered", keyed, [1000, 2000, 4000], 20, "frame", ("ratio", 0.7)),
    Row("texts", "texts, wrapped afresh", texts, [500, 1000, 2000], 3, "frame", ("ratio", 1.0)),
    Row("refused", "refused lines", refused, [1], 3_000_000, "line", ("ratio", 1.2), 1),
    Row("empty", "empty lines", empty, [1], 30_000_000, "line", ("ratio", 2.0)),
    Row("gestures", "192 lines of 32 pointers over Detectors", gestures, [64, 128, 250], 200, "round", ("ratio", 0.8)),
    Row("hits", "a hit", hits, NODES, 20_000, "line", ("ratio", 0.8)),
    Row("semantics", "the semantics tree", semantics, NODES, 40, "line", ("ratio", 0.8)),
    Row("set", "a line `set`", set_lines, NODES, 400, "line", ("seconds", 0.00002), more=5000, own=500),
    Row("scroll", "a line `scroll`", scroll_lines, NODES, 200, "line", ("seconds", 0.00002), more=5000, own=2000),
    Row("tap", "two lines of a tap", tap_lines, NODES, 200, "tap", ("seconds", 0.00002), more=2000, own=500),
    Row("limits", "a frame at the limits of version 1", limits, NODES, 1, "frame", ("memory", 2.0)),
]}


def check(program_path):
    bad = 0
    for row in ROWS.values():
        text = b"".join(row.write(row.small[0], 2))
        end = subprocess.run([program_path], input=text, capture_output=True)
        if end.returncode != row.status:
            bad += 1
            print(f"{row.name}: status {end.returncode} and not {row.status}: {end.stdout[-80:]}")
    print(f"{len(ROWS)} rows, {bad} refused")
    return bad > 0


def main():
    match sys.argv[1:]:
        case []:
            for row in ROWS.values():
                print(f"{row.name}: {row.what}; {row.sizes}")
        case ["--check", program_path]:
            sys.exit(check(program_path))
        case [name, size, repeats]:
            for part in ROWS[name].write(int(size), int(repeats)):
                sys.stdout.buffer.write(part)
        case _:
            sys.exit(__doc__)


if __name__ == "__main__":
    main()
