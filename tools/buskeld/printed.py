"""The printed text as data: frames with layers and records, hits, gestures, semantics, states, cells, refusals."""

import json
from dataclasses import dataclass, field
from typing import Any, Dict, List, Optional, Union

BLOCKS = ("frame", "semantics", "states", "cells")
GESTURES = ("start", "update", "end")
DECODER = json.JSONDecoder()


class Unreadable(Exception):
    """A line that isn't as the program prints it."""


@dataclass
class Record:
    """A drawing record: a rectangle with a size, or a line of text."""

    x: int
    y: int
    color: str
    size: Optional[tuple] = None
    text: Optional[str] = None


@dataclass
class Picture:
    """A run of drawing records."""

    records: List[Record] = field(default_factory=list)


@dataclass
class Layer:
    """`offset`, `opacity` with an alpha, or `clip` with a size, and what is below it."""

    kind: str
    x: int
    y: int
    alpha: int = 255
    size: Optional[tuple] = None
    items: List[Union[Picture, "Layer"]] = field(default_factory=list)


@dataclass
class Note:
    """What a frame remarks of a node: `overflow` by a length, or `unbounded`."""

    node: int
    kind: str
    length: int = 0


@dataclass
class Block:
    """What one script line printed, or a part of that: its lines, and what kind it is of."""

    lines: List[str]
    kind: str = "line"


@dataclass
class Frame(Block):
    """A frame: its number, its notes and the root's layer."""

    number: int = 0
    notes: List[Note] = field(default_factory=list)
    root: Optional[Layer] = None


@dataclass
class Hits(Block):
    """The nodes at a point, the deepest first."""

    nodes: List[int] = field(default_factory=list)


@dataclass
class Gesture(Block):
    """What a gesture came to: `arena`, `tap`, `long`, `start`, `update`, `end`. An arena that nobody wins has no node."""

    node: Optional[int] = None
    pointer: Optional[int] = None
    gesture: Optional[str] = None
    moved: tuple = (0, 0)


@dataclass
class SemanticsNode:
    """A node of the semantics tree, its rectangle (x, y, width, height) in the view, and its marks."""

    node: int
    area: tuple
    label: str
    marks: List[str]
    below: List["SemanticsNode"] = field(default_factory=list)

    def each(self):
        """It and all nodes below it."""
        yield self
        for node in self.below:
            yield from node.each()


@dataclass
class Semantics(Block):
    """The semantics tree: its nodes at the top, which is the view's alone."""

    nodes: List[SemanticsNode] = field(default_factory=list)

    def each(self):
        """All its nodes."""
        for node in self.nodes:
            yield from node.each()


@dataclass
class State:
    """A component's fields, or a Viewport's `scroll`."""

    node: int
    name: str
    fields: Dict[str, Any] = field(default_factory=dict)


@dataclass
class States(Block):
    """The fields of all components and the offsets of all Viewports."""

    states: List[State] = field(default_factory=list)


@dataclass
class Cells(Block):
    """The grid of text cells."""

    columns: int = 0
    rows: int = 0
    damage: int = 0
    texts: List[str] = field(default_factory=list)


@dataclass
class Focus(Block):
    """Who has the focus."""

    node: Optional[int] = None


@dataclass
class Refused(Block):
    """A script line that is refused, with the code and its name."""

    number: int = 0
    code: int = 0
    name: str = ""


@dataclass
class Fault(Block):
    """What a frame's fault is, and the key that it names."""

    name: str = ""
    key: str = ""


@dataclass
class ProgramFault(Block):
    """Why the program part is refused: `json`, `shape` or `check`, and the place, or the component's name."""

    table: str = ""
    code: int = 0
    place: str = ""


@dataclass
class Checked(Block):
    """That the program is accepted, with its number of components."""

    components: int = 0


def read(text):
    """The blocks of a printed text, in order. A block that the text cuts off is a plain one of kind `cut`."""
    lines, blocks, at = text.split("\n")[:-1], [], 0
    while at < len(lines):
        end = block_end(lines, at)
        if end is None:
            return blocks + [Block(lines[at:], "cut")]
        blocks.append(one_block(lines[at:end]))
        at = end
    return blocks


def of_lines(lines):
    """The blocks that lines hold."""
    return read("".join(line + "\n" for line in lines))


def block_end(lines, at):
    """Where the block ends that begins at a line; none where its end is missing."""
    if lines[at].split(" ")[0] not in BLOCKS:
        return at + 1
    try:
        return lines.index("end", at) + 1
    except ValueError:
        return None


def one_block(lines):
    """The block that lines hold."""
    word = lines[0].split(" ")[0]
    try:
        maker = MAKERS.get(word)
        return maker(lines, lines[0].split(" ")) if maker else Block(lines)
    except (ValueError, IndexError, KeyError):
        raise Unreadable(f"this isn't as the program prints it: {lines[0]}") from None


def depth_of(line):
    """How deep a line is indented."""
    return (len(line) - len(line.lstrip(" "))) // 2


def node_of(word):
    """The number in `#n`."""
    return int(word[1:])


def quoted(text):
    """A quoted text that begins a text, and what stands after it."""
    value, end = DECODER.raw_decode(text)
    return value, text[end:]


def nested(lines, depth=0):
    """Lines at a depth, each with the lines below it."""
    heads = [at for at, line in enumerate(lines) if depth_of(line) == depth]
    for head, after in zip(heads, heads[1:] + [len(lines)]):
        yield lines[head].strip(" "), lines[head + 1 : after]


def frame(lines, words):
    """A frame's block."""
    notes = [note(line.split(" ")) for line in lines[1:-1] if line.startswith("note ")]
    layers = [line for line in lines[1:-1] if not line.startswith("note ")]
    root = items(layers, 0)[0]
    return Frame(lines, "frame", int(words[1]), notes, root)


def note(words):
    """A note's line."""
    return Note(node_of(words[1]), words[2], int(words[3]) if len(words) > 3 else 0)


def items(lines, depth):
    """The layers and pictures at a depth."""
    return [item(head, below, depth) for head, below in nested(lines, depth)]


def item(head, below, depth):
    """A layer or a picture."""
    words = head.split(" ")
    if words[0] == "picture":
        return Picture([record(line.strip(" ")) for line in below])
    numbers = [int(word) for word in words[1:]]
    layer = Layer(words[0], numbers[0], numbers[1], items=items(below, depth + 1))
    if layer.kind == "opacity":
        layer.alpha = numbers[2]
    if layer.kind == "clip":
        layer.size = (numbers[2], numbers[3])
    return layer


def record(line):
    """A drawing record's line."""
    words = line.split(" ")
    x, y = int(words[1]), int(words[2])
    if words[0] == "rect":
        return Record(x, y, words[5], size=(int(words[3]), int(words[4])))
    return Record(x, y, words[3], text=quoted(line[line.index('"') :])[0])


def semantics(lines, _):
    """A semantics tree's block."""
    return Semantics(lines, "semantics", [semantics_node(*it) for it in nested(lines[1:-1])])


def semantics_node(head, below, depth=1):
    """A node of a semantics tree, with what is below it."""
    words = head.split(" ")
    label, rest = quoted(head[head.index('"') :])
    inner = [semantics_node(*it, depth + 1) for it in nested(below, depth)]
    return SemanticsNode(node_of(words[0]), tuple(int(word) for word in words[1:5]), label, rest.split(), inner)


def states(lines, _):
    """A block of states."""
    return States(lines, "states", [state(line) for line in lines[1:-1]])


def state(line):
    """A line of states."""
    head, _, rest = line.partition(" ")
    name, _, rest = rest.partition(" ")
    made = State(node_of(head), name)
    while rest:
        word, _, rest = rest.lstrip(" ").partition("=")
        made.fields[word], rest = quoted(rest)
    return made


def cells(lines, words):
    """A grid's block."""
    columns, rows, damage = (int(word) for word in words[1:4])
    return Cells(lines, "cells", columns, rows, damage, [quoted(line)[0] for line in lines[1:-1]])


def arena(lines, words):
    """What an arena came to."""
    if words[2] == "none":
        return Gesture(lines, "arena", None, int(words[1]))
    return Gesture(lines, "arena", node_of(words[2]), int(words[1]), words[3])


def gesture(lines, words):
    """What a gesture did."""
    made = Gesture(lines, words[0], node_of(words[1]))
    if words[0] in GESTURES:
        made.gesture = words[2]
        made.moved = tuple(int(word) for word in words[3:5]) or (0, 0)
    return made


def program_fault(lines, words):
    """A refused program's line."""
    if words[1] == "json":
        return ProgramFault(lines, "program", "json")
    return ProgramFault(lines, "program", words[1], int(words[2]), lines[0].split(" ", 3)[3])


MAKERS = {
    "frame": frame,
    "semantics": semantics,
    "states": states,
    "cells": cells,
    "arena": arena,
    "program": program_fault,
    "hits": lambda lines, words: Hits(lines, "hits", [node_of(word) for word in words[1:]]),
    "focus": lambda lines, words: Focus(lines, "focus", None if words[1] == "none" else node_of(words[1])),
    "refused": lambda lines, words: Refused(lines, "refused", int(words[1]), int(words[2]), words[3]),
    "fault": lambda lines, words: Fault(lines, "fault", words[1], " ".join(words[2:])),
    "checked": lambda lines, words: Checked(lines, "checked", int(words[1])),
    **{word: gesture for word in ("tap", "long", *GESTURES)},
}
