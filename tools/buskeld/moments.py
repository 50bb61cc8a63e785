"""A run as plain data for a page: a moment for each frame, with its picture, the lines that act on it, and what each of
them printed."""

import json
import unicodedata

from . import found, printed, refusals, shape_fault
from .drawing import Drawing, scale_of
from .explain import Explainer, shown
from .source import readable

EVENTS = ("arena", "tap", "long", "start", "update", "end")
WITH_EVENTS = ("at", "down", "move", "up", "cancel", "act", "press")
WITH_A_BLOCK = ("frame", "hit", "semantics", "states", "focus", "cells")
NOTES = {"overflow": "its children take more than it has", "unbounded": "it has no greatest extent here"}
LONGEST, LONGEST_NAME = 400, 300


def shortened(line):
    """A script line as it is shown: of a very long one its front and its length."""
    line = readable(line)
    return line if len(line) <= LONGEST else f"{line[:80]}.. ({len(line)} characters)"


def form_of(program):
    """A program's view and scale, as far as they can be read."""
    try:
        plain = json.loads(program)
        return tuple(plain["view"]), scale_of(plain)
    except (ValueError, KeyError, TypeError):
        return (1, 1), scale_of(None)


# ---- what a block is for a page


def node_data(node):
    """A semantics node, with what is below it."""
    below = [node_data(it) for it in node.below]
    return {"node": node.node, "area": node.area, "label": node.label, "marks": node.marks, "below": below}


def semantics_data(block):
    """A semantics tree."""
    return [node_data(node) for node in block.nodes]


def states_data(block):
    """The states of components and Viewports; each value is the text of its JSON too, as a script line has it."""
    return [{"node": it.node, "name": it.name, "fields": fields_data(it.fields)} for it in block.states]


def fields_data(fields):
    """The fields of a component."""
    return [[name, json.dumps(value, ensure_ascii=False, separators=(",", ":"))] for name, value in fields.items()]


def pieces(row):
    """A row of a grid of cells, in pieces: each a text, and whether it is one wide character."""
    made = []
    for character in row:
        is_wide = unicodedata.east_asian_width(character) in ("W", "F")
        if made and not is_wide and not made[-1][1]:
            made[-1][0] += character
        else:
            made.append([character, is_wide])
    return made


def answer(block, why):
    """What a block other than a frame is to a reader; `why` says why it was refused."""
    if block.kind == "semantics":
        return {"kind": "semantics", "nodes": semantics_data(block)}
    if block.kind == "states":
        return {"kind": "states", "text": "\n".join(block.lines[1:-1])}
    if block.kind == "cells":
        size = f"{block.columns} by {block.rows} cells, damage {block.damage}"
        return {"kind": "cells", "rows": [pieces(row) for row in block.texts], "text": size}
    text = "\n".join(block.lines)
    if block.kind in ("refused", "fault"):
        return {"kind": block.kind, "text": text, "why": why}
    return {"kind": "event" if block.kind in (*EVENTS, "focus") else "line", "text": text}


class Reasons:
    """Says why something was refused: where it stands in a file, its cause and what to do. `ask` takes programs and
    gives what the check says of each, `width` of them at once."""

    def __init__(self, given, ask=lambda datas: [""] * len(datas), program=None, width=1):
        self.given, self.ask, self.program, self.width = given, ask, program, width

    def of_program(self, line):
        """Of a refused program, as lines of which the first is what the program says."""
        return Explainer(self.given, self.ask, self.width, self.program).of_text(line + "\n")

    def of(self, block, own):
        """Of a refused line or a fault; `own` is the number of the line in the file's script, where it stands there."""
        row = refusals.of_block(block)
        if row is None:
            return []
        return [*self.place(block, own), f"cause: {row['when']}", f"what to do: {row['advice']}"]

    def place(self, block, own):
        """Where a line stands, as lines."""
        if own is None:
            return []
        explainer = Explainer(self.given, self.ask, self.width, self.program)
        try:
            said = f"the frame of script line {own} has this fault"
            found_place = explainer.script_place(own, said) if block.kind == "fault" else explainer.place(block)
        except (IndexError, AttributeError, KeyError):
            return []
        return [line[2:] for line in shown(found_place)]


# ---- moments


class Moments:
    """The moments of a run, which grow line by line. The first one is before the first frame."""

    def __init__(self, program, reasons):
        self.view, self.scale = form_of(program)
        self.reasons, self.drawing, self.time, self.frames, self.has_ended = reasons, Drawing(self.scale), 0, 0, False
        self.all = [self.moment("before the first frame")]

    def moment(self, title):
        """A moment without a picture."""
        form = {"view": self.view, "unit": self.scale.unit, "time": self.time}
        return {"number": self.frames, "title": title, **form, "picture": "", "notes": [], "lines": []}

    @property
    def now(self):
        """The last moment."""
        return self.all[-1]

    def shown(self):
        """The moments of which there is something to show."""
        return [it for it in self.all if it["picture"] or it["lines"]]

    def add(self, text, blocks, own=None, played=(), wrong=()):
        """Adds a line, or several that can't be told apart, with what was printed. `played` are the lines that a step
        became, and `wrong` says what of it isn't as wanted."""
        wrong = ["not played: the run had ended"] if self.has_ended else wrong
        words = text.split(" ")
        is_refused = any(block.kind == "refused" for block in blocks)
        if words[0] == "at" and "\n" not in text and not is_refused:
            self.time = int(words[1])
        for line in text.split("\n"):
            self.note_view(line, is_refused)
        frame = next((block for block in blocks if block.kind in ("frame", "fault")), None)
        if frame:
            self.begin(frame)
        self.look(blocks)
        answers = [answer(it, self.reasons.of(it, own)) for it in blocks if it.kind != "frame"]
        line = {"text": "\n".join(map(shortened, text.split("\n"))), "answers": answers, "own": own is not None}
        self.now["lines"].append({**line, "played": list(played), "wrong": list(wrong)})

    def note_view(self, line, is_refused):
        """Takes the view of an accepted line `resize`."""
        words = line.split(" ")
        if words[0] == "resize" and not is_refused:
            self.view = (int(words[1]), int(words[2]))

    def begin(self, block):
        """Begins the moment of a frame, or of one that has a fault."""
        self.frames += 1
        if block.kind == "fault":
            self.has_ended = True
            self.all.append(self.moment(f"frame {self.frames} has a fault"))
            return
        self.frames = block.number
        made = self.moment(f"frame {block.number}")
        made["notes"] = [f"{line}: {NOTES[line.split(' ')[2]]}" for line in block.lines if line.startswith("note ")]
        made["picture"] = self.drawing.picture(block, self.view, self.name_of(block))
        self.all.append(made)

    def name_of(self, frame):
        """What a picture is called: its frame, and the texts that are to be seen."""
        lines = found.lines_of(frame, self.view, self.scale)
        texts = ", ".join(dict.fromkeys(line.text.strip() for line in lines if line.is_seen()))
        name = f"frame {frame.number}" + (f": {texts}" if texts else "")
        return name if len(name) <= LONGEST_NAME else name[: LONGEST_NAME - 2] + ".."

    def look(self, blocks):
        """Keeps what blocks tell of what is shown now."""
        for block in blocks:
            if block.kind == "semantics":
                self.now["semantics"] = semantics_data(block)
            if block.kind == "states":
                self.now["states"] = states_data(block)
            if block.kind == "focus":
                self.now["focus"] = block.node


# ---- moments of a text


def paired(script, blocks):
    """Script lines with what each printed, as triples of a line's number, its text and its blocks. Pointers' lines next
    to one another, any of which may have printed what came of a gesture, stand together with the first one's number."""
    refused = {block.number: block for block in blocks if block.kind == "refused"}
    left, open_lines = list(blocks), []
    for number, line in enumerate(script, 1):
        has_block = line.split(" ")[0] in WITH_A_BLOCK
        if number not in refused and not has_block:
            open_lines.append((number, line))
            continue
        events = taken(left)
        if number in refused and left and left[0] is not refused[number] or not left:
            left = events + left
            open_lines.append((number, line))
            continue
        yield from grouped(open_lines, events)
        open_lines = []
        yield number, line, [left.pop(0)]
    yield from grouped(open_lines, taken(left))


def taken(blocks):
    """Takes the gestures' blocks from the front of a list."""
    end = next((at for at, block in enumerate(blocks) if block.kind not in EVENTS), len(blocks))
    events = blocks[:end]
    del blocks[:end]
    return events


def grouped(lines, events):
    """Lines that print nothing but gestures' blocks, with those."""
    makers = [at for at, (_, line) in enumerate(lines) if line.split(" ")[0] in WITH_EVENTS]
    if not events or not makers:
        yield from ((number, line, []) for number, line in lines)
        return
    first, last = makers[0], makers[-1]
    yield from ((number, line, []) for number, line in lines[:first])
    for some, said in split(lines[first : last + 1], events):
        yield some[0][0], "\n".join(line for _, line in some), said
    yield from ((number, line, []) for number, line in lines[last + 1 :])


def split(lines, events):
    """Lines and gestures' blocks in the least parts of which it is certain that they belong together: an action each,
    or a gesture each, where every pointer that goes down has an arena that is told."""
    words = [line.split(" ")[0] for _, line in lines]
    if all(word in ("act", "press") for word in words) and len(words) == len(events):
        return [([line], [block]) for line, block in zip(lines, events)]
    arenas = [at for at, block in enumerate(events) if block.kind == "arena"]
    if {"act", "press"} & set(words) or len(arenas) != words.count("down") or arenas[:1] != [0]:
        return [(lines, events)]
    parts, down, seen = [], set(), 0
    for line, word in zip(lines, words):
        if not parts or word == "down" and not down:
            parts.append(([], []))
        parts[-1][0].append(line)
        if word == "down":
            down.add(line[1].split(" ")[1])
            end = arenas[seen + 1] if seen + 1 < len(arenas) else len(events)
            parts[-1][1].extend(events[arenas[seen] : end])
            seen += 1
        elif word in ("up", "cancel"):
            down.discard(line[1].split(" ")[1])
    return parts


def of_text(given, text, reasons=None):
    """The moments of an input and what it printed, and the lines that say why its program is refused."""
    reasons = reasons or Reasons(given)
    blocks = printed.read(text)
    made = Moments(given.program.content, reasons)
    if blocks and blocks[0].kind == "program":
        return made, explained(reasons, blocks[0].lines[0])
    for number, line, said in paired(given.script, blocks):
        made.add(line, said, number)
    return made, []


def explained(reasons, line):
    """Why a program is refused; the line alone where its place isn't found."""
    try:
        return reasons.of_program(line)
    except (shape_fault.JsonFault, IndexError, AttributeError, KeyError):
        return [line]
