"""Explains what a run refused or remarked: where it stands, what stands there, the nearest word, the cause and what to
do."""

from . import check_fault, json_text, node_names, printed, refusals, schema, shape_fault
from .shape_fault import Place
from .source import readable

LINES = {
    **{"frame": 1, "at": 2, "set": 4, "root": 2, "resize": 3, "scroll": 3, "down": 4, "move": 4, "up": 2, "cancel": 2},
    **{"hit": 3, "semantics": 1, "act": 3, "delegate": 4, "unplug": 2, "states": 1, "tween": 7, "focus": 2, "press": 1},
    "cells": 1,
}
SHOWN = 100


class Explainer:
    """Explains the runs of one input. `ask` takes programs and gives what the check says of each, so many at once as
    `width` says; `program` is the built program's file, where there is one."""

    def __init__(self, given, ask, width=1, program=None):
        self.given, self.ask, self.width, self.program = given, ask, width, program
        self.told, self.frames = set(), 0

    def of_text(self, text):
        """The explanations of a printed text, as lines."""
        blocks = printed.read(text)
        widgets = self.noted(blocks)
        lines = []
        for block in blocks:
            if block.kind == "frame":
                self.frames += 1
                lines += [line for note in block.notes for line in self.of_note(block, note, widgets.get(note.node))]
            elif refusals.of_block(block):
                lines += self.of_block(block)
        return lines

    def noted(self, blocks):
        """The widgets of the nodes that have notes."""
        nodes = {note.node for block in blocks if block.kind == "frame" for note in block.notes}
        return node_names.noted_widgets(self.given, self.program, nodes) if nodes and self.program else {}

    def of_note(self, frame, note, widget):
        """A note: which widget it is about. Each is told once."""
        what = "its children take more than it has" if note.kind == "overflow" else "it has no greatest extent here"
        key = (note.kind, note.node)
        if key in self.told:
            return []
        self.told.add(key)
        line = next(line for line in frame.lines if line.startswith(f"note #{note.node} {note.kind}"))
        if widget is None:
            return [line, f"  in {frame.lines[0]}: {what}"]
        place = Place(widget.text, widget.start, f"this {widget.member('w').value.value} is #{note.node}: {what}")
        return [line, *shown(place)]

    def of_block(self, block):
        """A refusal, a fault or a refused program."""
        row, lines = refusals.of_block(block), [block.lines[0]]
        lines += shown(self.place(block))
        key = (row.get("code"), row["when"])
        if key not in self.told:
            self.told.add(key)
            lines += [f"  cause: {row['when']}", f"  what to do: {row['advice']} (docs/FORMATS.md)"]
        return lines

    def place(self, block):
        """Where it stands, and what is to be said of it."""
        if block.kind == "refused":
            return self.refused_line(block)
        if block.kind == "fault":
            return self.faulty_frame()
        if block.table == "json":
            return shape_fault.json_place(self.given.program)
        return self.place_in(json_text.read(self.given.program), block.lines[0])

    def place_in(self, program, line):
        """The place of a fault of form or check of a program."""
        words = line.split(" ", 3)
        if words[1] == "shape":
            return shape_fault.shape_place(program, int(words[2]), words[3])
        try:
            return check_fault.check_place(program, line, self.ask, self.width)
        except check_fault.NotFound:
            return check_fault.component_place(program, words[3])

    def script_place(self, number, said, column=1):
        """A script line as a place."""
        line = self.given.script[number - 1] if number <= len(self.given.script) else ""
        text = json_text.Text(self.given.script_name, line, self.given.first_line + number - 1)
        return Place(text, column - 1, said)

    def refused_line(self, block):
        """A refused script line: its text, and what can be said of it."""
        line = self.given.script[block.number - 1]
        words = line.split(" ")
        said = f"script line {block.number}"
        if block.code == 3:
            said += self.unknown_line(words)
        if block.code in (16, 17) and self.width == 1:
            return self.root_place(line, block) or self.script_place(block.number, said)
        return self.script_place(block.number, said)

    @staticmethod
    def unknown_line(words):
        """Why a line is in no row of the table of lines."""
        if words[0] not in LINES:
            return f": no line begins with `{words[0]}`.{schema.suggestion(words[0], LINES)}"
        wanted = LINES[words[0]]
        if len(words) != wanted and words[0] not in ("set", "root"):
            return f": `{words[0]}` has {wanted - 1} words after it, and {len(words) - 1} stand here"
        return ""

    def root_place(self, line, block):
        """Where the template of a line `root JSON` has its fault: the program is asked of it as its root."""
        text = json_text.Text(self.given.script_name, line[5:], self.given.first_line + block.number - 1, 6)
        wrong = shape_fault.json_place(text)
        if wrong:
            return wrong
        program = json_text.read(self.given.program)
        program.member("root").value = json_text.read(text)
        answer = self.ask([check_fault.data_of(program.plain())])[0]
        return self.place_in(program, answer) if answer.startswith("program ") else None

    def faulty_frame(self):
        """The line `frame` whose frame has a fault."""
        lines = [at for at, line in enumerate(self.given.script, 1) if line == "frame"]
        if self.frames >= len(lines):
            return None
        return self.script_place(lines[self.frames], f"the frame of script line {lines[self.frames]} has this fault")


def shown(place):
    """A place, and the line there with a mark below it."""
    if place is None:
        return []
    text = place.text
    line, column = text.place(place.offset)
    at = place.offset - text.starts[line - text.line]
    content = text.content.split("\n")[line - text.line].rstrip("\r").replace("\t", " ")
    front = max(0, at - SHOWN // 2)
    piece = content[front : front + SHOWN]
    head, tail = ".. " if front else "", " .." if front + SHOWN < len(content) else ""
    lines = [f"  {text.name}:{line}:{column}: {place.said}"]
    if piece:
        piece = readable(piece)
        lines += [f"    {head}{piece}{tail}", "    " + " " * (len(head) + at - front) + "^"]
    return lines
