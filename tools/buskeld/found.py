"""What a frame shows, found by its text: lines that are drawn, and what a screen reader is told."""

from dataclasses import dataclass
from typing import List

from .drawing import cells_of
from .printed import Picture


@dataclass
class Line:
    """A line of text that is drawn: its area in the view, and what of that is to be seen."""

    text: str
    area: tuple
    seen: tuple
    run: int

    def is_seen(self):
        """Whether any of it is to be seen."""
        return self.seen[2] > 0 and self.seen[3] > 0


@dataclass
class Spot:
    """A place at which a text stands: what is to be seen of it."""

    text: str
    area: tuple
    is_seen: bool
    is_said: bool = False

    def middle(self):
        """The point in its middle."""
        x, y, width, height = self.area
        return x + width // 2, y + height // 2


def meet(one, other):
    """The area that two areas share, with a width and a height of 0 where they share none."""
    left, top = max(one[0], other[0]), max(one[1], other[1])
    right, bottom = min(one[0] + one[2], other[0] + other[2]), min(one[1] + one[3], other[1] + other[3])
    return left, top, max(0, right - left), max(0, bottom - top)


def lines_of(frame, view, scale):
    """All lines of text of a frame, in the order in which they are drawn."""
    lines: List[Line] = []
    walk([frame.root], (0, 0), (0, 0, *view), scale, lines)
    return lines


def walk(items, at, clip, scale, lines):
    """Adds the lines of layers and pictures at a point, within a clip."""
    for item in items:
        if isinstance(item, Picture):
            add_lines(item.records, at, clip, scale, lines)
        elif item.kind == "clip":
            walk(item.items, at, meet(clip, (at[0] + item.x, at[1] + item.y, *item.size)), scale, lines)
        else:
            walk(item.items, (at[0] + item.x, at[1] + item.y), clip, scale, lines)


def add_lines(records, at, clip, scale, lines):
    """Adds the lines of a picture. Lines that may be of one text, below one another, are one run."""
    before = None
    for record in records:
        if record.text is None:
            before = None
            continue
        area = (at[0] + record.x, at[1] + record.y, cells_of(record.text) * scale.width, scale.height)
        run = lines[-1].run if before and follows(before, record, scale) else len(lines)
        lines.append(Line(record.text, area, meet(area, clip), run))
        before = record


def follows(before, record, scale):
    """Whether a record can be a later line of the same text."""
    down = record.y - before.y
    return record.x == before.x and record.color == before.color and down > 0 and down % scale.height == 0


def bare(text):
    """A text without white space."""
    return "".join(text.split())


def drawn(text, lines):
    """The places at which a text is drawn: on a line of its own, or wrapped into several lines."""
    spots = [Spot(text, line.seen, line.is_seen()) for line in lines if line.text.strip() == text.strip()]
    return spots or wrapped(text, lines)


def wrapped(text, lines):
    """The places at which a text is drawn in several lines."""
    spots, wanted = [], bare(text)
    for first, line in enumerate(lines):
        got, last = bare(line.text), first
        while wanted.startswith(got) and got != wanted and last + 1 < len(lines) and lines[last + 1].run == line.run:
            last += 1
            got += bare(lines[last].text)
        if got == wanted and last > first:
            seen = [it for it in lines[first : last + 1] if it.is_seen()]
            spots.append(Spot(text, (seen or [line])[0].seen, bool(seen)))
    return spots


def said(text, semantics, view):
    """The places of semantics nodes whose label, or one of its lines, is a text."""
    spots = []
    for node in semantics.each():
        if text == node.label or text in node.label.split("\n"):
            area = meet(node.area, (0, 0, *view))
            spots.append(Spot(text, area, area[2] > 0 and area[3] > 0 and node.node > 0, True))
    return spots


def spots_of(text, lines, semantics, view):
    """The places of a text in the order of reading: where it is drawn, else where it is said."""
    spots = drawn(text, lines) or said(text, semantics, view)
    return sorted(spots, key=lambda spot: (spot.area[1], spot.area[0]))
