"""Where the fault of a line `program check CODE NAME` stands. The program's own check says so: of the program's fronts,
in the order of the check and with plain stand-ins for the rest, it is the part that makes the first one refused."""

import json

from . import program_walk, schema
from .expression_types import type_of
from .shape_fault import Place

WANTED = {"local": "int or text", "joined": "text or list", None: "other type"}


class NotFound(Exception):
    """The fault's place wasn't found."""


def data_of(program):
    """A program's bytes."""
    return json.dumps(program, ensure_ascii=False).encode("utf-8")


def faulty_part(given, line, ask, width=1):
    """The part that makes the first front refused. `ask` takes inputs and gives what the check says of each; `width` is
    how many of them it takes at once."""
    parts = program_walk.parts_of(given)
    good, bad, said = 0, len(parts), None
    while bad - good > 1 or said is None:
        counts = between(good, bad, width)
        answers = ask([data_of(program_walk.cut(given, count)) for count in counts])
        for count, answer in zip(counts, answers):
            if answer.startswith("program "):
                bad, said = count, answer
                break
            good = count
        else:
            if counts[-1] == len(parts):
                break
    if said != line:
        raise NotFound(line)
    return parts[bad - 1]


def between(good, bad, width):
    """Counts to try between one that is accepted and one that is refused, the latter too where all can be tried."""
    if bad - good <= width:
        return list(range(good + 1, bad + 1))
    step = (bad - good) / (width + 1)
    tried = sorted({good + max(1, round(step * (at + 1))) for at in range(width)})
    return [count for count in tried if count < bad] or [bad]


def component_place(program, name):
    """The component of a name as a place, for a fault that isn't found in it; none where there is no such component."""
    components = program.member("components")
    for entry in components.value.entries if components else []:
        if entry.member("name").value.value == name:
            return Place(entry.text, entry.start, "somewhere in this component")
    return None


def check_place(program, line, ask, width=1):
    """The place of the fault that a line `program check CODE NAME` tells of."""
    code = int(line.split(" ")[2])
    given = program.plain()
    part = faulty_part(given, line, ask, width)
    teller = Teller(program, given, part, code)
    return teller.place()


class Teller:
    """Says of a part what is wrong with it."""

    def __init__(self, program, given, part, code):
        self.program, self.given, self.part, self.code = program, given, part, code
        self.node, self.owner = program, None
        for step in part.path:
            self.owner = self.node
            self.node = self.node.member(step).value if isinstance(step, str) else self.node.entries[step]

    def place(self):
        """The place, with what is to be said of it."""
        says = {"name": self.twice, "known": self.unknown, "type": self.wrong_type, "child": self.wrong_child}
        said, node = says.get(self.part.what, self.not_declared)()
        return Place(node.text, node.start, said)

    def twice(self):
        """A name that is declared twice."""
        return f"`{self.node.value}` is declared already in this list", self.node

    def unknown(self):
        """A name that isn't there."""
        name, sort = self.node.value, self.part.wanted
        if self.code == 6:
            return f"`{name}` is used in its own body or before its declaration", self.node
        if sort == "event":
            return "`event` is seen in handlers alone", self.node
        known, what = self.known(sort)
        hint = schema.suggestion(name, known)
        return f"there is no {what} `{name}` here.{hint} Known here: {schema.listed(known)}.", self.node

    def known(self, sort):
        """The names of a sort that are seen at the part, and what they are called."""
        if sort == "component":
            return [it["name"] for it in self.given.get("components", [])], "component"
        if sort == "slot":
            return getattr(self.part.scope, "slots", []), "slot"
        what = {"inherit": "inherited name", "var": "loop variable"}.get(sort, sort)
        if sort == "inherit" and self.owner.kind == "object":
            return [it[0] for it in self.given.get("inherited", [])], what
        return self.part.scope.known(sort), what

    def wrong_type(self):
        """An expression of another type than is wanted."""
        kind = type_of(self.node.plain(), self.part.scope)
        wanted = WANTED.get(self.part.wanted, self.part.wanted)
        return f"this is {'of another type' if kind is None else article(kind)}; wanted is {article(wanted)}", self.node

    def wrong_child(self):
        """A widget that isn't certain, or of the wrong sort."""
        word = self.node.member("w").value.value
        sort = self.part.wanted
        if self.code == 4:
            other = "sliver" if sort == "box" else "box"
            return f"this {word} is a {other}, and a {sort} is wanted here", self.node
        if word == "each":
            return "an `each` stands only in a list of children", self.node
        return "this `if` may give no widget, and one is wanted here: give it an `else`", self.node

    def not_declared(self):
        """Props or slots that aren't those declared."""
        what = self.part.what
        widget = self.node if self.node.member("w") else self.owner
        declared = self.part.wanted
        found = widget.member(what)
        given = {member.name: member for member in found.value.members} if found else {}
        lacking = [name for name in declared if name not in given]
        more = [name for name in sorted(given, key=program_walk.encoded) if name not in declared]
        component = widget.member("name").value.value
        if lacking:
            meant = schema.nearest(lacking[0], more)
            hint = f"; is `{meant}` meant to be that?" if meant else ""
            return f"`{component}` declares {schema.listed(lacking)} in its {what}, which isn't given{hint}", self.node
        hint = schema.suggestion(more[0], declared)
        said = f"`{component}` declares no `{more[0]}` in its {what}.{hint} It declares {schema.listed(declared)}."
        return said, found.value.member(more[0]).value


def article(kind):
    """A type with its article."""
    return f"{'an' if kind[0] in 'aeiou' else 'a'} {kind}"
