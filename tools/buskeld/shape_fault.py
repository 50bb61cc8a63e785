"""What a line `program json` or `program shape CODE PLACE` is about: where that stands, and the nearest word."""

import re
from dataclasses import dataclass

from . import json_text, schema
from .json_text import JsonFault

NAME = re.compile(r"[A-Za-z_][A-Za-z0-9_]{0,31}")


@dataclass
class Place:
    """A place in a text, and what is to be said of it."""

    text: json_text.Text
    offset: int
    said: str

    def shown(self):
        """As `FILE:LINE:COLUMN`."""
        return self.text.shown(self.offset)


def json_place(text):
    """Where a text isn't JSON, and why; none where it is."""
    try:
        json_text.read(text)
        return None
    except JsonFault as fault:
        return Place(text, fault.offset, fault.why)


def steps_to(node, path):
    """The members and entries on the way to a path, as pairs of a step and the value there. A name may hold a `/`."""
    if not path:
        return []
    if node.kind == "object":
        choices = [(member.name, member.value) for member in reversed(node.members)]
    else:
        choices = list(enumerate(node.entries))
    for step, value in choices:
        front = f"/{step}"
        if path == front or path.startswith(front + "/"):
            rest = steps_to(value, path[len(front) :])
            if rest is not None:
                return [(step, value)] + rest
    return None


def shape_place(program, code, path):
    """Where a fault of form stands, and what is to be said of it."""
    steps = steps_to(program, path)
    if steps is None:
        return None
    node, wanted, name = program, schema.whole(), "the program"
    for step, value in steps:
        wanted = schema.below(node, wanted, step)
        node, name = value, step
    return SAYS[code](Fault(program, node, wanted, name))


@dataclass
class Fault:
    """A fault of form: the value at its place, what is wanted there, and the step that leads to it."""

    program: json_text.Node
    node: json_text.Node
    wanted: dict
    step: object

    def at(self, said, offset=None):
        """The place with what is to be said of it: the value's, or that of an offset."""
        return Place(self.node.text, self.node.start if offset is None else offset, said)

    def members(self):
        """The members that the object at the place may have, and those that it has to have."""
        found = schema.object_schema(self.node, self.wanted)
        return list(found.get("properties", {})), found.get("required", [])

    def what(self):
        """What the object at the place is."""
        word = self.node.member("w")
        return f"this {word.value.value}" if word else "this object"


def missing(fault):
    """Code 1."""
    lacking = [name for name in fault.members()[1] if not fault.node.member(name)]
    given = [member.name for member in fault.node.members]
    unknown = [name for name in given if name not in fault.members()[0]]
    meant = schema.nearest(lacking[0], unknown) if lacking else None
    said = f"{fault.what()} lacks {schema.listed(lacking)}"
    return fault.at(said + (f"; is `{meant}` meant to be that?" if meant else ""))


def unknown(fault):
    """Code 2."""
    allowed = fault.members()[0]
    found = [member for member in fault.node.members if member.name not in allowed]
    if not found:
        return fault.at(f"{fault.what()} has a member that it may not have")
    name = found[0].name
    free = [word for word in allowed if not fault.node.member(word)]
    hint = schema.suggestion(name, free) or f" It may have {schema.listed(free)}."
    return fault.at(f"{fault.what()} has no member `{name}`.{hint}", found[0].start)


HERE = {"object": "an object", "bool": "a truth value", "null": "null"}


def wrong_kind(fault):
    """Code 3."""
    words = schema.words_of(fault.wanted)
    if words and fault.node.kind == "text":
        said = schema.suggestion(fault.node.value, words)
        return fault.at(f"`{fault.node.value}` stands here; wanted is {schema.called(fault.wanted)}.{said}")
    here = HERE.get(fault.node.kind, f"a {fault.node.kind}")
    return fault.at(f"{here} stands here; wanted is {schema.called(fault.wanted)}")


def unknown_kind(fault):
    """Code 4."""
    word = fault.node.member("w").value
    version = fault.program.member("version").value.value
    if schema.kind(word.value):
        needed = schema.version_of(word.value)
        said = f"`{word.value}` is there from version {needed} on, and this program is of version {version}"
        return fault.at(said, word.start)
    known = [name for name in schema.kinds() if schema.version_of(name) <= version]
    return fault.at(f"there is no kind `{word.value}`.{schema.suggestion(word.value, known)}", word.start)


def unknown_operator(fault):
    """Code 5."""
    word = fault.node.value
    return fault.at(f"there is no operator `{word}`.{schema.suggestion(word, schema.operators())}")


def wrong_number(fault):
    """Code 6."""
    form = schema.object_schema(fault.node, fault.wanted)
    if schema.reference(form.get("then", {})) == "operation":
        if not fault.node.entries:
            return fault.at("an expression's list begins with an operator, and this one is empty")
        form = schema.operators()[fault.node.entries[0].value]
        given, wanted = len(fault.node.entries) - 1, len(form["prefixItems"]) - 1
        operands = "one operand" if wanted == 1 else f"{wanted} operands"
        return fault.at(f"`{fault.node.entries[0].value}` takes {operands}, and has {given} here")
    wanted = len(form.get("prefixItems", []))
    return fault.at(f"this list has {len(fault.node.entries)} entries, and {wanted} are wanted")


def wrong_name(fault):
    """Code 7."""
    names = [(member.name, member.start) for member in fault.node.members] or [(fault.node.value, fault.node.start)]
    for name, start in names:
        if not NAME.fullmatch(name):
            rule = "a name has 1 to 32 ASCII letters, digits and `_`, and no digit first"
            return fault.at(f"`{name}` is no name: {rule}", start)
    return fault.at("this is no name")


def wrong_integer(fault):
    """Code 8."""
    return fault.at(f"{fault.node.source()} is no integer of 64 bits")


def too_long(fault):
    """Code 9."""
    if fault.node.kind == "text":
        return fault.at(f"this text has {len(fault.node.value.encode('utf-8'))} bytes, and 1,024 are the most")
    size = len(fault.node.members or fault.node.entries)
    most = "256" if fault.step == "components" else "4,096"
    return fault.at(f"this has {size} entries, and {most} are the most")


def out_of_range(fault):
    """Code 10."""
    wanted = "1, 2 or 3" if fault.step == "version" else "from 1 to 16,777,216"
    return fault.at(f"{fault.node.source()} stands here; wanted is {wanted}")


SAYS = {
    1: missing,
    2: unknown,
    3: wrong_kind,
    4: unknown_kind,
    5: unknown_operator,
    6: wrong_number,
    7: wrong_name,
    8: wrong_integer,
    9: too_long,
    10: out_of_range,
}
