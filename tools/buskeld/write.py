"""Programs for Buskeld written in Python: each kind of widget is a function, and `write` makes the JSON.

    from buskeld.write import *

    Counter = component("Counter", fields={"count": 0}, body=lambda it: Column(cross="stretch", children=[
        Detector(behavior="opaque", tap=[it.count.set(it.count + 1)], child=Text("You tapped " + show(it.count) + " times")),
    ]))
    write("counter.frame", program(view=px(320, 200), components=[Counter], root=Counter()), script=["frame"])

- Kinds, their members and their words are those of docs/program.schema.json, and so are the faults: a member that a kind
  lacks, a word that isn't one and a required member that is missing are told where they are written. `child` and
  `children` may also stand without their names: `Padding(Text("Menu"), left=px(16))`, `Row([a, b])`.
- Expressions are numbers, bools, texts and lists of Python, and what operators make of fields, props, variables and
  inherited names: `+ - * // %`, `==` or `same(a, b)`, `< >`, `& | ~` for and, or, not; `+` joins texts and lists. The others
  are functions: `if_(c, a, b)`, `show`, `len_`, `at`, `push`, `drop`, `reverse`, `range_`, `ints`, `texts`.
- The widgets `if` and `each` are `choose(cond, then, otherwise)` and `each(items, lambda i: ..)`.
- A color is an int, or a text: `"#2196f3"`, or with its alpha before it `"#802196f3"`.

It depends on nothing but the schema, and proves and runs nothing.
"""

import json
import pathlib
import re

SCHEMA = pathlib.Path(__file__).resolve().parent.parent.parent / "docs" / "program.schema.json"
PARTS = json.loads(SCHEMA.read_text(encoding="utf-8"))["$defs"]
KINDS = PARTS["template"]["properties"]["w"]["enum"]
NAME = re.compile(PARTS["name"]["pattern"])
COLOR = re.compile(r"#(?:[0-9a-fA-F]{2})?[0-9a-fA-F]{6}")


class Fault(ValueError):
    """What is wrong with a program, in words."""


# ---- lengths and colors


def px(*sides, version=1):
    """Logical pixels as u: 64 each, and 256 in version 3. Of two numbers a list of two, as `view` wants it."""
    found = [round(side * (256 if version == 3 else 64)) for side in sides]
    return found[0] if len(found) == 1 else found


def color(given):
    """A color as an int, from an int or from `#RRGGBB` or `#AARRGGBB`."""
    if isinstance(given, str):
        if not COLOR.fullmatch(given):
            raise Fault(f"{given!r} is no color: #RRGGBB or #AARRGGBB is wanted")
        return int(given[1:], 16) if len(given) == 9 else 0xFF000000 + int(given[1:], 16)
    return given


# ---- expressions


def form(given):
    """An expression as JSON has it: lists of Python become `ints` or `texts`."""
    if isinstance(given, Expression):
        return given.form
    if isinstance(given, (bool, int, str)):
        return given
    if isinstance(given, (list, tuple)):
        if not given:
            raise Fault("an empty list has no type: write ints() or texts()")
        return ["texts" if is_text(given[0]) else "ints", *map(form, given)]
    raise Fault(f"{given!r} is no expression")


def is_text(given):
    """Whether an expression is known to be a text, so that `+` joins it."""
    return isinstance(given, str) or isinstance(given, Expression) and given.type == "text"


def is_list(given):
    return isinstance(given, (list, tuple)) or isinstance(given, Expression) and given.type in ("ints", "texts")


class Expression:
    """An expression, with its type where that is known. Its operators make larger ones."""

    def __init__(self, given, type=None):
        self.form, self.type = given, type

    def __add__(self, other):
        return joined(self, other)

    def __radd__(self, other):
        return joined(other, self)

    def __sub__(self, other):
        return operation("-", self, other, type="int")

    def __rsub__(self, other):
        return operation("-", other, self, type="int")

    def __mul__(self, other):
        return operation("*", self, other, type="int")

    __rmul__ = __mul__

    def __floordiv__(self, other):
        return operation("div", self, other, type="int")

    def __mod__(self, other):
        return operation("mod", self, other, type="int")

    def __lt__(self, other):
        return operation("<", self, other, type="bool")

    def __gt__(self, other):
        return operation("<", other, self, type="bool")

    def __and__(self, other):
        return operation("and", self, other, type="bool")

    def __or__(self, other):
        return operation("or", self, other, type="bool")

    def __invert__(self):
        return operation("not", self, type="bool")

    def __bool__(self):
        raise Fault("an expression has no truth value in Python: take if_(c, a, b), &, | and ~, and same(a, b) for =")

    __hash__ = None

    def __eq__(self, other):
        return operation("=", self, other, type="bool")


class Field(Expression):
    """A field of a component, which handlers set."""

    def __init__(self, name, type):
        super().__init__(["field", name], type)
        self.name = name

    def set(self, value):
        """A set of a handler: the field gets this value."""
        return ["set", self.name, form(value)]


def operation(operator, *operands, type=None):
    """An operator over its operands."""
    return Expression([operator, *map(form, operands)], type)


def joined(a, b):
    """`+`: of texts and lists `cat`, else the sum."""
    if is_text(a) or is_text(b):
        return operation("cat", a, b, type="text")
    if is_list(a) or is_list(b):
        return operation("cat", a, b, type=type_of(a) or type_of(b))
    return operation("+", a, b, type="int")


def type_of(given):
    """The type of an expression, as far as it is known."""
    if isinstance(given, Expression):
        return given.type
    if isinstance(given, (list, tuple)):
        return ("texts" if is_text(given[0]) else "ints") if given else None
    return "bool" if isinstance(given, bool) else "text" if isinstance(given, str) else "int" if isinstance(given, int) else None


def cat(a, b):
    return operation("cat", a, b, type=type_of(a) or type_of(b))


def same(a, b):
    return operation("=", a, b, type="bool")


def if_(c, a, b):
    return operation("if", c, a, b, type=type_of(a) or type_of(b))


def not_(a):
    return operation("not", a, type="bool")


def show(i):
    return operation("show", i, type="text")


def len_(items):
    return operation("len", items, type="int")


def range_(n):
    return operation("range", n, type="ints")


def at(items, i, d):
    return operation("at", items, i, d, type={"ints": "int", "texts": "text"}.get(type_of(items)) or type_of(d))


def push(items, x):
    return operation("push", items, x, type=type_of(items))


def drop(items, i):
    return operation("drop", items, i, type=type_of(items))


def reverse(items):
    return operation("reverse", items, type=type_of(items))


def ints(*items):
    return operation("ints", *items, type="ints")


def texts(*items):
    return operation("texts", *items, type="texts")


class event:
    """How far a drag moved, in a handler."""

    dx = Expression(["event", "dx"], "int")
    dy = Expression(["event", "dy"], "int")


def inherit(name, type=None):
    """The value of an inherited name."""
    return Expression(["inherit", named(name)], type)


# ---- templates


def named(name):
    if not isinstance(name, str) or not NAME.search(name):
        raise Fault(f"{name!r} is no name: 1 to 32 letters, digits and _, and no digit first")
    return name


def local(value):
    """A key among siblings."""
    return ["local", form(value)]


def global_(value):
    """A key of the whole tree."""
    return ["global", form(value)]


def member(kind, name, given, schema):
    """A member's value as JSON has it."""
    reference = schema.get("$ref", "").rpartition("/")[2]
    if reference == "expression":
        return form(color(given) if name == "color" else given)
    if "enum" in schema and not (isinstance(given, str) and given in schema["enum"]):
        raise Fault(f"{kind}: {name} is one of {', '.join(schema['enum'])}, and not {given!r}")
    if reference == "name":
        return named(given)
    if reference == "handler" and not all(isinstance(one, list) and one[:1] == ["set"] for one in given):
        raise Fault(f"{kind}: {name} is a list of sets, as [it.count.set(1)]")
    if reference == "template" and not (isinstance(given, dict) and "w" in given):
        raise Fault(f"{kind}: {name} is a widget, and not {given!r}")
    return list(given) if schema.get("type") == "array" else given


def template(kind, members):
    """A template of a kind, its members in the schema's order."""
    rules = PARTS[f"kind_{kind}"]
    members = {name.removesuffix("_"): given for name, given in members.items() if given is not None}
    for name in members:
        if name not in rules["properties"]:
            raise Fault(f"{kind} has no member {name}: {', '.join(rules['properties'])}")
    for name in rules["required"]:
        if name != "w" and name not in members:
            raise Fault(f"{kind} wants a member {name}")
    names = [name for name in members if name in rules["properties"]]
    return {"w": kind} | {name: member(kind, name, members[name], rules["properties"][name]) for name in names}


def function_of(kind):
    """The function that makes templates of a kind; its first word without a name is the kind's own first one."""
    rules = PARTS[f"kind_{kind}"]["properties"]
    firsts = [name for name in ("text", "delegate", "child", "children") if name in rules][:1]

    def make(*first, **members):
        if len(first) > len(firsts):
            raise Fault(f"{kind} takes {len(firsts)} without a name")
        return template(kind, dict(zip(firsts, first)) | members)

    make.__name__ = kind
    make.__doc__ = f"{PARTS[f'kind_{kind}']['description']} Members: {', '.join(name for name in rules if name != 'w')}."
    return make


for _kind in KINDS:
    if _kind[0].isupper():
        globals()[_kind] = function_of(_kind)


def Inherit(name, value, child, key=None):
    """Gives a value to an inherited name below it."""
    return template("Inherit", {"name": name, "value": color(value) if isinstance(value, str) and COLOR.fullmatch(value) else value, "child": child, "key": key})


def slot(name):
    """The content that was given for a slot."""
    return template("slot", {"name": name})


def choose(cond, then, otherwise=None):
    """One of two templates, or none."""
    return template("if", {"cond": cond, "then": then, "else": otherwise})


def each(items, body, var="i", type=None):
    """A template for each item of a list: `body` is a function of the loop's variable."""
    known = type or {"ints": "int", "texts": "text"}.get(type_of(items))
    return template("each", {"var": var, "in": items, "body": body(Expression(["var", named(var)], known))})


# ---- components and programs


class Names:
    """The fields and props that a body sees, as `it.count`."""

    def __init__(self, props, fields):
        for name, kind in props.items():
            setattr(self, name, Expression(["prop", named(name)], kind))
        for name, (kind, _) in fields.items():
            setattr(self, name, Field(named(name), kind))


class Component:
    """A component. Called with its props and slots it gives a `use` of it."""

    def __init__(self, name, props, fields, slots, body):
        self.name, self.slots = named(name), list(map(named, slots))
        self.props = dict(props)
        twice = set(self.props) & set(fields)
        if twice:
            raise Fault(f"{name}: {sorted(twice)} are props and fields")
        seen = Names(self.props, {})
        given = {field: first(seen) if callable(first) else first for field, first in fields.items()}
        self.fields = {field: first if isinstance(first, Typed) else Typed(type_of(first), first) for field, first in given.items()}
        for field, (kind, _) in self.fields.items():
            if kind is None:
                raise Fault(f"{name}: the type of {field} isn't known: write typed(TYPE, VALUE)")
        self.body = body(Names(self.props, self.fields)) if callable(body) else body

    def __call__(self, key=None, **given):
        props = {name: form(value) for name, value in given.items() if name not in self.slots}
        slots = {name: value for name, value in given.items() if name in self.slots}
        if set(props) != set(self.props) or set(slots) != set(self.slots):
            raise Fault(f"{self.name} takes {sorted([*self.props, *self.slots])}, and not {sorted(given)}")
        return template("use", {"name": self.name, "key": key, "props": props or None, "slots": slots or None})

    def json(self):
        found = {"name": self.name}
        if self.props:
            found["props"] = [[name, kind] for name, kind in self.props.items()]
        if self.fields:
            found["fields"] = [[name, kind, form(first)] for name, (kind, first) in self.fields.items()]
        if self.slots:
            found["slots"] = self.slots
        return found | {"body": self.body}


class Typed(tuple):
    """A type and a first value."""

    def __new__(cls, kind, first):
        return super().__new__(cls, (kind, first))


def typed(kind, first):
    """A first value whose type can't be seen from it, as `typed("texts", texts())`."""
    return Typed(kind, first)


def component(name, body, props=None, fields=None, slots=()):
    """A component. `props` has types by name, `fields` first values by name (or functions of the props), and `body` is a
    template, or a function of the component's names that gives one."""
    return Component(name, props or {}, fields or {}, slots, body)


def program(view, root, components=(), inherited=None, version=1):
    """A program. `inherited` has defaults by name."""
    found = {"version": version, "view": list(view)}
    if inherited:
        found["inherited"] = [[named(name), type_of(first), form(first)] for name, first in inherited.items()]
    if components:
        found["components"] = [one.json() for one in components]
    return found | {"root": root}


def text_of(made, script=()):
    """What an input's text is: the program, the line %%, and the lines of the script."""
    return "\n".join([json.dumps(made, ensure_ascii=False), "%%", *script, ""])


def write(path, made, script=()):
    """Writes an input into a file."""
    pathlib.Path(path).write_text(text_of(made, script), encoding="utf-8")


__all__ = [name for name in dict(globals()) if not name.startswith("_") and name not in ("json", "pathlib", "re")]
