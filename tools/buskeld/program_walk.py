"""A program up to a point of the order in which it is checked. The check goes from part to part: names, expressions and
their types, widgets. `cut` keeps the first so many parts, and has plain stand-ins for what comes later: a literal, a
SizedBox, no handler. So the first part with which the program is refused is where its first fault is."""

from dataclasses import dataclass

from . import schema
from .expression_types import NAMED, Scope, literal, neutral, operand_type, type_of

BOX, SLIVER = {"w": "SizedBox"}, {"w": "SliverToBox"}
SLIVERS = ("SliverToBox", "SliverPadding", "SliverFixed", "SliverLazy")
HOLDS_SLIVERS = ("Viewport", "SliverPadding")
CONTENT = ("child", "children", "then", "else", "body", "slots")
HANDLERS = ("tap", "long", "vertical", "horizontal", "pan")


@dataclass
class Part:
    """A part that the check looks at: its path, and what is looked at there: `name`, `known`, `type`, `child`, `props`
    or `slots`; with the names that are seen there, and the type, sort or names that are wanted."""

    path: tuple
    what: str
    scope: Scope
    wanted: object = None


def parts_of(program):
    """All parts of a program, in the order of the check."""
    walk = Walk(program, None)
    walk.program()
    return walk.parts


def cut(program, count):
    """The program with its first so many parts."""
    return Walk(program, count).program()


class Walk:
    """One walk over a program that keeps what comes before a count of parts."""

    def __init__(self, program, count):
        self.given, self.count, self.parts = program, count, []
        self.components, self.inherited = {}, {}

    def take(self, path, what, scope=None, wanted=None):
        """Whether the next part is kept."""
        self.parts.append(Part(path, what, scope or Scope(), wanted))
        return self.count is None or len(self.parts) <= self.count

    def program(self):
        """The program."""
        made = {"version": self.given["version"], "view": self.given["view"]}
        scope = Scope()
        made["inherited"] = self.declared(self.given.get("inherited", []), ("inherited",), scope, self.inherited)
        made["components"] = []
        for at, component in enumerate(self.given.get("components", [])):
            self.component(component, ("components", at), made["components"])
        scope = Scope(self.inherited)
        scope.names["inherit"] = {}
        made["root"] = self.child(self.given["root"], ("root",), scope, "box")
        return made

    def declared(self, entries, path, scope, types):
        """A list of declarations: names alone, or with a type, and with a first value too."""
        made = []
        for at, entry in enumerate(entries):
            name = entry if isinstance(entry, str) else entry[0]
            place = (*path, at)
            if not self.take(place if isinstance(entry, str) else (*place, 0), "name", scope):
                self.skip(entry, place, scope)
                continue
            if isinstance(entry, list) and len(entry) == 3:
                entry = [name, entry[1], self.expression(entry[2], entry[1], (*place, 2), scope)]
            made.append(entry)
            types[name] = entry[1] if isinstance(entry, list) else None
        return made

    def skip(self, entry, place, scope):
        """Counts the parts of a declaration that isn't kept."""
        if isinstance(entry, list) and len(entry) == 3:
            self.expression(entry[2], entry[1], (*place, 2), scope)

    def component(self, given, path, made):
        """A component; one whose name comes later has its name alone, and no name stands twice there."""
        name, props, fields, slots = given["name"], {}, {}, {}
        is_kept = self.take((*path, "name"), "name")
        component = {"name": name}
        if is_kept or name not in [it["name"] for it in made]:
            made.append(component)
        component["props"] = self.declared(given.get("props", []), (*path, "props"), Scope(), props)
        component["fields"] = self.declared(given.get("fields", []), (*path, "fields"), Scope({}, props), fields)
        component["slots"] = self.declared(given.get("slots", []), (*path, "slots"), Scope(), slots)
        scope = Scope(self.inherited, props, fields)
        scope.slots = list(slots)
        component["body"] = self.child(given["body"], (*path, "body"), scope, None)
        if is_kept and name not in self.components:
            self.components[name] = (props, list(slots), self.sort_of(given["body"]))

    def child(self, given, path, scope, sort):
        """A widget at a place of a child: how many it gives and of which sort comes first, then what is in it."""
        is_kept = self.take(path, "child", scope, sort)
        made = self.widget(given, path, scope, self.sort_of(given) or sort)
        return made if is_kept else self.stand_in(sort)

    def branch(self, given, path, scope, sort):
        """A branch of an `if`, which is as certain before it is kept as it is then."""
        start = len(self.parts)
        made = self.child(given, path, scope, sort)
        if self.count is None or self.count > start or is_certain(given):
            return made
        return {"w": "if", "cond": False, "then": self.stand_in(sort)}

    @staticmethod
    def stand_in(sort):
        """A plain widget of a sort."""
        return dict(SLIVER if sort == "sliver" else BOX)

    def sort_of(self, given):
        """Whether a widget is a box or a sliver; none where it has no sort."""
        kind = given["w"]
        if kind in ("if", "each", "Inherit"):
            return self.sort_of(given[{"if": "then", "each": "body", "Inherit": "child"}[kind]])
        if kind == "use":
            return self.components.get(given["name"], (None, None, None))[2]
        return "sliver" if kind in SLIVERS else "box"

    def widget(self, given, path, scope, sort):
        """A widget with what is kept of it, and a stand-in for one whose name isn't."""
        kind = given["w"]
        made, is_known = {"w": kind}, True
        if kind == "use":
            made["name"] = given["name"]
            is_known = self.take((*path, "name"), "known", scope, "component")
        if "key" in given:
            wanted = "text" if given["key"][0] == "global" else "local"
            made["key"] = [given["key"][0], self.expression(given["key"][1], wanted, (*path, "key", 1), scope)]
        if kind in ("Inherit", "slot"):
            is_known = self.take((*path, "name"), "known", scope, "inherit" if kind == "Inherit" else "slot")
        self.members(made, given, path, scope, sort)
        if is_known:
            return made
        return {**self.stand_in(sort), **({"key": made["key"]} if "key" in made else {})}

    def members(self, made, given, path, scope, sort):
        """The members of a widget in order, and its children."""
        if made["w"] == "use":
            self.used(made, given, path, scope)
            return
        for name, wanted in schema.kind(made["w"])["properties"].items():
            place = (*path, name)
            if name in ("w", "key") or name not in given:
                continue
            if name in HANDLERS:
                made[name] = self.handler(given[name], place, scope)
            elif name in CONTENT:
                self.content(made, given, name, path, scope, sort)
            elif schema.reference(wanted) == "expression":
                kind = self.inherited.get(given["name"]) if made["w"] == "Inherit" else schema.member_type(wanted)
                made[name] = self.expression(given[name], kind, place, scope)
            else:
                made[name] = given[name]
            if name == "in":
                scope = scope.with_variable(given["var"], type_of(given["in"], scope))

    def content(self, made, given, name, path, scope, sort):
        """The widgets below a widget."""
        inner = "sliver" if given["w"] in HOLDS_SLIVERS else "box"
        if given["w"] in ("Inherit", "if", "each"):
            inner = sort
        place = (*path, name)
        if given["w"] == "if":
            made[name] = self.branch(given[name], place, scope, inner)
        elif name == "children":
            made[name] = [self.child(it, (*place, at), scope, inner) for at, it in enumerate(given[name])]
        else:
            made[name] = self.child(given[name], place, scope, inner)

    def handler(self, sets, path, scope):
        """A handler's sets, as far as they are kept."""
        made, types = [], scope.names["field"]
        inside = Scope()
        inside.names = {**scope.names, "event": {"dx": "int", "dy": "int"}}
        for at, (word, name, expression) in enumerate(sets):
            is_kept = self.take((*path, at, 1), "known", inside, "field")
            value = self.expression(expression, types.get(name), (*path, at, 2), inside)
            if is_kept:
                made.append([word, name, value])
        return made

    def used(self, made, given, path, scope):
        """What a component is given: exactly what it declares, until what is given is kept."""
        props, slots, _ = self.components.get(given["name"], ({}, [], None))
        values = given.get("props", {})
        has_props = self.take((*path, "props") if "props" in given else path, "props", scope, list(props))
        names = sorted(values, key=encoded)
        kept = {name: self.expression(values[name], props.get(name), (*path, "props", name), scope) for name in names}
        made["props"] = kept if has_props else {name: literal(kind) for name, kind in props.items()}
        contents = given.get("slots", {})
        has_slots = self.take((*path, "slots") if "slots" in given else path, "slots", scope, slots)
        names = sorted(contents, key=encoded)
        kept = {name: self.child(contents[name], (*path, "slots", name), scope, "box") for name in names}
        made["slots"] = kept if has_slots else {name: dict(BOX) for name in slots}

    def expression(self, given, kind, path, scope):
        """An expression, once its type is kept; before, a stand-in, which has in it what is kept of it."""
        start = len(self.parts)
        made = self.operands(given, path, scope)
        wanted = {"local": "int", "any": "int"}.get(kind, kind)
        if self.take(path, "type", scope, kind):
            return given
        some = self.count is not None and self.count > start
        return neutral(made, wanted, scope) if some else literal(wanted)

    def operands(self, given, path, scope):
        """What is kept of an expression's list."""
        if not isinstance(given, list):
            return given
        operator = given[0]
        if operator in NAMED or operator == "event":
            return given if self.take((*path, 1), "known", scope, operator) else 0
        made = []
        for at, operand in enumerate(given[1:]):
            kind = operand_type(operator, at, made, scope)
            made.append(self.expression(operand, kind, (*path, at + 1), scope))
        return [operator, *made]


def encoded(name):
    """A name's bytes, by which names are put in order."""
    return name.encode("utf-8")


def is_certain(given):
    """Whether a widget is certain to give one."""
    if given["w"] == "if":
        return "else" in given and is_certain(given["then"]) and is_certain(given["else"])
    return given["w"] != "each"
