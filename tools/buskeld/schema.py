"""The form of programs, as docs/program.schema.json has it: what is wanted at a place, and the nearest of its words."""

import functools
import json

from .paths import SCHEMA

LONGEST_WORD, MOST = 200, 3
VERSIONS = {"without_version_2": 2, "without_version_3": 3}
CALLED = {
    "template": "a widget, which is an object with a member `w`",
    "expression": "an expression: an integer, `true`, `false`, a text, or a list that begins with an operator",
    "name": "a name, which is a text of 1 to 32 letters, digits and `_`, with no digit first",
    "handler": 'a handler, which is a list of ["set", FIELD, EXPRESSION]',
    "key": 'a key, which is ["local", EXPRESSION] or ["global", EXPRESSION]',
    "component": "a component, which is an object",
    "declared": "a list [NAME, TYPE]",
    "declared_value": "a list [NAME, TYPE, EXPRESSION]",
    "side": "an integer from 1 to 16777216",
}
TYPES = {**dict.fromkeys(("a length", "a place", "an alignment", "an int"), "int"), "a bool": "bool", "a text": "text"}


@functools.lru_cache(maxsize=None)
def whole():
    """The schema."""
    return json.loads(SCHEMA.read_text(encoding="utf-8"))


def definition(name):
    """One of the schema's definitions."""
    return whole()["$defs"][name]


def reference(schema):
    """The name of the definition that a schema refers to."""
    return schema.get("$ref", "").rpartition("/")[2]


def kinds():
    """The kinds of widgets."""
    return definition("template")["properties"]["w"]["enum"]


def kind(name):
    """The definition of a kind; none where there is no such kind."""
    return whole()["$defs"].get(f"kind_{name}") if isinstance(name, str) else None


def version_of(name):
    """The version from which a kind is there."""
    for restriction, version in VERSIONS.items():
        if name in definition(restriction)["if"]["properties"]["w"]["enum"]:
            return version
    return 1


def operators():
    """Each operator with the schema of its list."""
    found = {}
    for form in definition("operation")["allOf"]:
        head = form["if"]["prefixItems"][0]
        found.update({word: form["then"] for word in head.get("enum", [head.get("const")])})
    return found


def member_type(schema):
    """The type that a member of a kind wants: one of the five, `list` for both lists, none where none is said."""
    said = schema.get("description", "")
    if said.startswith("a list"):
        return "ints" if "ints" in said else "list"
    return next((kind for words, kind in TYPES.items() if said.startswith(words)), None)


def object_schema(node, schema):
    """The schema of an object, which of a widget goes by its `w`."""
    if reference(schema) == "template":
        word = node.member("w") if node.kind == "object" else None
        found = kind(word.value.value) if word else None
        return found or {"required": ["w"], "properties": {"w": {"type": "string"}}}
    return definition(reference(schema)) if reference(schema) else schema


def below(node, schema, step):
    """The schema of a member or an entry of a value, as far as there is one."""
    schema = object_schema(node, schema)
    if node.kind == "object":
        return schema.get("properties", {}).get(step) or schema.get("additionalProperties") or {}
    if reference(schema.get("then", {})) == "operation" and node.entries:
        schema = operators().get(node.entries[0].value, {})
        if step == 0:
            return {"enum": list(operators())}
    fixed = schema.get("prefixItems", [])
    return fixed[step] if step < len(fixed) else schema.get("items") or {}


def called(schema):
    """What is wanted, in words."""
    name = reference(schema)
    words = words_of(schema)
    if name in CALLED:
        return CALLED[name]
    if words:
        return "one of " + ", ".join(f"`{word}`" for word in words)
    return {"array": "a list", "object": "an object", "string": "a text"}.get(schema.get("type"), "another value")


def words_of(schema):
    """The words of which one is wanted."""
    schema = definition("type") if reference(schema) == "type" else schema
    words = schema.get("enum", [schema["const"]] if "const" in schema else [])
    return [word for word in words if isinstance(word, str)]


def distance(one, other):
    """How many letters are added, left out, changed or exchanged with the next between two words."""
    rows = [list(range(len(other) + 1))]
    for at, letter in enumerate(one, 1):
        row = [at]
        for to, wanted in enumerate(other, 1):
            least = min(rows[-1][to] + 1, row[-1] + 1, rows[-1][to - 1] + (letter != wanted))
            if at > 1 and to > 1 and letter == other[to - 2] and one[at - 2] == wanted:
                least = min(least, rows[-2][to - 2] + 1)
            row.append(least)
        rows.append(row)
    return rows[-1][-1]


def nearest(word, words):
    """Of some words the one that is most like a word; none where none is like it."""
    if not isinstance(word, str) or len(word) > LONGEST_WORD:
        return None
    near = [(distance(word.lower(), it.lower()), it) for it in words if abs(len(it) - len(word)) <= MOST]
    near = [it for it in near if it[0] <= min(MOST, 1 + len(word) // 4) and it[0] < len(word)]
    return min(near)[1] if near else None


def suggestion(word, words):
    """A sentence that names the nearest word, or nothing."""
    found = nearest(word, [it for it in words if it != word])
    return f" Did you mean `{found}`?" if found else ""


def listed(words):
    """Words for a reader."""
    return ", ".join(f"`{word}`" for word in words) or "none"
