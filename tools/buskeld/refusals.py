"""Causes of refusals and what to do: docs/refusals.json, from which the tables of docs/FORMATS.md are made."""

import json
import re

from .paths import FORMATS, REFUSALS

HEADS = {
    "program shape": ("code", "fault", "what to do"),
    "program check": ("code", "fault", "what to do"),
    "refused": ("code", "name", "where, tested in this order", "what to do"),
    "fault": ("line", "where", "what to do"),
    "program": ("line", "when", "what to do"),
}
MARKED = re.compile(r"(<!-- ([a-z ]+): from refusals\.json, by bin/refusal-tables -->\n)(.*?)(<!-- end -->\n)", re.S)


def tables():
    """The rows of each table."""
    return json.loads(REFUSALS.read_text(encoding="utf-8"))


def cause(table, key):
    """The row of a table whose code, or the front of whose line, is this."""
    for row in tables()[table]:
        if row.get("code") == key or row.get("line", "").split(" ")[1:2] == [key]:
            return row
    return None


def of_block(block):
    """The row that says why a refusal, a fault or a refused program was printed; none of another block."""
    if block.kind == "refused":
        return cause("refused", block.code)
    if block.kind == "fault":
        return cause("fault", block.name)
    if block.kind == "program":
        return cause("program", "json") if block.table == "json" else cause(f"program {block.table}", block.code)
    return None


def markdown(name, rows):
    """A table as it stands in FORMATS.md."""
    heads = HEADS[name]
    lines = [heads, ["---"] * len(heads)]
    for row in rows:
        values = list(row.values())
        lines.append([f"`{values[0]}`" if "line" in row else str(values[0]), *values[1:]])
    made = ["| " + " | ".join(line) + " |" for line in lines]
    made[1] = "|" + "---|" * len(heads)
    return "\n".join(made) + "\n"


def with_tables(text):
    """A document's text with the tables as they are now."""
    rows = tables()
    return MARKED.sub(lambda found: found[1] + markdown(found[2], rows[found[2]]) + found[4], text)


def main(words):
    """Writes the tables into docs/FORMATS.md, or with --check says whether they are as they should be."""
    text = FORMATS.read_text(encoding="utf-8")
    made = with_tables(text)
    if words == ["--check"]:
        print("docs/FORMATS.md has the tables of docs/refusals.json" if made == text else "docs/FORMATS.md is behind")
        return int(made != text)
    if words:
        print("usage: bin/refusal-tables [--check]")
        return 2
    FORMATS.write_text(made, encoding="utf-8")
    return 0
