"""A JSON text (RFC 8259) whose values know where they stand. It refuses what the program refuses as `program json`:
also a byte order mark, a list or object that nests more than 127 deep, half a surrogate pair, and what is no UTF-8."""

import bisect
import re
from dataclasses import dataclass, field
from typing import Any, List, Optional

DEEPEST = 127
NUMBER = re.compile(r"-?(0|[1-9][0-9]*)(\.[0-9]+)?([eE][-+]?[0-9]+)?")
PLAIN = re.compile(r'[^"\\\x00-\x1f\udc80-\udcff]*')
UNIT = re.compile(r"\\u([0-9a-fA-F]{4})")
SPACE = re.compile(r"[ \t\n\r]*")
WORDS = {"true": True, "false": False, "null": None}
ESCAPES = {'"': '"', "\\": "\\", "/": "/", "b": "\b", "f": "\f", "n": "\n", "r": "\r", "t": "\t"}


class Text:
    """A text with the name of its file. Lines and columns count from 1, and columns are characters."""

    def __init__(self, name, content, line=1, column=1):
        self.name, self.content, self.line, self.column = name, content, line, column
        self.starts = [0] + [at + 1 for at, character in enumerate(content) if character == "\n"]

    def place(self, offset):
        """The line and the column of an offset."""
        row = bisect.bisect_right(self.starts, offset) - 1
        shift = self.column if row == 0 else 1
        return self.line + row, offset - self.starts[row] + shift

    def shown(self, offset):
        """An offset as `FILE:LINE:COLUMN`."""
        line, column = self.place(offset)
        return f"{self.name}:{line}:{column}"


class JsonFault(Exception):
    """Why a text isn't JSON, and at which offset that shows."""

    def __init__(self, offset, why):
        super().__init__(why)
        self.offset, self.why = offset, why


@dataclass
class Member:
    """A member of an object: its name, where that stands, and its value."""

    name: str
    start: int
    end: int
    value: "Node"


@dataclass
class Node:
    """A value, where it stands in its text, and what it holds. A number that isn't whole has None for its value."""

    kind: str
    start: int
    end: int
    text: Text
    value: Any = None
    members: List[Member] = field(default_factory=list)
    entries: List["Node"] = field(default_factory=list)

    def member(self, name) -> Optional[Member]:
        """The member of this name; of two the last."""
        found = [member for member in self.members if member.name == name]
        return found[-1] if found else None

    def plain(self):
        """The value as plain data."""
        if self.kind == "object":
            return {member.name: member.value.plain() for member in self.members}
        if self.kind == "list":
            return [entry.plain() for entry in self.entries]
        return self.value

    def source(self):
        """The text of the value."""
        return self.text.content[self.start : self.end]

    def shown(self):
        """Where it stands, as `FILE:LINE:COLUMN`."""
        return self.text.shown(self.start)


def read(text):
    """The value that a text holds."""
    return Reader(text).whole()


class Reader:
    """Reads one value after another."""

    def __init__(self, text):
        self.text, self.content, self.at, self.depth = text, text.content, 0, 0

    def fail(self, why, at=None):
        """Says why the text is no JSON, and where."""
        at = self.at if at is None else at
        if at < len(self.content) and "\udc80" <= self.content[at] <= "\udcff":
            why = "this byte is no UTF-8"
        raise JsonFault(min(at, len(self.content)), why)

    def whole(self):
        """The one value of the text."""
        if self.content[:1] == "\ufeff":
            self.fail("a byte order mark stands here")
        value = self.value()
        self.space()
        if self.at < len(self.content):
            self.fail("something follows the end of the program")
        return value

    def space(self):
        """Goes over white space."""
        self.at = SPACE.match(self.content, self.at).end()
        if self.content[self.at : self.at + 2] in ("//", "/*"):
            self.fail("a comment stands here, and JSON has none")

    def head(self):
        """The next character after white space."""
        self.space()
        return self.content[self.at : self.at + 1]

    def value(self):
        """The next value."""
        head, start = self.head(), self.at
        if head == "{":
            return self.nested(self.object, start)
        if head == "[":
            return self.nested(self.list, start)
        if head == '"':
            value = self.string()
            return Node("text", start, self.at, self.text, value)
        if head == "-" or head.isdigit() and head.isascii():
            return self.number(start)
        return self.word(head, start)

    def word(self, head, start):
        """One of the three words."""
        for word, value in WORDS.items():
            if self.content.startswith(word, start):
                self.at = start + len(word)
                return Node("null" if value is None else "bool", start, self.at, self.text, value)
        if not head:
            self.fail("the text ends here, and a value is missing")
        if head in "}]":
            self.fail("a value is missing before this bracket: is there a comma too many?")
        if head == "'":
            self.fail('a text stands in "double quotes"')
        return self.fail("a value is wanted here")

    def nested(self, rest, start):
        """A list or an object, as deep as it may stand."""
        self.depth += 1
        if self.depth > DEEPEST:
            self.fail(f"lists and objects nest more than {DEEPEST} deep here")
        self.at += 1
        node = rest(start)
        self.depth -= 1
        return node

    def object(self, start):
        """The rest of an object."""
        node = Node("object", start, start, self.text)
        if self.head() != "}":
            self.one_member(node)
            while self.follows(",", "}"):
                self.one_member(node)
        else:
            self.at += 1
        node.end = self.at
        return node

    def one_member(self, node):
        """A member of an object."""
        head, start = self.head(), self.at
        if head == "}":
            self.fail("a member is missing before this bracket: is there a comma too many?")
        if head != '"':
            self.fail('a member\'s name is wanted here, in "double quotes"' if head else "the text ends in an object")
        name = self.string()
        end = self.at
        if self.head() != ":":
            self.fail(f'a colon is wanted after the name "{name}"')
        self.at += 1
        node.members.append(Member(name, start, end, self.value()))

    def list(self, start):
        """The rest of a list."""
        node = Node("list", start, start, self.text)
        if self.head() != "]":
            node.entries.append(self.value())
            while self.follows(",", "]"):
                node.entries.append(self.value())
        else:
            self.at += 1
        node.end = self.at
        return node

    def follows(self, comma, close):
        """Whether a comma comes next, and not the end."""
        head = self.head()
        if head not in (comma, close) or not head:
            what = "object" if close == "}" else "list"
            wanted = f"a comma or the {what}'s end `{close}` is wanted here"
            self.fail(wanted if head else f"the text ends in this {what}")
        self.at += 1
        return head == comma

    def number(self, start):
        """A number."""
        found = NUMBER.match(self.content, start)
        after = self.content[found.end() : found.end() + 1] if found else ""
        if not found or (after.isdigit() and after.isascii()) or after in (".", "e", "E"):
            self.fail("this is no number of JSON")
        self.at = found.end()
        whole = not found.group(2) and not found.group(3) and found.group() != "-0"
        if not whole and abs(float(found.group())) == float("inf"):
            self.fail("this number is too large", start)
        return Node("number", start, self.at, self.text, int(found.group()) if whole else None)

    def string(self):
        """A text in quotes."""
        start, parts = self.at, []
        self.at += 1
        while True:
            plain = PLAIN.match(self.content, self.at)
            parts.append(plain.group())
            self.at = plain.end()
            head = self.content[self.at : self.at + 1]
            if head == '"':
                self.at += 1
                return "".join(parts)
            if not head:
                self.fail("this text has no end: a quote is missing", start)
            if head != "\\":
                self.fail("a text has its line end or control character as an escape, such as \\n")
            parts.append(self.escape())

    def escape(self):
        """What an escape in a text stands for."""
        mark = self.content[self.at + 1 : self.at + 2]
        if mark in ESCAPES and mark:
            self.at += 2
            return ESCAPES[mark]
        start, first = self.at, self.unit()
        if first is None:
            self.fail("this is no escape of JSON")
        if not 0xD800 <= first < 0xE000:
            return chr(first)
        low = self.unit() if first < 0xDC00 else None
        if low is None or not 0xDC00 <= low < 0xE000:
            self.fail("half a surrogate pair stands here", start)
        return chr(0x10000 + ((first - 0xD800) << 10) + low - 0xDC00)

    def unit(self):
        """The number of an escape `\\uXXXX`; none where there isn't one."""
        found = UNIT.match(self.content, self.at)
        if not found:
            return None
        self.at = found.end()
        return int(found.group(1), 16)
