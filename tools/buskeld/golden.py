"""Texts that are kept in files, and what an example's run is given and gives: NAME.out, NAME.args and NAME.status."""

import sys
from dataclasses import dataclass, field
from typing import List


@dataclass
class Failure:
    """Something that isn't as wanted: the file and the line that say so, what was wanted and what was found."""

    file: str
    line: int
    wanted: str
    found: str
    more: List[str] = field(default_factory=list)


def difference(wanted, got):
    """The first line in which two texts differ, as its number and both lines; none where they don't."""
    if wanted == got:
        return None
    one, other = lines_of(wanted), lines_of(got)
    at = next((at for at, pair in enumerate(zip(one, other)) if pair[0] != pair[1]), min(len(one), len(other)))
    return at + 1, shown(one, at), shown(other, at)


def lines_of(text):
    """A text's lines. One that has no line feed at its end is another than one that has."""
    lines = text.split("\n")
    return lines[:-1] if not lines[-1] else [*lines[:-1], lines[-1] + " (without a line feed)"]


def shown(lines, at):
    """A line for a reader."""
    return f"`{lines[at]}`" if at < len(lines) else "the end of the text"


class Golden:
    """A text that is kept in a file: compared with it, or written to it."""

    def __init__(self, is_update):
        self.is_update = is_update

    def compare(self, path, got):
        """What differs, as a failure; none where nothing does."""
        if self.is_update:
            if not path.is_file() or path.read_text(encoding="utf-8") != got:
                path.write_text(got, encoding="utf-8")
                print(f"bin/test: wrote {path}", file=sys.stderr)
            return None
        if not path.is_file():
            return Failure(str(path), 1, "this file, which `bin/test --update` writes", "none")
        found = difference(path.read_text(encoding="utf-8"), got)
        return Failure(str(path), *found) if found else None


def words_of(path):
    """The words that a program's run is given: the lines of NAME.args, where that is there."""
    file = path.with_suffix(".args")
    return file.read_text(encoding="utf-8").split("\n")[:-1] if file.is_file() else []


def status_of(path):
    """The status that a program's run ends with: what NAME.status says, and 0 where that isn't there."""
    file = path.with_suffix(".status")
    return int(file.read_text(encoding="utf-8")) if file.is_file() else 0
