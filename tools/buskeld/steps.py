"""The lines of a file NAME.test: steps, expectations and script lines, and what each does.

  tap "Wi-Fi"                 a tap on a text; something has to take it
  long "Row"                  a long press
  drag "List" 0 -3000         a drag by so many u, which what wins it is told of
  scroll "List" 600           scrolls the innermost Viewport that shows a text
  see "Home", no "Home"       a text that is to be seen, or isn't
  field Settings.wifi true    a component's field, and its value as JSON
  picture NAME                the last frame looks as in the file beside it, which --update writes
  refused NoNode LINE         a script line that is refused, with the name of its refusal

`"Delete"[2]` is the second of several in the order of reading. A line of another kind is a script line, which has to be
accepted. Empty lines and those that begin with # are left out."""

import json
import re
from dataclasses import dataclass
from typing import Callable

from .player import StepFault

TEXT_STEPS = {"tap": 0, "long": 0, "drag": 2, "scroll": 1, "see": 0, "no": 0}
FIELD = re.compile(r"(#?\w+)\.(\w+) (.*)")
PICTURE = re.compile(r"[A-Za-z0-9_-]+")
DECODER = json.JSONDecoder()


class BadStep(Exception):
    """A line that is no step, though it begins as one."""


@dataclass
class Step:
    """A line of a test with its number, and what it does with a player."""

    number: int
    text: str
    does: Callable
    is_script: bool = False


def read(content):
    """The steps of a test's text."""
    steps = []
    for number, line in enumerate(content.split("\n"), 1):
        line = line.strip(" \r")
        if line and not line.startswith("#"):
            steps.append(one(number, line))
    return steps


def one(number, line):
    """The step that a line is."""
    word, _, rest = line.partition(" ")
    if word in TEXT_STEPS and rest.startswith('"'):
        return text_step(number, line, word, rest)
    if word == "field":
        return field_step(number, line, rest)
    if word == "picture":
        if not PICTURE.fullmatch(rest):
            raise BadStep(f"line {number}: a picture's name has letters, digits, `_` and `-`: {line}")
        return Step(number, line, lambda player, pictures: pictures.compare(rest, player))
    if word == "refused":
        name, _, script = rest.partition(" ")
        return Step(number, line, lambda player, _: refused(player, name, script))
    if word in ("tap", "see", "no", "drag"):
        raise BadStep(f'line {number}: `{word}` wants a text in "double quotes": {line}')
    return Step(number, line, lambda player, _: player.do(line), True)


def text_step(number, line, word, rest):
    """A step about a text, an index in brackets after it, and numbers."""
    try:
        text, end = DECODER.raw_decode(rest)
        after = re.fullmatch(r"(?:\[([1-9][0-9]*)\])?((?: -?[0-9]+)*)", rest[end:])
        numbers = [int(it) for it in after[2].split()]
    except (ValueError, TypeError):
        raise BadStep(f"line {number}: this is no text in quotes, with numbers after it: {line}") from None
    if len(numbers) != TEXT_STEPS[word]:
        raise BadStep(f"line {number}: `{word}` wants {TEXT_STEPS[word]} numbers after the text: {line}")
    index = int(after[1] or 0)
    return Step(number, line, lambda player, _: getattr(player, word)(text, index, *numbers))


def field_step(number, line, rest):
    """An expectation of a field."""
    found = FIELD.fullmatch(rest)
    try:
        wanted = json.loads(found[3])
    except (TypeError, ValueError):
        raise BadStep(f"line {number}: wanted is `field COMPONENT.FIELD VALUE`, the value as JSON: {line}") from None
    return Step(number, line, lambda player, _: player.field(found[1], found[2], wanted))


def refused(player, name, script):
    """A script line that has to be refused."""
    blocks = player.send(script)
    said = [block.lines[0] for block in blocks]
    if not any(block.kind == "refused" and block.name == name for block in blocks):
        raise StepFault(f"`{script}` to be refused as {name}", f"`{said[0]}`" if said else "it accepted", False)
