"""An input in its parts: the program, the line %%, and the script, each line with its place in its file. `data` is what
the program takes, byte for byte."""

import pathlib
from dataclasses import dataclass
from typing import List

from .json_text import Text


class BadInput(Exception):
    """A file that can't be taken as an input, and why."""


@dataclass
class Input:
    """A program and its script. `first_line` is the line of its file on which the script's first line stands."""

    name: str
    program: Text
    script: List[str]
    script_name: str
    first_line: int
    data: bytes

    def place(self, number):
        """Where a script line stands that has this number, from 1, as `FILE:LINE`."""
        return f"{self.script_name}:{self.first_line + number - 1}"


def kept(line):
    """What is left of a line: one return at its end is dropped, and then all spaces."""
    return line.removesuffix("\r").rstrip(" ")


def parts(text):
    """The program part, and the script's lines without their ends; the program's end is the line %%."""
    lines = text.split("\n")
    for at, line in enumerate(lines):
        if kept(line) == "%%":
            script = [kept(line) for line in lines[at + 1 :]]
            program = "".join(line + "\n" for line in lines[:at])
            return program, script[:-1] if script and not script[-1] else script, at + 2
    return text, [], len(lines) + 1


def of_text(name, text):
    """The input that a text holds."""
    program, script, first = parts(text)
    return Input(name, Text(name, program), script, name, first, bytes_of(text))


def of_pair(name, program, script_name, script):
    """The input of a program and a script that stand in files of their own."""
    if any(kept(line) == "%%" for line in program.split("\n")):
        raise BadInput(f"{name} has a line %% of its own, and so it is a whole input: give it alone")
    lines = [kept(line) for line in script.split("\n")]
    data = bytes_of(program + ("" if program.endswith("\n") else "\n") + "%%\n" + script)
    return Input(name, Text(name, program), lines if lines[-1] else lines[:-1], script_name, 1, data)


def bytes_of(text):
    """A text's bytes, as they stood in its file."""
    return text.encode("utf-8", "surrogateescape")


def readable(text):
    """A text for a reader: what is no UTF-8 is a mark in it."""
    return bytes_of(text).decode("utf-8", "replace")


def content_of(path):
    """A file's text. Bytes that are no UTF-8 stand for themselves."""
    with opened(path) as file:
        return file.read().decode("utf-8", "surrogateescape")


def opened(path):
    """A file to be read."""
    if pathlib.Path(path).is_dir():
        raise BadInput(f"{path} is a folder, and a file is wanted")
    try:
        return open(path, "rb")
    except OSError as fault:
        raise BadInput(f"{path} can't be read: {fault.strerror}") from None


def inputs_of(words):
    """The inputs that words name: each a file, or APP.json and the script that follows it."""
    inputs, rest = [], [str(word) for word in words]
    while rest:
        name = rest.pop(0)
        text = content_of(name)
        has_script = name.endswith(".json") and rest and not rest[0].endswith((".json", ".frame"))
        if has_script:
            script = rest.pop(0)
            inputs.append(of_pair(name, text, script, content_of(script)))
        else:
            inputs.append(of_text(name, text))
    return inputs
