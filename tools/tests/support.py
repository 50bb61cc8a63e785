"""What the tests share."""

import os
import pathlib
import stat
import subprocess
import sys
import tempfile
import unittest

HERE = pathlib.Path(__file__).resolve().parent
sys.path.insert(0, str(HERE.parent))

from buskeld import build, json_text, paths, source

PROGRAM = paths.built_program()
PROGRAMS = HERE / "programs"
SECONDS = 300
MARK = "«"


class Case(unittest.TestCase):
    """A test with a folder of its own."""

    def setUp(self):
        folder = tempfile.TemporaryDirectory()
        self.addCleanup(folder.cleanup)
        self.folder = pathlib.Path(folder.name)

    def file(self, name, content, is_program=False):
        """A file in the folder."""
        path = self.folder / name
        path.write_text(content, encoding="utf-8")
        if is_program:
            path.chmod(path.stat().st_mode | stat.S_IXUSR)
        return path


@unittest.skipUnless(os.access(PROGRAM, os.X_OK), "the program isn't built")
class ProgramCase(Case):
    """A test that needs the built program."""


def ask(datas):
    """What the program's check says of programs."""
    return [build.run(PROGRAM, data, ["check"], SECONDS).text.split("\n")[0] for data in datas]


def marked(text):
    """A text without its mark, and the offset of that."""
    at = text.index(MARK)
    return text.replace(MARK, ""), at


def place_of(text, at):
    """The line and the column of an offset."""
    return json_text.Text("here", text).place(at)


def given(text, name="app.frame"):
    """An input of a text."""
    return source.of_text(name, text)


def script(name, *words, stdin=""):
    """A run of one of the scripts in bin/, with the built program: its status, its text and what it told."""
    command = [sys.executable, str(paths.TOP / "bin" / name), *map(str, words)]
    env = {**os.environ, "BUSKELD_PROGRAM": str(PROGRAM)}
    pipe = subprocess.PIPE
    ran = subprocess.run(command, input=stdin.encode("utf-8"), stdout=pipe, stderr=pipe, env=env, timeout=SECONDS, check=False)
    return ran.returncode, ran.stdout.decode("utf-8"), ran.stderr.decode("utf-8")
