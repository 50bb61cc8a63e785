"""bin/repl: lines that are typed at a terminal, their answers, completion, history, and what is saved."""

import os
import pty
import select
import subprocess
import sys
import time
import unittest

from .support import PROGRAM, SECONDS, Case, ProgramCase, given, script
from .test_testing import BUTTONS

from buskeld import paths, repl
from buskeld.completion import WORDS, Completer
from buskeld.player import Player

try:
    import readline
except ImportError:
    readline = None


class Terminal:
    """A run of bin/repl at a pseudo-terminal."""

    def __init__(self, path):
        self.end, other = pty.openpty()
        env = {**os.environ, "BUSKELD_PROGRAM": str(PROGRAM), "TERM": "dumb", "INPUTRC": os.devnull}
        command = [sys.executable, str(paths.TOP / "bin" / "repl"), str(path)]
        self.process = subprocess.Popen(command, stdin=other, stdout=other, stderr=other, env=env, close_fds=True)
        os.close(other)
        self.said = ""

    def until(self, text):
        """Reads up to a text, and gives all up to it."""
        deadline = time.monotonic() + SECONDS
        while text not in self.said:
            if not select.select([self.end], [], [], max(0, deadline - time.monotonic()))[0]:
                raise AssertionError(f"{text!r} doesn't come, only {self.said!r}")
            self.said += os.read(self.end, 4096).decode("utf-8").replace("\r", "")
        front, _, self.said = self.said.partition(text)
        return front

    def type(self, keys):
        """Types keys."""
        os.write(self.end, keys.encode("utf-8"))

    def close(self):
        """Ends the run."""
        if self.process.poll() is None:
            self.process.kill()
        self.process.wait()
        os.close(self.end)


class AtATerminal(ProgramCase):
    def setUp(self):
        super().setUp()
        self.terminal = Terminal(self.file("page.frame", BUTTONS))
        self.addCleanup(self.terminal.close)
        self.assertIn("frame 1\n", self.terminal.until("> "))

    def answer(self, keys):
        """What comes after keys that were typed, up to the next prompt."""
        self.terminal.type(keys + "\n")
        self.terminal.until("\n")
        return self.terminal.until("> ")

    def test_lines_have_their_answers(self):
        self.assertEqual(self.answer('tap "More"'), "arena 99 #3 tap\ntap #3\n")
        self.assertIn('"1"', self.answer("frame"))
        self.assertEqual(self.answer('see "1"'), "")
        self.assertIn('  wanted "7" to be seen\n  found none among "More"', self.answer('see "7"'))
        self.assertIn("refused 5 8 NoField\n  the component has no such field; look its fields up", self.answer("set #1 x 1"))
        self.terminal.type("quit\n")
        self.assertEqual(self.terminal.process.wait(SECONDS), 0)

    @unittest.skipUnless(readline and "GNU" in (readline.__doc__ or ""), "there is no GNU readline")
    def test_keys_complete_and_go_back(self):
        self.assertEqual(self.answer('tap "Mor\t'), "arena 99 #3 tap\ntap #3\n")
        self.assertEqual(self.answer("field Page.n\t 1"), "")
        self.assertIn("found it", self.answer('no "Hol\t'))
        self.assertIn("found it", self.answer("\x1b[A"))

    def test_the_end_of_what_is_typed(self):
        self.terminal.type("\x04")
        self.assertEqual(self.terminal.process.wait(SECONDS), 0)


class Saved(ProgramCase):
    def session(self):
        made = given(BUTTONS)
        player = Player(PROGRAM, made.program.content, SECONDS)
        self.addCleanup(player.close)
        return repl.Session(made, player)

    def test_what_was_typed_plays_again(self):
        session = self.session()
        said = list(session.played())
        for line in ('tap "More"', "farme", "frame", 'see "1"', 'see "2"', "# a remark", "states"):
            answer = session.answer(line)
            said += [] if any(it.startswith(("  wanted", "refused")) for it in answer) else answer
        frame, steps = self.folder / "typed.frame", self.folder / "typed.test"
        self.assertEqual(session.answer(f"save {frame}"), [f"  wrote {frame}: 5 lines"])
        self.assertEqual(session.answer(f"save {steps}"), [f"  wrote {steps}: 5 lines"])
        self.assertEqual(steps.read_text(encoding="utf-8"), 'frame\ntap "More"\nframe\nsee "1"\nstates\n')
        self.assertEqual(script("frame", frame), (0, "".join(line + "\n" for line in said), ""))
        self.assertEqual(script("test", "--update", frame)[0], 0)
        self.assertEqual(script("test", frame)[0], 0)

    def test_what_can_not_be_saved(self):
        self.assertIn("can't be written", self.session().answer(f"save {self.folder}/none/a.frame")[0])

    def test_completions(self):
        session = self.session()
        made = Completer(session.player)
        self.assertEqual(made.completions("s"), [word for word in WORDS if word.startswith("s")])
        list(session.played())
        self.assertEqual(made.completions('tap "M'), ['tap "More"', 'tap "Move"'])
        self.assertEqual(made.completions("set #"), ["set #1"])
        self.assertEqual(made.completions("set #1 "), ["set #1 n", "set #1 said"])
        self.assertEqual(made.completions("act #"), ["act #3", "act #5"])
        self.assertEqual(made.completions("focus "), ["focus #3", "focus next", "focus prev", "focus none"])
        self.assertEqual(made.completions("field Page.s"), ["field Page.said"])
        self.assertEqual(made.completions("scroll #"), [])
        self.assertIsNone(made.complete("nothing that is one", 0))


class Opening(Case):
    @unittest.skipUnless(os.access(PROGRAM, os.X_OK), "the program isn't built")
    def test_a_refused_program_is_explained(self):
        status, text, told = script("repl", paths.EXAMPLES / "misspelled.frame")
        self.assertEqual((status, text), (2, ""))
        self.assertIn("misspelled.frame:6:11: there is no kind `Paddin`. Did you mean `Padding`?", told)

    def test_words_that_are_none(self):
        for words in ((), ("--tyr",), (self.folder / "none",)):
            self.assertEqual(script("repl", *words)[0], 2)


if __name__ == "__main__":
    unittest.main()
