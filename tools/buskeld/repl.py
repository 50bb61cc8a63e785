"""usage: bin/repl FILE | APP.json SCRIPT

Plays a program line by line: the script of the file first, then each line that is typed, with its answer at once. A line
is a script line (docs/FORMATS.md), a step of a test (docs/TESTING.md: tap "Wi-Fi", see "Home", field Settings.wifi true),
or one of

  save NAME.frame   writes the program and the script lines that were played and accepted; of steps, the lines they became
  save NAME.test    writes the lines and steps as they were typed
  help              prints this
  quit              ends it, as Ctrl-D does

The Tab key completes words, node numbers after a #, fields, and texts in quotes; the arrow keys go through earlier lines."""

import pathlib
import re
import sys

from . import build, refusals, source, steps
from .build import NoBuild
from .completion import Completer
from .explain import Explainer
from .held import HeldFault, Refusal
from .player import Player, StepFault
from .source import BadInput
from .steps import BadStep

try:
    import readline
except ImportError:
    readline = None

SAVE = re.compile(r"save (\S+\.(?:frame|test))")


class Session:
    """What was typed, and the program that answers it."""

    def __init__(self, given, player):
        self.given, self.player, self.typed = given, player, []

    def played(self):
        """Plays the file's own script, and gives what it prints."""
        for line in self.given.script:
            yield from self.answer(line)
            if self.player.held.status is not None:
                return

    def answer(self, line):
        """The answer to a line, as lines."""
        kept = SAVE.fullmatch(line)
        if kept:
            return self.save(pathlib.Path(kept[1]))
        if not line or line.startswith("#"):
            return []
        try:
            return self.step(steps.one(0, line), line)
        except BadStep as fault:
            return [f"  {str(fault).partition(': ')[2]}"]
        except StepFault as fault:
            return [f"  wanted {fault.wanted}", f"  found {fault.found}"]

    def step(self, step, line):
        """Does a step or a script line."""
        if step.is_script:
            blocks = self.player.send(line)
        elif line.startswith("picture "):
            raise BadStep("line 0: a picture is compared by bin/test")
        else:
            blocks = step.does(self.player, None) or []
        lines = [text for block in blocks for text in block.lines]
        causes = [row for row in map(refusals.of_block, blocks) if row]
        if not causes:
            self.typed.append(line)
        return lines + [f"  {row['when']}; {row['advice']}" for row in causes]

    def save(self, path):
        """Writes what was played."""
        lines = self.typed if path.suffix == ".test" else self.player.accepted
        head = "" if path.suffix == ".test" else self.given.program.content.rstrip("\n") + "\n%%\n"
        try:
            path.write_text(head + "".join(f"{line}\n" for line in lines), encoding="utf-8")
        except OSError as fault:
            return [f"  {path} can't be written: {fault.strerror}"]
        return [f"  wrote {path}: {len(lines)} lines"]


def read_lines(session):
    """Reads lines and answers them, to the end of what is typed or of the run."""
    while session.player.held.status is None:
        try:
            line = source.kept(input("> ")).strip()
        except EOFError:
            print()
            return
        except KeyboardInterrupt:
            print()
            continue
        if line in ("quit", "exit"):
            return
        show(__doc__.split("\n")[2:] if line == "help" else session.answer(line))
    print(f"the run ended with status {session.player.held.status}")


def show(lines):
    """Prints lines."""
    for line in lines:
        print(source.readable(line), flush=True)


def complete_with(session):
    """Has the Tab key complete what is typed."""
    if readline:
        readline.set_completer_delims("")
        readline.set_completer(Completer(session.player).complete)
        readline.parse_and_bind("tab: complete")


def opened(words):
    """The input that words name, and the program that plays it."""
    inputs = source.inputs_of(words) if words else []
    if len(inputs) != 1 or words[0].startswith("-"):
        raise BadInput(__doc__)
    program = build.proved_program()
    try:
        return inputs[0], Player(program, inputs[0].program.content, 60)
    except Refusal as fault:
        explainer = Explainer(inputs[0], lambda datas: build.checked(program, datas), 1, program)
        raise BadInput("\n".join(explainer.of_text(fault.line + "\n"))) from None


def main(words):
    """Plays a program."""
    if list(words) == ["--help"]:
        print(__doc__)
        return 0
    try:
        given, player = opened(list(words))
    except (BadInput, NoBuild, HeldFault) as fault:
        print(fault, file=sys.stderr)
        return 2
    session = Session(given, player)
    complete_with(session)
    try:
        show(session.played())
        read_lines(session)
    except HeldFault as fault:
        print(f"bin/repl: {fault}", file=sys.stderr)
        return 2
    finally:
        player.close()
    return 0
