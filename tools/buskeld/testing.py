"""usage: bin/test [--update] [--tap | --junit FILE] [--try] [PATH..]
  bin/test PATH..        of each NAME.frame among the files and folders (without PATH: examples/ and
                         tools/tests/programs/) compares what it prints with NAME.out, and plays the steps of NAME.test
                         on its program, where there is one. The status is 0 where all is as wanted, else 1.
  --update               writes NAME.out, and the pictures that a test names, in place of comparing them. Look at what
                         changed before you keep it.
  --tap, --junit FILE    writes TAP to standard output, or JUnit's XML to a file.
  --try                  compares the texts by `rt try`, without a proof; steps need the proved program, and aren't
                         played.

The words of a step: tap, long, drag, scroll, see, no, field, picture, refused (docs/TESTING.md)."""

import pathlib
import sys
import time
from dataclasses import dataclass, field
from typing import List

from . import build, reports, source, steps
from .build import NoBuild
from .drawing import Drawing
from .explain import Explainer
from .golden import Failure, Golden, status_of, words_of
from .held import HeldFault, Refusal
from .paths import EXAMPLES, TOP
from .player import Player, StepFault
from .source import BadInput

FOLDERS = (EXAMPLES, TOP / "tools" / "tests" / "programs")


@dataclass
class Outcome:
    """What came of one file: its failures; `skipped` says why it wasn't tested."""

    name: str
    failures: List[Failure] = field(default_factory=list)
    skipped: str = ""
    seconds: float = 0.0


def programs_in(paths):
    """The files NAME.frame that paths name, each once."""
    found = []
    for path in map(pathlib.Path, paths):
        if path.is_dir():
            found += sorted(path.rglob("*.frame"))
        elif path.with_suffix(".frame").is_file():
            found.append(path.with_suffix(".frame"))
        else:
            raise BadInput(f"{path} is no folder, and there is no {path.with_suffix('.frame')}")
    return list(dict.fromkeys(found))


class Pictures:
    """The pictures of one test, beside its file."""

    def __init__(self, base, golden):
        self.base, self.golden = base, golden

    def compare(self, name, player):
        """Compares the last frame's picture with the one of a name."""
        if player.frame is None:
            raise StepFault("a frame", "none yet: give a line `frame` first")
        drawn = Drawing(player.scale).picture(player.frame, player.view, name) + "\n"
        path = self.base.with_name(f"{self.base.stem}.{name}.svg")
        failure = self.golden.compare(path, drawn)
        if failure:
            raise StepFault(f"{failure.wanted} in {path.name}:{failure.line}", failure.found, False)


def golden_outcome(path, ran, golden, explainer):
    """Compares what a program prints with its stored text, and its status with the stored one, where there is one."""
    outcome = Outcome(f"{path} prints {path.with_suffix('.out').name}")
    failure = golden.compare(path.with_suffix(".out"), ran.text)
    if failure:
        if ran.text.startswith("program "):
            failure.more = explainer.of_text(ran.text)
        outcome.failures.append(failure)
    status = path.with_suffix(".status")
    if status.is_file() and status_of(path) != ran.status:
        outcome.failures.append(Failure(str(status), 1, f"status {status_of(path)}", f"status {ran.status}"))
    return outcome


def steps_outcome(path, program, golden, explainer):
    """Plays a test's steps."""
    file = path.with_suffix(".test")
    outcome = Outcome(str(file))
    try:
        todo = steps.read(file.read_text(encoding="utf-8"))
        player = Player(program, explainer.given.program.content)
    except steps.BadStep as fault:
        line = int(str(fault).split(" ")[1].rstrip(":"))
        outcome.failures.append(Failure(str(file), line, "a step", str(fault).partition(": ")[2]))
        return outcome
    except Refusal as fault:
        more = explainer.of_text(fault.line + "\n")
        outcome.failures.append(Failure(str(path), 1, "a program that is accepted", f"`{fault.line}`", more))
        return outcome
    try:
        play(todo, player, Pictures(path, golden), outcome, file)
    finally:
        player.close()
    return outcome


def play(todo, player, pictures, outcome, file):
    """Plays steps up to one that can't be done. After an expectation that isn't met the others are tested too."""
    for step in todo:
        try:
            step.does(player, pictures)
        except StepFault as fault:
            outcome.failures.append(Failure(str(file), step.number, fault.wanted, fault.found, [f"`{step.text}`"]))
            if fault.is_final:
                return
        except HeldFault as fault:
            outcome.failures.append(Failure(str(file), step.number, "an answer", str(fault), [f"`{step.text}`"]))
            return


def outcomes_of(paths, is_update, is_try):
    """Tests programs, one after another."""
    golden = Golden(is_update)
    program = None if is_try else build.proved_program()
    inputs = [source.of_text(str(path), source.content_of(path)) for path in paths]
    words = [words_of(path) for path in paths]
    tried = build.try_all([given.data for given in inputs], each=words) if is_try and inputs else []
    for at, (path, given) in enumerate(zip(paths, inputs)):
        start = time.monotonic()
        explainer = Explainer(given, lambda datas: build.checked(program, datas), 1, program)
        ran = tried[at] if is_try else build.run(program, given.data, words[at])
        outcome = golden_outcome(path, ran, golden, explainer)
        outcome.seconds = time.monotonic() - start
        yield outcome
        if path.with_suffix(".test").is_file():
            start = time.monotonic()
            outcome = Outcome(str(path.with_suffix(".test")), skipped="steps need the proved program")
            outcome = outcome if is_try else steps_outcome(path, program, golden, explainer)
            outcome.seconds = time.monotonic() - start
            yield outcome


def main(words):
    """Tests programs, and reports what isn't as wanted."""
    flags, junit, words = set(), None, list(words)
    while words and words[0].startswith("--"):
        word = words.pop(0)
        if word == "--junit" and words:
            junit = words.pop(0)
        elif word in ("--update", "--tap", "--try"):
            flags.add(word)
        else:
            print(__doc__, file=sys.stdout if word == "--help" else sys.stderr)
            return 0 if word == "--help" else 2
    try:
        paths = programs_in(words or [it for it in FOLDERS if it.is_dir()])
        report = reports.Tap() if "--tap" in flags else reports.Plain()
        outcomes = []
        for outcome in outcomes_of(paths, "--update" in flags, "--try" in flags):
            outcomes.append(outcome)
            report.one(outcome)
        report.end(outcomes)
        if junit:
            pathlib.Path(junit).write_text(reports.junit(outcomes), encoding="utf-8")
    except (NoBuild, BadInput, OSError) as fault:
        print(f"bin/test: {fault}", file=sys.stderr)
        return 2
    return int(any(outcome.failures for outcome in outcomes))
