"""usage: bin/frame [--try] [--explain] [FILE..]
  bin/frame FILE         runs the proved program on FILE (without FILE: on standard input) and ends with its status.
                         Where the program isn't built yet it is proved first (docs/GATE.md has the minutes); how
                         far it is is told as it goes.
  bin/frame FILE..       runs it on each; of several, each text stands below a line `== FILE`, and the status is the
                         greatest.
  bin/frame APP.json SCRIPT
                         takes a program and a script that stand in files of their own.
  bin/frame --try FILE.. runs the program by `rt try`, without any proof: one build of one to three minutes for all.
  bin/frame --explain FILE..
                         also tells on standard error, of each refusal, fault and note, where it stands, what its cause
                         is and what to do (docs/FORMATS.md); what is printed stays as it is.
  bin/frame --help       prints this."""

import os
import sys

from . import build, source
from .build import NoBuild
from .explain import Explainer
from .source import BadInput

WIDTH = 200


def stop(message):
    """Says why nothing was run."""
    print(f"bin/frame: {message}", file=sys.stderr)
    return 2


def flags_of(words):
    """The flags at the front of the words, and the rest."""
    flags = set()
    words = list(words)
    while words and words[0] in ("--try", "--explain", "--help"):
        flags.add(words.pop(0))
    return flags, words


def main(words):
    """Runs the program on files; the status is the greatest of theirs."""
    flags, files = flags_of(words)
    if "--help" in flags:
        print(__doc__)
        return 0
    if any(word.startswith("-") and word != "-" for word in files):
        print(__doc__, file=sys.stderr)
        return 2
    try:
        if not flags and len(files) < 2:
            return run_directly(files)
        inputs = source.inputs_of(files) if files else [standard_input()]
        return try_inputs(inputs, flags) if "--try" in flags else run_inputs(inputs, flags)
    except (NoBuild, BadInput) as fault:
        return stop(fault)
    except KeyboardInterrupt:
        return 130
    except BrokenPipeError:
        os.dup2(os.open(os.devnull, os.O_WRONLY), sys.stdout.fileno())
        return 141


def run_directly(files):
    """Becomes the proved program, on a file or on standard input, which it takes line by line."""
    given = source.opened(files[0]) if files else None
    program = str(build.proved_program())
    if given:
        os.dup2(given.fileno(), sys.stdin.fileno())
    sys.stdout.flush()
    os.execv(program, [program])


def standard_input():
    """What stands on standard input."""
    return source.of_text("standard input", sys.stdin.buffer.read().decode("utf-8", "surrogateescape"))


def run_inputs(inputs, flags):
    """Runs the proved program on inputs, and writes each text as it comes."""
    program, worst = build.proved_program(), 0
    for given in inputs:
        heading(given, inputs)
        text, status = build.run_through(program, given.data, sys.stdout.buffer, "--explain" in flags)
        if "--explain" in flags:
            tell(Explainer(given, lambda datas: build.checked(program, datas), 1, program), text)
        worst = max(worst, status)
    return worst


def try_inputs(inputs, flags):
    """Runs the program without its proof on inputs, by one build."""

    def ask(datas):
        return [ran.text.split("\n")[0] for ran in build.try_all(datas, ["check"])]

    worst = 0
    for given, ran in zip(inputs, build.try_all([given.data for given in inputs])):
        heading(given, inputs)
        sys.stdout.buffer.write(ran.text.encode("utf-8"))
        sys.stdout.flush()
        if ran.cut:
            print(f"bin/frame: {given.name}: {ran.cut}", file=sys.stderr)
        if "--explain" in flags:
            tell(Explainer(given, ask, WIDTH), ran.text)
        worst = max(worst, ran.status)
    return worst


def heading(given, inputs):
    """Of several inputs, says whose text comes."""
    if len(inputs) > 1:
        print(f"== {given.name}", flush=True)


def tell(explainer, text):
    """Writes explanations."""
    for line in explainer.of_text(text):
        print(line, file=sys.stderr)
