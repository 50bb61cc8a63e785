"""usage: bin/check-examples PROGRAM
Runs a built program on each examples/NAME.frame, with the words of NAME.args where that is there (one a line), and
compares what it prints with NAME.out and its status with NAME.status (0 where that isn't there). Then it makes by
itself what no file of an example can be: an input that is too long, a folder as input, and a full disk as output."""

import pathlib
import subprocess
import sys
import tempfile

from .golden import difference, status_of, words_of
from .paths import EXAMPLES

SECONDS = 900
LONGEST = 67108864
PROGRAM = b'{"version":1,"view":[100,50],"root":{"w":"SizedBox"}}\n%%\n'


def wrong_status(name, wanted, got):
    """What is wrong with a status, as a list."""
    return [] if wanted == got else [f"{name}: wanted status {wanted}, found {got}"]


def run(words, **streams):
    """A run of a program. One that takes too long has no status."""
    try:
        return subprocess.run(words, timeout=SECONDS, check=False, **streams)
    except subprocess.TimeoutExpired:
        return subprocess.CompletedProcess(words, f"none within {SECONDS} s", b"")


def example_faults(program, path):
    """What is wrong with an example's run."""
    with path.open("rb") as given:
        ran = run([program, *words_of(path)], stdin=given, stdout=subprocess.PIPE)
    wanted = path.with_suffix(".out").read_bytes().decode("utf-8", "replace")
    found = difference(wanted, ran.stdout.decode("utf-8", "replace"))
    faults = wrong_status(path.name, status_of(path), ran.returncode)
    if found:
        faults.append(f"{path.with_suffix('.out').name}:{found[0]}: wanted {found[1]}, found {found[2]}")
    return faults


def too_long(program):
    """An input of one byte too many after the line %%: status 8."""
    with tempfile.TemporaryFile() as given:
        given.write(PROGRAM)
        for _ in range(LONGEST >> 20):
            given.write(b"\n" * (1 << 20))
        given.write(b"\n")
        given.seek(0)
        ran = run([program], stdin=given, stdout=subprocess.PIPE)
    return wrong_status("an input of 67,108,865 line feeds after the line %%", 8, ran.returncode)


def folder(program):
    """A folder as input: a read fails, status 5."""
    with tempfile.TemporaryDirectory() as name:
        ran = run(["sh", "-c", 'exec "$1" <"$2"', "", program, name], stdout=subprocess.PIPE)
    return wrong_status("a folder as input", 5, ran.returncode)


def full_disk(program):
    """A full disk as output: a write fails, status 6."""
    with open("/dev/full", "wb", buffering=0) as sink:
        ran = run([program], input=PROGRAM + b"frame\n", stdout=sink)
    return wrong_status("a full disk as output", 6, ran.returncode)


def check(program, folder_of_examples, others=(too_long, folder, full_disk)):
    """What is wrong with all runs, and how many there were."""
    paths = sorted(pathlib.Path(folder_of_examples).glob("*.frame"))
    faults = [fault for path in paths for fault in example_faults(program, path)]
    for other in others:
        faults += other(program)
    return faults, len(paths) + len(others)


def main(words):
    """Compares all examples."""
    if len(words) != 1 or words[0].startswith("-"):
        print(__doc__, file=sys.stderr)
        return 2
    faults, count = check(str(pathlib.Path(words[0]).resolve()), EXAMPLES)
    for fault in faults:
        print(f"bin/check-examples: {fault}", file=sys.stderr)
    print(f"examples: {count} runs compared, {len(faults)} faults")
    return int(bool(faults))
