"""Runs of the program: by the proved one, which is built where it isn't there, or by `rt try`, which proves nothing."""

import os
import pathlib
import re
import shutil
import subprocess
import sys
import tempfile
import threading
import time
from dataclasses import dataclass

from .paths import CRATE, EXAMPLES, TOP, built_program

PROVED = re.compile(r"(?:fn|impl|trait|struct|enum) ([^: ]+).*: proved$")
CASE = re.compile(r"^case=(\S+) run=(\S+)(?: status=(\d+))?", re.M)
LIMIT = 1048576


class NoBuild(Exception):
    """The program was not built, or can't be."""


@dataclass
class Ran:
    """What a run wrote, and its status; `cut` says why a text isn't whole."""

    text: str
    status: int
    cut: str = ""


def tell(message):
    """Says something on standard error."""
    print(message, file=sys.stderr, flush=True)


class Waiting:
    """Tells every so many seconds what a run waits for."""

    def __init__(self, what, every=30):
        self.what, self.every, self.stop, self.start = what, every, threading.Event(), time.monotonic()
        self.thread = threading.Thread(target=self.tell, daemon=True)

    def tell(self):
        while not self.stop.wait(self.every):
            tell(f"{self.what}, for {int(time.monotonic() - self.start)} s so far")

    def __enter__(self):
        tell(self.what)
        self.thread.start()
        return self

    def __exit__(self, *_):
        self.stop.set()
        self.thread.join()


def need_toolchain():
    """Stops where the toolchain isn't there."""
    if not shutil.which("rt"):
        raise NoBuild("the toolchain's command rt isn't on the PATH")


def is_newer(path, since):
    """Whether a file, or one in a folder, is newer; what builds leave doesn't count."""
    for folder, folders, files in os.walk(path):
        folders[:] = [name for name in folders if name != "out"]
        if any(os.path.getmtime(os.path.join(folder, name)) > since for name in files):
            return True
    return False


def is_built(program):
    """Whether the program is there and no file that it is made of is newer."""
    if not os.access(program, os.X_OK):
        return False
    if os.environ.get("BUSKELD_PROGRAM"):
        return True
    since = program.stat().st_mtime
    return (TOP / "crates.txt").stat().st_mtime <= since and not is_newer(TOP / "crates", since)


def proved_program():
    """The proved program, built first where it has to be."""
    program = built_program()
    if not is_built(program):
        prove(program)
    return program


def prove(program):
    """Proves and builds the program, and tells how far that is."""
    need_toolchain()
    if not os.access(CRATE, os.W_OK):
        raise NoBuild(f"{CRATE} can't be written, and the program is built there")
    tell("bin/frame: proving and building frame_cli, which takes hours the first time")
    tell("bin/frame: (docs/GATE.md); with --try it is run without a proof, in one to three minutes")
    start, proved, lines = time.monotonic(), 0, []
    with (EXAMPLES / "first.frame").open("rb") as given:
        how = {"stdout": subprocess.PIPE, "stderr": subprocess.STDOUT, "text": True, "errors": "replace"}
        with subprocess.Popen(["rt", "run"], cwd=CRATE, stdin=given, **how) as process:
            for line in process.stdout:
                lines.append(line)
                found = PROVED.match(line.rstrip("\n"))
                proved += bool(found)
                if found and proved % 100 == 0:
                    tell(f"bin/frame: {proved} proved, now in {found.group(1).split('::')[0]}")
    if process.returncode:
        sys.stderr.writelines(lines)
        raise NoBuild("frame_cli was not built")
    program.touch()
    tell(f"bin/frame: built in {int(time.monotonic() - start)} s")


def run(program, data, words=(), seconds=None):
    """A run of a built program over an input in memory."""
    ran = subprocess.run([str(program), *words], input=data, stdout=subprocess.PIPE, timeout=seconds, check=False)
    return Ran(ran.stdout.decode("utf-8", "replace"), ran.returncode)


def checked(program, datas):
    """What the check of a built program says of programs, each in a line."""
    return [run(program, data, ["check"]).text.split("\n")[0] for data in datas]


def run_through(program, data, sink, is_kept):
    """A run of a built program whose text is written as it comes. The text, where it is to be kept, and the status."""
    sys.stdout.flush()
    kept = []
    with tempfile.TemporaryFile() as given:
        given.write(data)
        given.seek(0)
        with subprocess.Popen([str(program)], stdin=given, stdout=subprocess.PIPE) as process:
            for piece in iter(lambda: process.stdout.read1(1 << 16), b""):
                sink.write(piece)
                sink.flush()
                if is_kept:
                    kept.append(piece)
    return b"".join(kept).decode("utf-8", "replace"), process.returncode


def try_all(datas, words=(), each=None):
    """Runs over any number of inputs by one build of `rt try`, without any proof. `each` has each run's own words."""
    need_toolchain()
    with tempfile.TemporaryDirectory(prefix="buskeld-") as folder:
        names = [f"run{at:05}" for at in range(len(datas))]
        for name, data, own in zip(names, datas, each or [()] * len(datas)):
            (pathlib.Path(folder) / name).write_bytes(data)
            if own:
                lines = "".join(f"{word}\n" for word in own)
                (pathlib.Path(folder) / f"{name}.args").write_text(lines, encoding="utf-8")
        command = ["rt", "try", "--seconds", "600", "--cases", folder, *(["--", *words] if words else [])]
        inputs = "one input" if len(datas) == 1 else f"{len(datas)} inputs"
        waiting = f"building the program by rt try, for {inputs}: nothing is proved, and it takes one to three minutes"
        with Waiting(waiting):
            pipe = subprocess.PIPE
            ran = subprocess.run(command, cwd=CRATE, stdin=subprocess.DEVNULL, stdout=pipe, stderr=pipe, check=False)
    texts = texts_of(ran.stdout.decode("utf-8", "replace"), names)
    said = ran.stderr.decode("utf-8", "replace")
    ends = {found[1]: found for found in CASE.finditer(said)}
    if len(ends) < len(names):
        sys.stderr.write(said)
        raise NoBuild("rt try didn't run the program")
    return [tried(ends[name], texts.get(name)) for name in names]


def texts_of(printed, names):
    """What stands under each `== NAME`."""
    texts, wanted = {}, set(names)
    now = None
    for line in printed.split("\n")[:-1]:
        name = line[3:] if line.startswith("== ") else None
        if name in wanted:
            now = name
            texts[now] = []
        elif now:
            texts[now].append(line + "\n")
    return {name: "".join(lines) for name, lines in texts.items()}


def tried(end, text):
    """One run of `rt try`. A text past its limit isn't given at all."""
    if end[2] == "ended":
        return Ran(text or "", int(end[3]))
    why = f"rt try has no text for this run, which printed more than {LIMIT:,} bytes or took too long"
    return Ran(text or "", 2, f"{why}: run it without --try")
