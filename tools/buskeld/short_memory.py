"""usage: bin/check-memory PROGRAM [FILE.cases [NAME]]
Runs cases of a case file (crates/worked_cases/README.md) with a built program once for each allocation that the run makes:
that one alone is refused, and in one more run it and all later ones. Such a run has to end with status 7, and what it wrote
has to be a front of the case's text that ends with a line. Where the program does without what was refused, it may also
end as if nothing was; such runs are counted. Of a case with more than 2,000 allocations each 97th is refused from there on.

With no file it takes four cases: a key that takes its state along, keys that change places, a list that is scrolled, a
whole program. It needs a C compiler, as $CC or cc, for the few lines that refuse an allocation."""

import os
import pathlib
import shutil
import subprocess
import sys
import tempfile
from dataclasses import dataclass, field

from .paths import TOP

DATA = TOP / "crates" / "worked_cases" / "data"
CASES = (
    ("keyed_children.cases", "a global key takes the state to another parent"),
    ("keyed_children.cases", "two components with global keys change places"),
    ("slivers.cases", "items that scroll, one that changes, and fewer of them"),
    ("counter.cases", "a counter over a list"),
)
SHORT = 7
EACH = 2000
STEP = 97
SECONDS = 60

# What stands before malloc and realloc of the C library, which are all that the program allocates by.
REFUSE = """
#include <stdlib.h>
#include <unistd.h>
extern void *__libc_malloc(size_t);
extern void *__libc_realloc(void *, size_t);
static long calls;
static int is_refused(void) {
    static long first, last;
    static int told;
    if (!calls++) {
        first = atol(getenv("REFUSED_FIRST"));
        last = atol(getenv("REFUSED_LAST"));
        told = atoi(getenv("REFUSED_TOLD"));
    }
    if (calls < first || calls > last) return 0;
    if (calls == first) (void)!write(told, "refused", 7);
    return 1;
}
void *malloc(size_t n) { return is_refused() ? 0 : __libc_malloc(n); }
void *realloc(void *p, size_t n) { return is_refused() ? 0 : __libc_realloc(p, n); }
"""


class NoCases(Exception):
    """There is nothing to run."""


@dataclass
class Case:
    """A run that is wanted: its words, its input, its text and its status."""

    name: str
    words: list = field(default_factory=list)
    given: str = ""
    text: str = ""
    status: int = 0


def cases_of(text):
    """The cases of a case file whose lines say all of them; forms, tables and inputs in parts are left out."""
    cases, case = [], None
    for line in text.split("\n"):
        word, _, rest = line.partition(" ")
        if word in ("case", "form", "in", "table", "answer"):
            case = Case(rest) if word == "case" else None
            cases += [case] if case else []
        elif case and word == "<":
            case.given += rest + "\n"
        elif case and word == ">":
            case.text += rest + "\n"
        elif case and word == "word":
            case.words.append(rest)
        elif case and word == "status":
            case.status = int(rest)
        elif case and word[:2] in ("<-", "<x", "<*"):
            cases.remove(case)
            case = None
    return cases


def named(path, name=None):
    """The cases of a file, or the one with a name."""
    cases = [case for case in cases_of(path.read_text(encoding="utf-8")) if name in (None, case.name)]
    if not cases:
        raise NoCases(f"{path.name} has no such case: {name}" if name else f"{path.name} has no case")
    return cases


def compiled(folder):
    """The library that refuses, built in a folder."""
    compiler = os.environ.get("CC") or shutil.which("cc")
    if not compiler:
        raise NoCases("no C compiler: set CC")
    source, library = pathlib.Path(folder, "refuse.c"), pathlib.Path(folder, "refuse.so")
    source.write_text(REFUSE, encoding="utf-8")
    subprocess.run([compiler, "-O1", "-shared", "-fPIC", "-fno-builtin", "-o", library, source], check=True)
    return library


def run(program, library, case, first, last):
    """A run in which these allocations are refused: its status, what it wrote, and whether the first of them was reached."""
    reader, writer = os.pipe()
    more = {"LD_PRELOAD": str(library), "REFUSED_FIRST": str(first), "REFUSED_LAST": str(last), "REFUSED_TOLD": str(writer)}
    how = {"stdout": subprocess.PIPE, "env": {**os.environ, **more}, "pass_fds": [writer], "timeout": SECONDS}
    with os.fdopen(reader, "rb") as told:
        try:
            ran = subprocess.run([program, *case.words], input=case.given.encode(), check=False, **how)
            end = ran.returncode, ran.stdout.decode("utf-8", "replace")
        except subprocess.TimeoutExpired:
            end = None, ""
        finally:
            os.close(writer)
        return *end, bool(told.read())


def fault_of(case, status, wrote):
    """What is wrong with a run in which an allocation was refused, or None."""
    if status != SHORT:
        return f"wanted status {SHORT}, found {status}"
    if not case.text.startswith(wrote):
        return f"what it wrote is no front of the text: {wrote[-80:]!r}"
    if wrote and not wrote.endswith("\n"):
        return f"what it wrote ends within a line: {wrote[-80:]!r}"
    return None


@dataclass
class Swept:
    """What the runs of a case came to: how many allocations it makes, how many runs there were, how many of them did without
    what was refused, how long the fronts are that others wrote, and what is wrong."""

    allocations: int = 0
    runs: int = 0
    without: int = 0
    fronts: set = field(default_factory=set)
    faults: list = field(default_factory=list)


def judge(case, swept, refused, status, wrote):
    """Counts a run in which an allocation was refused."""
    swept.runs += 1
    if (status, wrote) == (case.status, case.text):
        swept.without += 1
        return
    swept.fronts.add(len(wrote))
    fault = fault_of(case, status, wrote)
    if fault:
        swept.faults.append(f"{refused}: {fault}")


def sweep(case, run_refused):
    """Runs a case with one allocation after another refused, until one isn't reached. `run_refused` takes the numbers of the
    first and the last that are refused, from 1."""
    swept, number = Swept(), 1
    while True:
        status, wrote, is_reached = run_refused(number, number)
        if not is_reached:
            if (status, wrote) != (case.status, case.text):
                swept.faults.append(f"with nothing refused: status {status}, or another text")
            return swept
        swept.allocations = number
        judge(case, swept, f"allocation {number}", status, wrote)
        status, wrote, _ = run_refused(number, sys.maxsize)
        judge(case, swept, f"allocation {number} and all later", status, wrote)
        number += 1 if number < EACH else STEP


def main(words):
    """Runs the cases, and tells of each."""
    if not 1 <= len(words) <= 3 or words[0].startswith("-"):
        print(__doc__, file=sys.stderr)
        return 2
    program, faults = str(pathlib.Path(words[0]).resolve()), 0
    try:
        if len(words) == 1:
            cases = [case for name, of in CASES for case in named(DATA / name, of)]
        else:
            cases = named(pathlib.Path(words[1]), *words[2:])
        with tempfile.TemporaryDirectory() as folder:
            library = compiled(folder)
            for case in cases:
                swept = sweep(case, lambda first, last, case=case: run(program, library, case, first, last))
                for fault in swept.faults:
                    print(f"bin/check-memory: {case.name}: {fault}", file=sys.stderr)
                faults += len(swept.faults)
                end = f"{swept.without} as if nothing was refused, {len(swept.fronts)} fronts, {len(swept.faults)} faults"
                print(f"{case.name}: {swept.allocations} allocations, {swept.runs} runs, {end}", flush=True)
    except (NoCases, OSError, subprocess.CalledProcessError) as error:
        print(f"bin/check-memory: {error}", file=sys.stderr)
        return 2
    return int(bool(faults))
