#!/usr/bin/env python3
"""table PROGRAM PLAIN: measures a built program beside the plain one and prints how they stand, row by row.

What a frame or line costs comes from runs with n and 2n of them: user and system seconds, the median of three pairs of
runs, the two programs by turns. `growth` is the exponent over the sizes, where there are several. With `--instructions`
callgrind counts instructions in place of seconds, and the load of the machine doesn't matter."""
import argparse
import math
import os
import re
import resource
import statistics
import subprocess
import sys
import tempfile

import inputs

TIMES = 3
MEGABYTE = 1 << 20


class Run:
    """What a run took: seconds or instructions, and the greatest resident set in bytes."""

    def __init__(self, program, file, status, counted):
        file.seek(0)
        if counted:
            self.cost, self.memory = instructions(program, file), 0
            return
        with open(os.devnull, "wb") as nowhere:
            child = subprocess.Popen([program], stdin=file, stdout=nowhere)
            _, ended, used = os.wait4(child.pid, 0)
        child.returncode = os.waitstatus_to_exitcode(ended)
        if child.returncode != status:
            sys.exit(f"{program} ended with {child.returncode} and not {status}")
        self.cost, self.memory = used.ru_utime + used.ru_stime, used.ru_maxrss * 1024


def instructions(program, file):
    tool = ["valgrind", "--tool=callgrind", "--callgrind-out-file=/dev/null", program]
    end = subprocess.run(tool, stdin=file, stdout=subprocess.DEVNULL, stderr=subprocess.PIPE, text=True)
    return int(re.search(r"Collected : (\d+)", end.stderr)[1])


def stored(row, size, repeats):
    file = tempfile.TemporaryFile()
    for part in row.write(size, repeats):
        file.write(part)
    file.flush()
    return file


class Cost:
    """What one repeat of a row costs a program, and the memory of its longer run."""

    def __init__(self, row, size, repeats, counted):
        few, many = (0, 1) if repeats == 0 else (repeats, 2 * repeats)
        self.files = stored(row, size, few), stored(row, size, many)
        self.by, self.status, self.counted = many - few, row.status, counted
        self.costs, self.memory = [], 0

    def take(self, program):
        few, many = (Run(program, file, self.status, self.counted) for file in self.files)
        self.costs.append((many.cost - few.cost) / self.by)
        self.memory = max(self.memory, many.memory)

    def end(self):
        for file in self.files:
            file.close()
        return statistics.median(self.costs)


def writing(program, row, size, repeats):
    """How long the bytes of one repeat take to be written to a file in memory."""
    file = stored(row, size, max(1, repeats))
    file.seek(0)
    text = subprocess.run([program], stdin=file, capture_output=True).stdout
    with tempfile.TemporaryFile(dir="/dev/shm") as to:
        before = os.times()
        to.write(text)
        to.flush()
        after = os.times()
    return (after.user - before.user + after.system - before.system) / max(1, repeats)


def measure(row, size, words):
    repeats = row.repeats and max(1, row.repeats // words.part)
    own, more = (1, 1) if words.instructions else (row.own, row.more)
    both = Cost(row, size, repeats * own, words.instructions), Cost(row, size, repeats * more, words.instructions)
    for _ in range(1 if words.instructions else TIMES):
        for cost, program in zip(both, (words.program, words.plain)):
            cost.take(program)
    ours, theirs = (max(cost.end(), 1e-9) for cost in both)
    return ours, theirs, both[0].memory, both[1].memory


def shown(cost, counted):
    if counted:
        return f"{cost:,.0f}"
    for unit, part in ("s", 1), ("ms", 1e-3), ("us", 1e-6):
        if cost >= part:
            return f"{cost / part:.3g} {unit}"
    return f"{cost / 1e-9:.3g} ns"


def bar(row, size, words, ours, theirs, memory):
    """What a row has to reach, and whether it does."""
    kind, most = row.bar
    if kind == "seconds":
        return f"{most * 1000:g} ms", None if words.instructions else ours <= most
    if kind == "writing":
        if words.instructions:
            return "its writing and 1 ms", None
        most += writing(words.plain, row, size, row.repeats)
        return f"its writing and 1 ms, {shown(most, False)}", ours <= most
    if kind == "memory":
        return f"{most:g} times the memory, 1 GB", None if words.instructions else (
            memory[0] <= most * memory[1] and memory[0] <= 1e9)
    return f"{most:g}", ours <= most * theirs


def shown_memory(used):
    """A child's figure begins with what this script holds, so nothing less is seen."""
    own = resource.getrusage(resource.RUSAGE_SELF).ru_maxrss * 1024
    return f"{used / MEGABYTE:.0f}" if used > own else f"under {own / MEGABYTE + 1:.0f}"


def growth(sizes, costs):
    if len(sizes) < 2:
        return ""
    return f"{math.log(costs[-1] / costs[0]) / math.log(sizes[-1] / sizes[0]):.2f}"


def sizes_of(row, words):
    if words.sizes == "largest":
        return row.sizes[-1:]
    if words.sizes and len(row.sizes) > 1:
        return [int(size) for size in words.sizes.split(",")]
    return row.sizes


def line(row, sizes, words):
    measured = [measure(row, size, words) for size in sizes]
    ours, theirs, *memory = measured[-1]
    text, holds = bar(row, sizes[-1], words, ours, theirs, memory)
    cells = [row.what, f"{sizes[-1]:,}", shown(ours, words.instructions), shown(theirs, words.instructions),
             f"{ours / theirs:.3g}", text, {True: "yes", False: "no", None: ""}[holds],
             growth(sizes, [m[0] for m in measured])]
    if not words.instructions:
        cells.append(" and ".join(shown_memory(used) for used in memory))
    return "| " + " | ".join(cells) + " |"


def main():
    ask = argparse.ArgumentParser(description=__doc__, formatter_class=argparse.RawDescriptionHelpFormatter)
    ask.add_argument("program")
    ask.add_argument("plain")
    ask.add_argument("--rows", default=",".join(inputs.ROWS), help="names of rows, with commas")
    ask.add_argument("--sizes", help="sizes in place of the rows' own, with commas, or `largest`, the largest of them")
    ask.add_argument("--part", type=int, default=1, help="a row's repeats are divided by this")
    ask.add_argument("--instructions", action="store_true", help="instructions in place of seconds")
    words = ask.parse_args()
    head = ["what one costs", "size", "this program", "plain", "ratio", "bar", "holds", "growth"]
    head += [] if words.instructions else ["memory, MiB"]
    print("| " + " | ".join(head) + " |")
    print("|" + "---|" * len(head), flush=True)
    for name in words.rows.split(","):
        row = inputs.ROWS[name]
        print(line(row, sizes_of(row, words), words), flush=True)


if __name__ == "__main__":
    main()
