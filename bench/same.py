#!/usr/bin/env python3
"""same PROGRAM PLAIN [--largest | FILE..]: whether two programs print the same bytes, with the same status, on each
file: on the examples, the inputs of the worked cases and small ones of `inputs.py` where no file is given, and on its
largest with `--largest`. Counted apart is what PLAIN says that it leaves out, and a program that PROGRAM refuses for its
form, names or types, which PLAIN takes for granted. Ends with 1 where something differs."""
import pathlib
import subprocess
import sys
import tempfile

BENCH = pathlib.Path(__file__).resolve().parent
LEFT_OUT = 70


def case_inputs(path):
    """The inputs of a file of worked cases that are run without words, each with its case's name."""
    name, parts, plain = None, [], True
    for line in path.read_text().splitlines() + ["case end"]:
        if line.startswith("case "):
            if parts and plain:
                yield f"{path.name}: {name}", b"".join(parts)
            name, parts, plain = line[5:], [], True
        elif line == "<" or line.startswith("< "):
            parts.append(line[2:].encode() + b"\n")
        elif line.startswith("<- "):
            parts.append(line[3:].encode())
        elif line.startswith("<* "):
            times, text = line[3:].split(" ", 1)
            parts.append(int(times) * text.encode())
        elif line.startswith("<x "):
            parts.append(bytes.fromhex(line[3:]))
        elif line.startswith(("word ", "in ", "fail", "read", "write", "@")):
            plain = False


def rows(sizes_of):
    """An input of each row of the table, of each of the sizes."""
    sys.path.insert(0, str(BENCH))
    import inputs as table
    for row in table.ROWS.values():
        for size in sizes_of(row):
            yield f"inputs.py: {row.name} {size}", b"".join(row.write(size, 2))


def inputs(files):
    if files == ["--largest"]:
        yield from rows(lambda row: row.sizes[-1:])
        return
    if files:
        for file in files:
            yield file, pathlib.Path(file).read_bytes()
        return
    for file in sorted((BENCH.parent / "examples").glob("*.frame")):
        if not file.with_suffix(".words").exists():
            yield file.name, file.read_bytes()
    for file in sorted((BENCH.parent / "crates/worked_cases/data").glob("*.cases")):
        yield from case_inputs(file)
    yield from rows(lambda row: row.small)


def run(program, text):
    with tempfile.TemporaryFile() as file:
        file.write(text)
        file.seek(0)
        end = subprocess.run([program], stdin=file, capture_output=True)
    return end.returncode, end.stdout


def main():
    program, plain, *files = sys.argv[1:]
    same = left_out = differ = 0
    for name, text in inputs(files):
        there, here = run(plain, text), run(program, text)
        if there == here:
            same += 1
        elif there[0] == LEFT_OUT or here[1].startswith((b"program shape", b"program check")):
            left_out += 1
        else:
            differ += 1
            print(f"differs: {name}")
    print(f"same {same}, left out {left_out}, different {differ}")
    return differ > 0


if __name__ == "__main__":
    sys.exit(main())
