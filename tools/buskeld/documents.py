"""Checks of the documents: that what they name stands where they say, and that they can be read.

`bin/check-docs` runs `faults_of(TOP)` and prints what it gives. It reads the files of the repository alone, proves and
runs nothing, and depends on no other module.

- DEFINITIONS.md: each definition of a table stands in one of the files that its row names, and each of these files has
  one of the row's definitions; each file of specs is named, in a row or in the table of files that no row names.
- PROMISES.md: each call stands in the crate and in the files of its row, and each clause, or what it cites, in one of its
  calls.
- ARCHITECTURE.md: its table has each crate once; what a paragraph says to be in a crate is there.
- In all three each other name in code marks is one that the repository declares, or one of `OTHER_WORDS`.
- PATTERNS.md and RULES.md show lines of examples: each stands in a file of examples/ that is named above it.
- In each document a line has at most 120 characters (a row of a table and a line of code may have more), a cell of a
  table at most 40 words, a sentence at most 60.
"""

import functools
import pathlib
import re

LINE, CELL, SENTENCE = 120, 40, 60

# Names in code marks that no file of the crates declares: of Flutter, of the toolchain and of its libraries, of the
# formats, and parts of names.
OTHER_WORDS = set(
    """
    BoxConstraints RenderBox.performLayout PaintingContext.paintChild Widget.canUpdate updateChildren
    rt Antt clap serde_json unicode_segmentation unicode_width dyn now
    specs src proofs must-fail crates.txt stdin stdout
    """.split()
)


# ---- the text of a document


class Block:
    """A part of a document: `kind` is `text` (a paragraph or an item of a list), `head`, `row` or `code`."""

    def __init__(self, kind, line, text):
        self.kind, self.line, self.text = kind, line, text

    def cells(self):
        held = re.sub(r"`[^`]*`", lambda span: span.group().replace("|", "\0"), self.text.strip().strip("|"))
        return [cell.strip().replace("\0", "|") for cell in held.replace("\\|", "\0").split("|")]


def blocks_of(text):
    """The blocks of a document, in order, each with the number of its first line."""
    blocks, fenced = [], False
    before = ""
    for number, line in enumerate(text.split("\n"), 1):
        last = blocks[-1] if blocks else None
        if line.startswith("```") or fenced:
            blocks.append(Block("code", number, line))
            fenced = fenced != line.startswith("```")
        elif not line.strip():
            pass
        elif line.startswith("    ") and (not before.strip() or last is not None and last.kind == "code"):
            blocks.append(Block("code", number, line))
        elif line.startswith("#"):
            blocks.append(Block("head", number, line.lstrip("# ")))
        elif line.lstrip().startswith("|"):
            blocks.append(Block("row", number, line))
        elif re.match(r"\s*([-*]|\d+\.) ", line):
            blocks.append(Block("text", number, re.sub(r"^\s*([-*]|\d+\.) ", "", line)))
        elif before.strip() and last is not None and last.kind == "text":
            last.text += " " + line.strip()
        else:
            blocks.append(Block("text", number, line.strip()))
        before = line
    return blocks


def spans_of(text):
    """What stands in code marks, in order."""
    return re.findall(r"`([^`]+)`", text)


def plain(text):
    """A text as it is read: what stands in code marks is one word, and of a link its words alone."""
    text = re.sub(r"`[^`]*`", "Code", text)
    return re.sub(r"!?\[([^\]]*)\]\([^)]*\)", lambda link: link.group(1)[:1].upper() + link.group(1)[1:], text)


def word_count(text):
    return sum(1 for word in plain(text).split() if re.search(r"\w", word))


def sentences_of(text):
    ends = re.compile(r"(?<=[\w)\]\"'*%])([.!?])[)\"'*]*\s+(?=[\"'(*]*[A-Z0-9])")
    text = plain(text)
    return [part for part in ends.sub("\\1\n", text).split("\n") if part.strip()]


def length_faults(name, text):
    blocks = blocks_of(text)
    free = {block.line for block in blocks if block.kind in ("row", "code")}
    for number, line in enumerate(text.split("\n"), 1):
        if len(line) > LINE and number not in free:
            yield f"{name}:{number}: a line of {len(line)} characters, over {LINE}"
    for block in blocks:
        if block.kind == "row":
            for cell in block.cells():
                if word_count(cell) > CELL:
                    yield f"{name}:{block.line}: a cell of {word_count(cell)} words, over {CELL}: {cell[:60]}"
        elif block.kind == "text":
            for sentence in sentences_of(block.text):
                if word_count(sentence) > SENTENCE:
                    yield f"{name}:{block.line}: a sentence of {word_count(sentence)} words, over {SENTENCE}: {sentence[:60]}"


# ---- what the crates declare

DECLARED = re.compile(r"^\s*(?:(?:unfoldable|abbrev|pub|data|record|mutual)\s+)+([^\s:({]+)")
TYPED = re.compile(r"^(?:(?:unfoldable|abbrev|pub)\s+)*(?:data|record)\s")
PART = re.compile(r"^\s+([^\s:({]+)\s+:(?:\s|$)")
FUNCTION = re.compile(r"^(\s*)(?:pub(?:\([^)]*\))? )?(?:const )?fn (\w+)")
CLAUSE = re.compile(r"^\s*ensures (\w+) ")
OWNER = re.compile(r"^(?:pub(?:\([^)]*\))? )?(?:impl|trait|struct|enum)\b(?:<[^{]*?>(?=\s))?\s*(?:[\w:]+(?:<[^{]*>)? for )?&?(?:\[)?(\w+)")
TYPE = re.compile(r"^\s*(?:pub(?:\([^)]*\))? )?(?:struct|enum|trait|type|const|static|ghost|mod|union)\s+(\w+)")
MEMBER = re.compile(r"^\s+(?:pub(?:\([^)]*\))? )?(\w+)\s*(?:[:,({=]|$)")


class Function:
    def __init__(self, name, owner, file):
        self.name, self.owner, self.file = name, owner, file
        self.clauses, self.cited = set(), set()


class Crate:
    def __init__(self, folder):
        self.name = folder.name
        self.specs = {path.stem: self.declared_in(path) for path in sorted((folder / "specs").glob("*.antt"))}
        self.functions, self.words, self.sources = [], set(), set()
        for path in sorted((folder / "src").rglob("*.rt")):
            self.read(path, path.relative_to(folder).as_posix())

    @staticmethod
    def declared_in(path):
        names, in_type = set(), False
        for line in path.read_text(encoding="utf-8").split("\n"):
            if not line.startswith(" "):
                in_type = bool(TYPED.match(line))
            found = DECLARED.match(line) or in_type and PART.match(line)
            if found:
                names.add(found.group(1))
        return names

    def read(self, path, file):
        self.sources.add(file)
        owner, function, in_type = None, None, False
        for line in path.read_text(encoding="utf-8").split("\n"):
            if not line.startswith((" ", "#", "//")) and line:
                in_type = bool(re.match(r"(?:pub(?:\([^)]*\))? )?(?:struct|enum)\b.*\{$", line))
            found = FUNCTION.match(line)
            if found:
                function = Function(found.group(2), owner if found.group(1) else None, file)
                self.functions.append(function)
            elif line.lstrip().startswith("ensures ") and function is not None:
                function.clauses |= {found.group(1) for found in [CLAUSE.match(line)] if found}
                function.cited |= set(re.findall(r"\w+", line.partition("{")[2]))
            elif OWNER.match(line):
                owner = OWNER.match(line).group(1)
                self.words.add(owner)
            elif TYPE.match(line) or in_type and MEMBER.match(line):
                self.words.add((TYPE.match(line) or MEMBER.match(line)).group(1))

    def declares(self, word):
        """Whether the word, as `name` or `Owner::name`, is a file, a definition, a function, a clause, a type or a part of one."""
        owner, _, name = word.rpartition("::")
        stems = {pathlib.PurePosixPath(file).stem for file in self.sources}
        if owner:
            return any(one.name == name and owner in (one.owner, pathlib.PurePosixPath(one.file).stem) for one in self.functions)
        return (
            name in stems
            or name.removesuffix(".rt") in stems
            or name in self.words
            or any(name in names for names in self.specs.values())
            or any(name == one.name or name in one.clauses for one in self.functions)
        )


class Repository:
    def __init__(self, top):
        self.top = pathlib.Path(top)
        self.crates = {folder.name: Crate(folder) for folder in sorted((self.top / "crates").iterdir()) if (folder / "src").is_dir()}

    @functools.cache
    def knows(self, word, crate=None):
        """Whether a name in code marks is one that the repository has, or that isn't its own."""
        word = word.strip()
        if not re.fullmatch(r"[\w.:/-]+", word) or not re.search(r"[A-Za-z]", word) or word in OTHER_WORDS:
            return True
        if word in self.crates or any(list(self.top.glob(place + word + end)) for place in ("", "docs/", "crates/*/") for end in ("", ".antt")):
            return True
        first, _, rest = word.partition("::")
        if rest and first in self.crates:
            return self.knows(rest, first)
        near = [self.crates[crate]] if crate else self.crates.values()
        return any(one.declares(word) for one in near)


# ---- the three documents that name what stands in the crates


def tables_of(blocks):
    """The rows of each table with the text of the heading above it and the table's own heads."""
    head, titles, previous = "", None, None
    for block in blocks:
        if block.kind == "head":
            head = block.text
        if block.kind != "row":
            previous = None
            continue
        cells = block.cells()
        if previous is None:
            titles = cells
        elif not all(re.fullmatch(r":?-+:?", cell) for cell in cells):
            yield head, titles, block, cells
        previous = block


def files_of(cell, home):
    """The files of specs that a cell names, as pairs of a crate and a file's stem."""
    crate = home
    for part in cell.replace("`", "").split(","):
        part = part.strip()
        if not part:
            continue
        path = re.fullmatch(r"crates/(\w+)/specs/(\w+)", part)
        if path:
            yield path.group(1), path.group(2)
            continue
        before, colon, after = part.partition(": ")
        crate = before if colon else crate
        yield crate, after if colon else part


def clause_row_faults(repository, at, cells):
    """The table of the top call's clauses: each is one of `run`, and what it stands on is in some file of specs."""
    top = {clause for one in repository.crates["frame_run"].functions if one.name == "run" for clause in one.clauses}
    for span in spans_of(cells[0]):
        if span not in top:
            yield f"{at}: `run` of frame_run has no clause `{span}`"
    for span in spans_of(cells[1]) + spans_of(cells[3]):
        if not any(span in names for crate in repository.crates.values() for names in crate.specs.values()):
            yield f"{at}: no file of specs has `{span}`"


def named_files(titles, cells, home):
    """The files of specs that a row names: in its second column, or in the first after "all of"."""
    if titles[0] == "crate":
        return [(cells[0].strip("`"), stem) for _, stem in files_of(cells[1], "")]
    listed = cells[0].removeprefix("all of ") if cells[0].startswith("all of ") else ""
    return list(files_of(listed + "," + cells[1], home))


def definition_row_faults(at, cells, files, found):
    """Each definition of a row stands in one of its files, and each file has one of them."""
    spans = spans_of(cells[0])
    for span in spans:
        if not any(span in names for names in found.values()):
            yield f"{at}: `{span}` doesn't stand in {', '.join('/'.join(pair) for pair in files) or 'a file: none is named'}"
    for pair, names in found.items():
        if not names & set(spans):
            yield f"{at}: {'/'.join(pair)} has none of the row's definitions"


def definition_faults(repository, text):
    name, seen = "DEFINITIONS.md", set()
    for head, titles, block, cells in tables_of(blocks_of(text)):
        at = f"{name}:{block.line}"
        if titles[0] == "clause":
            yield from clause_row_faults(repository, at, cells)
            continue
        homes = re.findall(r"crates/(\w+)/specs", head)
        files = named_files(titles, cells, homes[0] if homes else "")
        there = [(crate, stem) for crate, stem in files if stem in getattr(repository.crates.get(crate), "specs", {})]
        for crate, stem in files:
            if (crate, stem) not in there:
                yield f"{at}: there is no crates/{crate}/specs/{stem}.antt"
        seen.update(there)
        if titles[0] == "definition" and not cells[0].startswith(("all of ", "no definitions")):
            found = {(crate, stem): repository.crates[crate].specs[stem] for crate, stem in there}
            yield from definition_row_faults(at, cells, files, found)
    for crate in repository.crates.values():
        for stem in crate.specs:
            if stem != "Lib" and (crate.name, stem) not in seen:
                yield f"{name}: crates/{crate.name}/specs/{stem}.antt is in no row, and not among the files that no row names"


def sources_of(cell):
    """The source files that a cell names: `src/a.rt, b.rt` are two in src."""
    files = []
    for part in cell.replace("`", "").split(","):
        part = part.strip()
        if part.endswith(".rt"):
            files.append(part if part.startswith("src/") else f"src/{part}")
    return files


def calls_of(crate, cell):
    """The functions that a cell names: as `call`, as `Type::call`, and, of a type's name, all of the type's."""
    for span in spans_of(cell):
        owner, _, name = span.rpartition("::")
        name = name.split("(")[0]
        found = [one for one in crate.functions if one.name == name and (not owner or one.owner == owner)]
        yield span, found or [one for one in crate.functions if one.owner == name]


def promise_row_faults(at, crate, cells, files):
    _, call, _, clauses, _ = cells
    spans = spans_of(clauses)
    for file in files:
        if file not in crate.sources:
            yield f"{at}: there is no crates/{crate.name}/{file}"
    if call.startswith("law"):
        for span in spans:
            if not any(one.name == span.split("::")[-1] for one in crate.functions if not files or one.file in files):
                yield f"{at}: the law `{span}` doesn't stand in {', '.join(files) or crate.name}"
        return
    meant = []
    for span, found in calls_of(crate, call):
        if not found and not crate.declares(span):
            yield f"{at}: the call `{span}` isn't in {crate.name}"
        if found and files and not any(one.file in files for one in found):
            yield f"{at}: the call `{span}` doesn't stand in {', '.join(files)}"
        meant += found
    for span in spans:
        if any(span in one.clauses | one.cited for one in (meant or crate.functions)):
            continue
        if any(one.name == span.split("::")[-1] for one in crate.functions) or any(span == one for one in crate.words):
            continue
        yield f"{at}: no call of the row has the clause `{span}`"


def promise_faults(repository, text):
    crate, call, files = None, "", []
    for head, titles, block, cells in tables_of(blocks_of(text)):
        if titles[0] != "crate" or len(cells) != 5:
            continue
        at = f"PROMISES.md:{block.line}"
        names = spans_of(cells[0])
        if names:
            crate, call, files = names, "", []
        for name in crate:
            if name not in repository.crates:
                yield f"{at}: there is no crate {name}"
        homes = [repository.crates[name] for name in crate if name in repository.crates]
        if not homes:
            continue
        call = cells[1] or call
        files = sources_of(cells[4]) or ([] if cells[4] else files)
        per_home = [list(promise_row_faults(at, home, [cells[0], call, *cells[2:]], files)) for home in homes]
        yield from min(per_home, key=len)


def architecture_faults(repository, text):
    name = "ARCHITECTURE.md"
    blocks, listed = blocks_of(text), []
    for head, titles, block, cells in tables_of(blocks):
        if titles[0] == "crate":
            listed += spans_of(cells[0])
    for crate in repository.crates:
        if listed.count(crate) != 1:
            yield f"{name}: the table of crates has {crate} {listed.count(crate)} times"
    for crate in listed:
        if crate not in repository.crates:
            yield f"{name}: there is no crate {crate}"
    for block in blocks:
        if block.kind != "text":
            continue
        crate = None
        for found in re.finditer(r"(In )?`([^`]+)`", block.text):
            span = found.group(2)
            if found.group(1) and span in repository.crates:
                crate = span
            elif crate and not repository.knows(span, crate):
                yield f"{name}:{block.line}: `{span}` isn't in {crate}"


def name_faults(repository, name, text):
    """Names in code marks that nothing declares."""
    for block in blocks_of(text):
        if block.kind == "code":
            continue
        for span in spans_of(block.text):
            if not repository.knows(span):
                yield f"{name}:{block.line}: nothing has the name `{span}`"


def lines_of_example(repository, span):
    """The lines of an example and of what it prints, without what stands before them; none where there is no such file."""
    path = repository.top / span
    if not path.is_file():
        return None
    return {line.strip() for file in (path, path.with_suffix(".out")) for line in file.read_text(encoding="utf-8").split("\n")}


def shown_faults(repository, name, text):
    """Each line of code is one of an example that is named since the last heading."""
    lines = set()
    for block in blocks_of(text):
        if block.kind == "head":
            lines = set()
        for span in re.findall(r"`(examples/\w+\.frame)`", block.text) if block.kind == "text" else []:
            found = lines_of_example(repository, span)
            if found is None:
                yield f"{name}:{block.line}: there is no {span}"
            lines |= found or set()
        if block.kind == "code" and block.text.strip() not in lines | {""}:
            yield f"{name}:{block.line}: no example that is named above has this line: {block.text.strip()[:60]}"


def documents_in(top):
    """The documents of a repository, by their names from its top."""
    paths = [*sorted(top.glob("*.md")), *sorted((top / "docs").glob("*.md")), *sorted((top / "crates").glob("*/*.md"))]
    return {path.relative_to(top).as_posix(): path.read_text(encoding="utf-8") for path in paths}


def faults_of(top):
    """What is wrong with the documents of a repository, one line each."""
    repository = Repository(top)
    texts = documents_in(repository.top)
    faults = []
    checks = {"DEFINITIONS": definition_faults, "PROMISES": promise_faults, "ARCHITECTURE": architecture_faults}
    for short, check in checks.items():
        text = texts[f"docs/{short}.md"]
        faults += [f"docs/{fault}" for fault in check(repository, text)]
        faults += [f"docs/{fault}" for fault in name_faults(repository, f"{short}.md", text)]
    for short in ("PATTERNS", "RULES"):
        faults += [f"docs/{fault}" for fault in shown_faults(repository, f"{short}.md", texts[f"docs/{short}.md"])]
    for name, text in texts.items():
        faults += length_faults(name, text)
    return texts, faults
