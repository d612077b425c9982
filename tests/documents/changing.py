"""Checks the tables of docs/CHANGING.md, a part of documents.py.

- each file that the first cell of a row names is there: `canary_plan: names.rt, proofs/Alike, Seen`
- the first table of a new command has exactly the files with a case for one command, PromoteFull,
  or for its line, and the second table, of what some commands change, has none of them; worked
  rows, tests and use lines do not count
- what else the first table names, as `docs/API.md`, speaks of that command
- each function of the table on the way of a Promote stands in the file beside it; that it is on the
  way, tests/trace/run sees"""
import re

import ways
from sources import Sources

PAGE = "docs/CHANGING.md"
TABLE = "## A new command\n"
# How the two tables there begin.
GAINS, ONLY_IF = "| File | What it gains |", "| File | Only if |"
COMMAND = re.compile(r"PromoteFull|promoteFull|promote-full")
CASE = re.compile(rf"{COMMAND.pattern}|PromotedFull")
COMMENT = re.compile(r"//.*|--.*")
# Tests and worked rows have the command as any other text.
NO_CASES = re.compile(r"/canary_(?:test_once|tools)/|/(?:Delivery)?Rows\w*\.antt$")
CRATE = re.compile(r"^(canary_\w+): *")
# What the first table names that is not of a crate.
BESIDE = re.compile(r"(?:docs|examples|tests|bench)/[\w./]+")


def sources(root):
    """The files of the crates, each with its name from the root on."""
    for form in ("src/**/*.rt", "specs/**/*.antt", "proofs/**/*.antt"):
        for file in sorted((root / "crates").glob("*/" + form)):
            yield file, file.relative_to(root).as_posix()


def has_case(file):
    text = COMMENT.sub("", file.read_text(encoding="utf-8"))
    lines = (line for line in text.split("\n") if not line.startswith(("use ", "ghost use ")))
    return any(map(CASE.search, lines))


def first_cell(row):
    return row.strip("| ").split(" | ")[0]


def rows_below(text, head):
    """The rows of the table that begins so, each with its line."""
    lines = text.split("\n")
    at = lines.index(head, text[:text.index(TABLE)].count("\n")) + 2
    while lines[at].startswith("|"):
        yield at + 1, lines[at]
        at += 1


def files_below(root, text, head):
    """The files of crates that the table names, from the root on, each with a line."""
    for number, row in rows_below(text, head):
        for crate, path in files_of(first_cell(row)):
            folder, _, name = path.partition("/")
            for file in (root / "crates" / crate / folder).rglob(name):
                yield file.relative_to(root).as_posix(), number


def speaks_of_command(path):
    """Whether a file, or one of those in a folder, does."""
    files = [path] if path.is_file() else path.rglob("*")
    return any(COMMAND.search(file.read_text(encoding="utf-8", errors="replace"))
               for file in files if file.is_file())


def faults_of_command(root, text):
    """What the tables of a new command have too much, or lack."""
    cases = {name for file, name in sources(root) if not NO_CASES.search(name) and has_case(file)}
    gains, only_if = (dict(files_below(root, text, head)) for head in (GAINS, ONLY_IF))
    line = text[:text.index(TABLE)].count("\n") + 1
    for name in cases - set(gains):
        yield PAGE, line, f"a new command changes {name}, which no row names"
    for name in set(gains) - cases:
        yield PAGE, gains[name], f"{name} has no case for PromoteFull: not each command changes it"
    for name in set(only_if) & cases:
        yield PAGE, only_if[name], f"{name} has a case for PromoteFull: each command changes it"
    for number, row in rows_below(text, GAINS):
        for path in BESIDE.findall(first_cell(row)):
            if not speaks_of_command(root / path):
                yield PAGE, number, f"{path} does not speak of PromoteFull"


def faults_of_way(root):
    """The functions of the way that do not stand where the table says."""
    known = Sources(root)
    for number, crate, file, name in ways.rows_of(root):
        if not known.has(crate, file, name):
            yield PAGE, number, f"there is no {name} in {file} of {crate}"


def files_of(cell):
    """The files that a cell names, each as a form of a path below crates/."""
    crate, folder = None, "src"
    for part in cell.split(";"):
        begin = CRATE.match(part.strip())
        crate = begin[1] if begin else crate
        for word in re.split(r",(?: and )?| or ", CRATE.sub("", part.strip())):
            found = re.fullmatch(r"(?:(specs|proofs)/)?([A-Z]\w*|\w+\.rt)", word.strip())
            if found and crate:
                folder = found[1] or folder
                is_code = found[2].endswith(".rt")
                yield crate, f"src/{found[2]}" if is_code else f"{folder}/{found[2]}.antt"


def faults_of_files(root, text):
    """The files of the table's first cells that are not there."""
    named = [(number, *file) for number, line in enumerate(text.split("\n"), 1)
             if line.startswith("| canary_") for file in files_of(first_cell(line))]
    for number, crate, path in named:
        folder, _, name = path.partition("/")
        if not any((root / "crates" / crate / folder).rglob(name)):
            yield PAGE, number, f"there is no {path} of {crate}"


def faults_of(root):
    """Each fault as a page, a line and what is wrong."""
    text = (root / PAGE).read_text(encoding="utf-8")
    yield from faults_of_command(root, text)
    yield from faults_of_files(root, text)
    yield from faults_of_way(root)
