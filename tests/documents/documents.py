"""Checks the documents: documents.py ROOT. It prints each fault as FILE:LINE: WHAT, and its status
is 1 if there are any.

- each relative link of a document leads to a file, and its anchor to a heading
- each path of this repository in backquotes or in a block of code exists, and so does each that a
  comment of a script names
- README.md is short, and so are the cells of its tables
- no document speaks of what is not in the repository
- what a person runs of tests/ stands in docs/TESTING.md or docs/PROVING.md
- the examples of the library crates are those of their callers (lib_examples.py)
- names of crates and of code are there (names.py), and so are those of the tables "Where"
  (where.py), of docs/CHANGING.md (changing.py) and of the listener's page (listener.py)
- the tables of crates have the contracts of the crates' pages (index.py)
- each thing is said on one page (once.py)
- the gate runs each script of tests/, and each crate has some (suites.py)"""
import os
import pathlib
import re
import sys
import urllib.parse

import changing
import index
import lib_examples
import listener
import names
import once
import suites
import where
from pages import Page

# A path of this repository: it begins with one of the folders at the root, or with `./`.
PATH = re.compile(r"(?<![\w./$}~-])(?:\./|(?:tests|docs|crates|bench|examples|\.ci)/)"
                  r"[\w.*{},/@+-]*")
# A file that is named by the end of its path.
FILE = re.compile(r"(?<![\w./$}~*-])\w[\w-]*(?:/[\w-]+)*\.(?:md|py|sh|rt|antt|story)(?![\w/])")
# A page of the kit, and a file that a document says not to make.
NOT_HERE = {"START-HERE.md", "proofs/Plain.antt"}
# A word in capitals that stands for any name, as in `crates/CRATE/planted` and `src/NAME.rt`.
ANY_NAME = re.compile(r"[A-Z]+(?=$|\.(?!md$))")
FOREIGN = re.compile(r"\bshared/|\b[Ii]ssues? #?\d+")
README_LINES = 199
CELL_COLUMNS = 140
NAMING = ("docs/TESTING.md", "docs/PROVING.md")


def files_of(root):
    """The files of the repository, without what is built, and what is no file, as a socket."""
    for folder, folders, names in os.walk(root):
        folders[:] = sorted(set(folders) - {".git", "out", "__pycache__"})
        for name in sorted(names):
            if pathlib.Path(folder, name).is_file():
                yield pathlib.Path(folder, name)


def alternatives(path):
    """The paths that a path with alternatives in braces stands for."""
    found = re.search(r"\{([^{}]*,[^{}]*)\}", path)
    if not found:
        return [path]
    front, end = path[:found.start()], path[found.end():]
    return [more for word in found[1].split(",") for more in alternatives(front + word + end)]


def general(path):
    """The path with `*` for names in capitals."""
    return "/".join(ANY_NAME.sub("*", part) for part in path.split("/"))


def exists(root, path):
    """Whether there is such a path: `*`, a word in braces and a name in capitals are any name. What
    is built is not looked for."""
    if (root / path).exists():
        return not path.endswith("/") or (root / path).is_dir()
    form = general(re.sub(r"\{\w*\}", "*", path).rstrip("/"))
    return "out" in form.split("/") or "*" in form and any(root.glob(form))


def faults_of_paths(root, name, codes, ends):
    """The paths in such texts, each with its line, that are not there. Each end of a path that is
    there is among the ends."""
    for number, code in codes:
        paths = (found.removeprefix("./").rstrip(".,") for found in PATH.findall(code))
        for one in (one for path in paths for one in alternatives(path)):
            if not exists(root, one):
                yield name, number, f"there is no {one}"
        for found in FILE.findall(code):
            is_known = found in ends or found in NOT_HERE or "*" in general(found)
            if not is_known and not PATH.match(found):
                yield name, number, f"there is no file {found}"


def faults_of_links(root, file, name, pages):
    for number, link in pages[file].links():
        if re.match(r"[a-z]+:|//", link):
            continue
        path, _, anchor = urllib.parse.unquote(link).partition("#")
        target = (root / path[1:] if path.startswith("/") else file.parent / path).resolve()
        target = target if path else file
        if not target.exists() or root not in (target, *target.parents):
            yield name, number, f"the link {link} leads to no file of the repository"
        elif anchor and (target not in pages or anchor not in pages[target].anchors()):
            yield name, number, f"the link {link} leads to no heading"


def faults_of_readme(page):
    count = page.text.count("\n")
    if count > README_LINES:
        yield "README.md", count, f"it has more than {README_LINES} lines"
    for number, cell in page.cells():
        if len(cell) > CELL_COLUMNS:
            yield "README.md", number, f"a cell of {len(cell)} columns, more than {CELL_COLUMNS}"


def faults_of_words(name, page):
    for number, line in enumerate(page.text.split("\n"), 1):
        for word in FOREIGN.findall(line):
            yield name, number, f"it is not in the repository: {word}"


def faults_of_tests(root, files, pages):
    """What a person runs of tests/ that no document names."""
    named = "".join(pages[root / name].text for name in NAMING if root / name in pages)
    for file in files:
        name = file.relative_to(root).as_posix()
        is_run = name.startswith("tests/") and not file.suffix and os.access(file, os.X_OK)
        if is_run and not re.search(rf"(?<![\w/.]){re.escape(name)}(?![\w/-])", named):
            yield name, 1, f"neither {' nor '.join(NAMING)} names it"


def comments_of(file):
    """The lines of a script, each with its number; none if the file is no script."""
    try:
        text = file.read_text(encoding="utf-8")
    except UnicodeDecodeError:
        return []
    is_script = text.startswith("#!") or file.suffix in (".sh", ".py", ".c")
    return list(enumerate(text.split("\n"), 1)) if is_script else []


def faults_of(root):
    files = list(files_of(root))
    pages = {file: Page(file) for file in files if file.suffix == ".md"}
    ends = {"/".join(file.parts[at:]) for file in files for at in range(len(file.parts))}
    for file in files:
        name = file.relative_to(root).as_posix()
        if file in pages:
            yield from faults_of_links(root, file, name, pages)
            yield from faults_of_paths(root, name, pages[file].code(), ends)
            yield from faults_of_words(name, pages[file])
        else:
            yield from faults_of_paths(root, name, comments_of(file), ends)
    yield from faults_of_readme(pages[root / "README.md"])
    yield from faults_of_tests(root, files, pages)
    yield from names.faults_of(root, files, pages)
    for checks in (changing, index, lib_examples, listener, once, suites, where):
        yield from checks.faults_of(root)


def main():
    root = pathlib.Path(sys.argv[1]).resolve()
    faults = sorted(set(faults_of(root)))
    for name, number, fault in faults:
        print(f"{name}:{number}: {fault}")
    print(f"documents: {len(faults)} faults", file=sys.stderr)
    sys.exit(1 if faults else 0)


main()
