"""The tables `## Where` of the crates' pages: each names what is there.

- a definition is a file of specs/, of the page's crate or of the crate that its cell names
- code is a file of src/, and a proof one of proofs/, likewise; `..` stands for any end or begin
- a test is a folder of tests/, a story (`story: bodies`) or a module of a crate of tests
- an edit is a file of planted/, or of must-fail/; it has a ° unless each gate tries it"""
import functools
import re

from pages import Page

# The columns, with the folder and the suffix of the files that each names.
COLUMNS = {1: ("specs", ".antt"), 2: ("src", ".rt"), 3: ("proofs", ".antt")}
HEADS = ["Rule", "Definition", "Code", "Proof", "Test", "Edit"]
CRATE = re.compile(r"\bcanary_\w+")
TESTS = ("canary_test_once",)


def rows_of(page):
    """The rows of the table, each with its line."""
    is_here = False
    for number, line in enumerate(page.text.split("\n"), 1):
        is_here = line == "## Where" or is_here and not line.startswith("## ")
        if is_here and line.startswith("| ") and not line.startswith("| Rule |"):
            yield number, [cell.strip() for cell in line.strip("|").split("|")]


def parts_of(crate, cell):
    """The parts of a cell between semicolons, each with the crates that it is about, and its
    items."""
    for part in cell.split(";"):
        named = CRATE.findall(part)
        text = CRATE.sub("", part)
        items = [item.strip(" :") for item in re.split(r",| and ", text)]
        yield named or [crate], [item for item in items if item]


def is_named(root, crate, folder, suffix, name):
    form = name.replace("..", "*") + suffix
    return any((root / "crates" / crate / folder).rglob(form))


def faults_of_files(root, crate, column, cell):
    folder, suffix = COLUMNS[column]
    for crates, items in parts_of(crate, cell):
        for item in items:
            is_word = re.fullmatch(r"(?:\.\.)?[A-Z]\w*(?:\.\.)?|[a-z]\w*", item)
            is_other = item in ("none", "search") or folder != "src" and item.islower()
            if not is_word or is_other:
                continue
            if not any(is_named(root, each, folder, suffix, item) for each in crates):
                yield f"there is no {folder}/{item}{suffix} of {' or '.join(crates)}"


@functools.cache
def kinds_of_stories(root):
    """The first word of each story."""
    return {file.read_text(encoding="utf-8").split()[0]
            for file in (root / "tests/stories").glob("*.story")}


def faults_of_tests(root, cell):
    for item in re.split(r",\s*", re.sub(r"`[^`]*`", "", cell)):
        if item.startswith("story: "):
            if item[7:] not in kinds_of_stories(root):
                yield f"there is no story of the kind {item[7:]}"
        elif item and item != "none":
            if not any((root / "crates" / crate / "src" / f"{item}.rt").exists()
                       for crate in TESTS):
                yield f"there is no module {item} of tests"


@functools.cache
def edits_of(root):
    """The edits that are there, and those of them that each gate tries, each as CRATE/NAME."""
    there, tried = set(), set()
    for file in (root / "crates").glob("*/*/*.edit"):
        name = f"{file.parent.parent.name}/{file.stem}"
        there.add(name)
        if file.parent.name == "must-fail":
            tried.add(name)
    lines = (root / "tests/edits/named").read_text(encoding="utf-8").splitlines()
    return there, tried | {line for line in lines if not line.startswith("#")}


def faults_of_edits(root, crate, cell):
    there, tried = edits_of(root)
    for crates, items in parts_of(crate, cell):
        for item in items:
            name = item.removesuffix("°").strip()
            found = {f"{each}/{name}" for each in crates} & there
            if name != "none" and not found:
                yield f"there is no edit {name} of {' or '.join(crates)}"
            elif name != "none" and item.endswith("°") == bool(found & tried):
                yield f"{name}: a ° says that not each gate tries it (tests/edits/named)"


def faults_of(root):
    """Each fault as a page, a line and what is wrong."""
    for file in sorted((root / "crates").glob("*/README.md")):
        name, crate = file.relative_to(root).as_posix(), file.parent.name
        rows = list(rows_of(Page(file)))
        if not rows:
            yield name, 1, "it has no table `## Where`"
        for number, cells in rows:
            if len(cells) != len(HEADS):
                yield name, number, f"a row of {len(cells)} cells, and not {len(HEADS)}"
                continue
            faults = [fault for at in COLUMNS for fault in faults_of_files(root, crate, at,
                                                                             cells[at])]
            faults += faults_of_tests(root, cells[4])
            faults += faults_of_edits(root, crate, cells[5])
            for fault in faults:
                yield name, number, fault
