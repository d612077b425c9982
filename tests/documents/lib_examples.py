"""Checks the examples of the library crates, a part of documents.py.

The page of a crate, the `//!` lines at the top of its src/lib.rt, has an example that says where it
is taken from: `In use (CRATE, FILE):`, an empty line, and lines indented by four spaces. Apart from
their indentation, these lines stand in that file one after another."""
import itertools
import re

# The crates of tests and the program: no caller rests on them. Nor does any rest on
# the laws over all senders, or on those over all books over tables.
NO_LIBRARIES = {
    "canary_desk", "canary_client_laws", "canary_tables_laws", "canary_test_once",
    "canary_test_yaml",
}
EXAMPLE = re.compile(r"^In use \((\w+), (\S+)\):\n\n((?:    .*\n)+)", re.MULTILINE)
CODE = re.compile(r"^    ", re.MULTILINE)


def lines_of(file):
    return file.read_text(encoding="utf-8").splitlines()


def page_of(file):
    page = itertools.takewhile(lambda line: line.startswith("//!"), lines_of(file))
    return "".join(line[4:] + "\n" for line in page)


def stands(code, source):
    """Whether the lines of the code stand in the source one after another."""
    code = [line.strip() for line in code.splitlines()]
    source = [line.strip() for line in source]
    return any(source[at:at + len(code)] == code for at in range(len(source)))


def fault_of(crates, crate, name, file, code):
    """What is wrong with an example of the crate, from that file of the crate of that name."""
    source = crates / name / file
    if name == crate or name == "canary_test_yaml":
        return f"an example from {name} does not show that it runs"
    if not source.is_file():
        return f"there is no {name}/{file}"
    if not stands(code, lines_of(source)):
        return f"the example does not stand in {name}/{file}"
    return None


def faults_of_page(crates, crate, page):
    """What is wrong with the page of a crate, each with the number of its line."""
    examples = list(EXAMPLE.finditer(page))
    if not examples:
        yield 1, "the crate's page has no example that names its source"
    if CODE.search(EXAMPLE.sub("", page)):
        yield 1, "the crate's page has code that names no source"
    for example in examples:
        fault = fault_of(crates, crate, *example.groups())
        if fault:
            yield page.count("\n", 0, example.start()) + 1, fault


def faults_of(root):
    """The faults of all library crates, each with its file and line."""
    crates = root / "crates"
    for folder in sorted(crates.iterdir()):
        page = folder / "src/lib.rt"
        if folder.name not in NO_LIBRARIES and page.is_file():
            for number, fault in faults_of_page(crates, folder.name, page_of(page)):
                yield page.relative_to(root).as_posix(), number, fault
