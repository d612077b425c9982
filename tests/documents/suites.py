"""Checks that the gate runs each script tests/*/run, a part of documents.py: tests/run does, or
./check itself. And that the table of tests/loop (OF_CRATES) has each crate, in the order of
crates.txt, with scripts that are there."""
import re

ALL, GATE = "tests/run", "check"
OF_CRATES = "tests/scripts"
# What docs/TESTING.md says is no part of the gate.
BY_HAND = {"trace"}


def names_of_all(root):
    """The names of the folders whose scripts tests/run runs."""
    words = re.search(r"^for names in (.*?); do$", (root / ALL).read_text(encoding="utf-8"),
                      re.MULTILINE | re.DOTALL)
    return set(re.findall(r"[a-z]+", words[1])) if words else set()


def names_of_gate(root):
    """The names of the folders whose scripts ./check runs by itself."""
    lines = (root / GATE).read_text(encoding="utf-8").split("\n")
    code = "\n".join(line for line in lines if not line.lstrip().startswith("#"))
    return set(re.findall(r"tests/(\w+)/run", code)) if ALL in code else set()


def rows_of(path):
    """The rows of a file of crates, each by its first word with the other ones."""
    lines = path.read_text(encoding="utf-8").split("\n")
    found = [re.split(r"[: ]+", line) for line in lines if line and not line.startswith("#")]
    return {name: words for name, *words in found}


def faults_of_table(root, there):
    """What is wrong with the scripts of the crates."""
    rows, crates = rows_of(root / OF_CRATES), rows_of(root / "crates.txt")
    if list(rows) != list(crates):
        wrong = ", ".join(sorted(set(rows) ^ set(crates))) or "their order"
        yield OF_CRATES, 1, f"its crates are not those of crates.txt: {wrong}"
    for crate, names in rows.items():
        if not names or set(names) - there:
            yield OF_CRATES, 1, f"{crate} has no script, or one that is not there"


def faults_of(root):
    """Each script that no gate runs, each name without a script, and the table's faults."""
    there = {path.parent.name for path in root.glob("tests/*/run")}
    yield from faults_of_table(root, there)
    run = names_of_all(root) | names_of_gate(root)
    for name in sorted(there - run - BY_HAND):
        yield f"tests/{name}/run", 1, f"neither {ALL} nor ./{GATE} runs it"
    for name in sorted((run | BY_HAND) - there):
        yield ALL, 1, f"there is no tests/{name}/run"
