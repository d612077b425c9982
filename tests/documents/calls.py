#!/usr/bin/env python3
"""Checks what docs/PROOFS.md says, under "Safe and total", of public calls: how many of each
crate have a `requires`, and how many no clause at all. A public call is a `pub fn` of a crate that
is no crate of tests.

    tests/documents/calls.py            checks the page
    tests/documents/calls.py --print    prints both lists, call by call
"""
import collections
import pathlib
import re
import sys

ROOT = pathlib.Path(__file__).resolve().parents[2]
PAGE = "docs/PROOFS.md"
HEAD = re.compile(r"( *)pub (?:const )?(?:unsafe )?fn (\w+)")
OWNER = re.compile(r"impl(?:<.*?>)? (?:\w+(?:<.*>)? for )?(\w+)")
CLAUSES = {"`requires`": re.compile(r"^\s*requires\b", re.MULTILINE),
           "no clause": re.compile(r"\A(?!(?:.*\n)*\s*(?:ensures|requires)\b)")}
ROW = re.compile(r"\| (`requires`|no clause) \| (.*) \|$")


def contract_at(lines, first, indent):
    """The head and the clauses of the function that begins at a line."""
    text = []
    for line in lines[first:]:
        if line in (f"{indent}{{", f"{indent}{{}}"):
            break
        text.append(line)
        if re.match(rf"{indent}\S.*\{{( \}}|\}})?$", line):
            break
    return "\n".join(text)


def calls_of(crate):
    """The public calls of a crate, each with its contract."""
    for file in sorted((crate / "src").rglob("*.rt")):
        lines, owner = file.read_text(encoding="utf-8").split("\n"), ""
        for number, line in enumerate(lines):
            if found := OWNER.match(line):
                owner = f"{found[1]}::"
            elif line == "}":
                owner = ""
            if head := HEAD.match(line):
                name = f"{file.stem}::{owner if head[1] else ''}{head[2]}"
                yield name, contract_at(lines, number, head[1])


def lists():
    """By the word of a row, the crates with the calls of which it is so; and how many there are."""
    calls = [(crate.name, name, contract) for crate in sorted(ROOT.glob("crates/canary_*"))
             if not crate.name.startswith("canary_test_") for name, contract in calls_of(crate)]
    found = {word: collections.defaultdict(list) for word in CLAUSES}
    for crate, name, contract in calls:
        for word in (word for word, form in CLAUSES.items() if form.search(contract)):
            found[word][crate].append(name)
    return found, len(calls)


def said_of(calls):
    """What a row of the page says of such calls."""
    return ", ".join(f"{crate.removeprefix('canary_')} {len(names)}"
                     for crate, names in sorted(calls.items()))


def differences():
    """Where the page differs from the source."""
    (found, whole), rows = lists(), {}
    lines = (ROOT / PAGE).read_text(encoding="utf-8").split("\n")
    for number, line in enumerate(lines, 1):
        if row := ROW.match(line):
            rows[row[1]] = number
            if row[2] != said_of(found[row[1]]):
                yield number, f"of {row[1]} the source has: {said_of(found[row[1]])}"
    for word in CLAUSES.keys() - rows.keys():
        yield 1, f"no row for {word}"
    if not any(f"the {whole} public calls" in line for line in lines):
        yield 1, f"the public calls are {whole}"


def main():
    if sys.argv[1:] == ["--print"]:
        for word, crates in lists()[0].items():
            for crate, names in sorted(crates.items()):
                print(f"{word}: {crate}: {', '.join(names)}")
        return 0
    found = [f"{PAGE}:{line}: {what}" for line, what in differences()]
    print("\n".join(found), end="\n" if found else "")
    return 1 if found else 0


if __name__ == "__main__":
    sys.exit(main())
