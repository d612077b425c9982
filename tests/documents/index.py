#!/usr/bin/env python3
"""The index of the crates: the contract of each, from its page.

A crate's page says `**The contract that matters:**` and then the contract, whose first sentence
stands in the table of docs/PROOFS.md ("By crate"), which this script makes, and in that of
docs/ARCHITECTURE.md, in which the script makes all but the column "Uses".

    tests/documents/index.py            checks both tables
    tests/documents/index.py --write    writes them

The crates come in the order of crates.txt, in which each stands after those that it uses, under the
head of its family. Those of tests and of figures have no page."""
import pathlib
import re
import sys

ROOT = pathlib.Path(__file__).resolve().parents[2]
MARK = "**The contract that matters:**"
SENTENCE = re.compile(r"(.+?)\.(?:\s+(?=[A-Z`*\[])|$)", re.DOTALL)
PROOFS, ARCHITECTURE = "docs/PROOFS.md", "docs/ARCHITECTURE.md"
HEAD = "## By crate\n"
FAMILIES = ["# rules", "# store", "# HTTP", "# client", "# programs", "# tests"]
ROW = re.compile(r"^\| (canary_\w+) \| (.*) \| (.*) \|$")
HEADS = "| Crate | Its one contract | Uses |"


def families_of(root):
    """The families, each by its name with the crates that have a page, the lowest first."""
    families, crates = {}, []
    for line in (root / "crates.txt").read_text(encoding="utf-8").split("\n"):
        name = line.partition(":")[0]
        if line in FAMILIES:
            crates = families.setdefault(line.removeprefix("# "), [])
        elif name and not line.startswith("#") and (root / "crates" / name / "README.md").exists():
            crates.append(name)
    return {family: crates for family, crates in families.items() if crates}


def contract_of(root, crate):
    """The first sentence of the crate's contract; None if its page has none."""
    text = (root / "crates" / crate / "README.md").read_text(encoding="utf-8")
    _, mark, found = text.partition(MARK)
    sentence = SENTENCE.match(found.split("\n\n")[0].strip())
    return " ".join(sentence[1].split()) if mark and sentence else None


def contracts_of(root):
    """The contract of each crate that has a page."""
    return {crate: contract_of(root, crate)
            for crates in families_of(root).values() for crate in crates}


def proofs_with(text, families, contracts):
    """The text of docs/PROOFS.md with the table of these contracts."""
    front, head, rest = text.partition(HEAD)
    kept, table, end = re.split(r"^(\| Crate \|.*\n(?:\|.*\n)*)", rest, maxsplit=1, flags=re.M)
    table = "| Crate | Its one contract |\n|---|---|\n"
    for family, crates in families.items():
        table += f"| **{family}** | |\n"
        for crate in crates:
            table += f"| [{crate}](../crates/{crate}/README.md) | {contracts[crate]} |\n"
    return front + head + kept + table + end


def architecture_with(text, families, contracts):
    """The text of docs/ARCHITECTURE.md with the table of these contracts, and with what its own
    table says that each crate uses."""
    lines = text.split("\n")
    begin = lines.index(HEADS) + 2
    end = next(at for at in range(begin, len(lines)) if not lines[at].startswith("|"))
    rows = [ROW.match(line) for line in lines[begin:end]]
    uses = {row[1]: row[3] for row in rows if row}
    table = []
    for family, crates in families.items():
        table.append(f"| **{family}** | | |")
        for crate in crates:
            table.append(f"| {crate} | {contracts[crate]} | {uses.get(crate, '?')} |")
    return "\n".join(lines[:begin] + table + lines[end:])


def faults_of_list(root):
    """What is wrong with the order and the heads of crates.txt."""
    text = (root / "crates.txt").read_text(encoding="utf-8")
    heads = [head for head in re.findall(r"^# \w+$", text, re.M)]
    if heads != FAMILIES:
        yield "crates.txt", 1, f"its heads are not {', '.join(FAMILIES)}"
    crates = {folder.name for folder in (root / "crates").iterdir()}
    seen = set()
    for number, line in enumerate(text.split("\n"), 1):
        name, _, libraries = line.partition(":")
        if line and not line.startswith("#"):
            for library in crates.intersection(libraries.split()) - seen:
                yield "crates.txt", number, f"{name} stands before {library}, which it uses"
            seen.add(name)


def faults_of(root):
    """Each fault as a page, a line and what is wrong."""
    yield from faults_of_list(root)
    families, contracts = families_of(root), contracts_of(root)
    for crate, contract in contracts.items():
        if contract is None:
            yield f"crates/{crate}/README.md", 1, f"no sentence follows {MARK}"
    if None in contracts.values():
        return
    for name, made in ((PROOFS, proofs_with), (ARCHITECTURE, architecture_with)):
        text = (root / name).read_text(encoding="utf-8")
        wanted = made(text, families, contracts).split("\n")
        for number, (line, want) in enumerate(zip(text.split("\n"), wanted), 1):
            if line != want or want.endswith(" | ? |"):
                yield name, number, "the table of crates is not that of tests/documents/index.py"
                break


def main():
    if sys.argv[1:] != ["--write"]:
        for fault in faults_of(ROOT):
            sys.exit("{}:{}: {}".format(*fault))
        return
    families, contracts = families_of(ROOT), contracts_of(ROOT)
    for name, made in ((PROOFS, proofs_with), (ARCHITECTURE, architecture_with)):
        text = (ROOT / name).read_text(encoding="utf-8")
        (ROOT / name).write_text(made(text, families, contracts), encoding="utf-8")


if __name__ == "__main__":
    main()
