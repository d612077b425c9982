#!/usr/bin/env python3
"""Checks docs/THEOREM.md against the source.

The page has the contract of `canary_once::run::run` word for word, and three lists of definitions:
those that its clauses `answers` and `contents` reach, those that only its other clauses reach, and
those that only the laws `table_books` and `tables` of canary_tables_laws reach. Its table of types
has each type that contracts see by an `impl Model`, from canary_base up to canary_once. This script
computes the lists from the source. Where the page differs, it prints `FILE:LINE: what differs` and
ends with status 1.

    tests/documents/theorem.py            checks the page
    tests/documents/theorem.py --print    prints the lists, to paste into the page

A definition reaches each definition that its text names. A name does not count if it is a variable
that is bound there, a field, or the label of a field. The walk ends at Rust types
(`specs.declared`) and at the definitions of std and of the kit.
"""

import pathlib
import re
import sys

ROOT = pathlib.Path(__file__).resolve().parents[2]
PAGE = "docs/THEOREM.md"
RUN = "crates/canary_once/src/run.rt"
BOOK = "crates/canary_once/src/book.rt"
TABLES = "crates/canary_tables_laws/src/laws.rt"
MAIN_CLAUSES = ("answers", "contents")
TABLE_LAWS = ("table_books", "tables")

NAME = r"[^\W\d][\w'-]*"
HEAD = re.compile(rf"(?:(?:abbrev|unfoldable|record|data) )*pub (?:record |data )?({NAME})"
                  rf"|(?:abbrev|unfoldable|record|data) ({NAME})")
USE = re.compile(r"(?:ghost )?use Rattle\.(\w+)\.specs\.([\w.]+)\.\{(.*)\}")
ROW = re.compile(r"\| (canary_\w+) \| ([\w/]+) \| (\d+) of (\d+) \| (.*) \|$")
VIEW_ROW = re.compile(r"\| (canary_\w+) \| ((?:`\w+`(?:, )?)+) \|")
MODEL = re.compile(r"^impl(?:<.*?>)? Model for (\w+)", re.M)
# The crates whose types the main lists name.
RULES = ("base", "condition", "metric", "plan", "canonical", "release", "once")


class Wrong(Exception):
    """The page or the source does not have the form that this script reads."""


def read_lines(path):
    return (ROOT / path).read_text(encoding="utf-8").split("\n")


# The definitions of the source.

class Module:
    """One file of specs/: its definitions, and which module each name that it uses comes from."""

    def __init__(self, crate, path):
        self.key = (crate, path.stem)
        # the file below specs/, as the page names it
        self.place = path.relative_to(ROOT / "crates" / crate / "specs").with_suffix("").as_posix()
        self.bodies = {}   # the name of a definition -> its text
        self.owners = {}   # a constructor -> the name of its `data`
        self.used = {}     # a name -> the module that has it, and its name there
        name = None
        for line in path.read_text(encoding="utf-8").split("\n"):
            line = re.sub(r"--.*", "", line)
            if line.startswith(("use ", "pub use ", "pub mod ")):
                self.used.update(names_used(line))
                continue
            head = HEAD.match(line)
            if head:
                name = head[1] or head[2]
            if name:
                self.bodies[name] = self.bodies.get(name, "") + line + "\n"
        for name, body in self.bodies.items():
            if re.match(r"(?:pub )?data ", body):
                for constructor in re.findall(rf"^  ({NAME}) :", body, re.M):
                    self.owners[constructor] = name


def names_used(line):
    """The names that a `use` line brings, each with its module and its name there."""
    match = USE.match(line)
    brought = {}
    for item in match[3].split(",") if match else ():
        there, _, here = item.strip().partition(" as ")
        brought[here or there] = ((match[1], without_folder(match[1], match[2])), there)
    return brought


def without_folder(crate, module):
    """The module of a path in specs/, without the folder in which its file stands."""
    folder, _, rest = module.partition(".")
    file = ROOT / "crates" / crate / "specs" / folder / f"{rest.partition('.')[0]}.antt"
    return rest if rest and file.exists() else module


def read_modules():
    crates = ROOT / "crates"
    paths = sorted(crates.glob("*/specs/**/*.antt"))
    modules = (Module(path.relative_to(crates).parts[0], path) for path in paths)
    return {module.key: module for module in modules}


def resolve(modules, key, name):
    """The definition that a name of a module means, or None if it is not one of these crates'."""
    module = modules.get(key)
    if module is None:
        # `specs.Trees.Tree.{Or}` brings constructors of the `data` Tree of the module Trees
        outer, _, data = key[1].rpartition(".")
        outer = (key[0], outer)
        return (outer, data) if outer in modules and data in modules[outer].bodies else None
    if name in module.bodies:
        return key, name
    if name in module.owners:
        return key, module.owners[name]
    return resolve(modules, *module.used[name]) if name in module.used else None


def bound_in(name, part):
    """The variables that a part of a definition binds."""
    bound = set()
    if re.match(rf"{re.escape(name)}\s", part):
        bound.update(re.findall(NAME, re.split(r"\s=\s", part, maxsplit=1)[0]))
    for names in re.findall(rf"[({{]((?:{NAME} )+):", part):
        bound.update(names.split())
    for names in re.findall(r"λ ([^.]*)\.", part):
        bound.update(re.findall(NAME, names.split(":")[0]))
    bound.update(re.findall(rf"\blet ({NAME}) =", part))
    for pattern in re.findall(r"[|\[]([^|\[\]↦]*)↦", part):
        bound.update(re.findall(NAME, pattern))
    return {n for n in bound if not n[0].isupper()}  # constructors are not bound by a pattern


def names_in(name, body):
    """The names that a definition cites."""
    body = re.sub(r'"(?:\\.|[^"\\])*"', "", body)
    # a definition is a signature and equations, which begin with its name
    starts = [0] + [m.start() for m in re.finditer(rf"^{re.escape(name)}(?=\s)", body, re.M)]
    cited = set()
    for start, end in zip(starts, starts[1:] + [len(body)]):
        part = body[start:end]
        plain = re.sub(rf"(?<=[\w)\]])\.(?:{NAME}|\d+)", "", part)  # fields
        plain = re.sub(rf"([{{;]\s*){NAME}(?= = )", r"\1", plain)   # labels of a record
        plain = re.sub(rf"^  (?:pub )?{NAME}(?= : )", "", plain, flags=re.M)
        cited |= set(re.findall(NAME, plain)) - bound_in(name, part)
    return cited - {name}


def cites(modules, definition):
    """The definitions that a definition names."""
    key, name = definition
    found = {resolve(modules, key, n) for n in names_in(name, modules[key].bodies[name])}
    return found - {None, definition}


def reached(modules, starts):
    """All that these definitions reach, and themselves."""
    seen, waiting = set(), list(starts)
    while waiting:
        definition = waiting.pop()
        if definition not in seen:
            seen.add(definition)
            waiting.extend(cites(modules, definition))
    return seen


# The contract.

def contract_of(lines, name="run"):
    """Where the contract of a function begins, from 0, and its lines: all before the body."""
    first = next((i for i, line in enumerate(lines) if line.startswith(f"pub fn {name}<")), None)
    if first is None:
        raise Wrong(f"{RUN if name == 'run' else TABLES}:1: no function {name}")
    end = next(i for i in range(first, len(lines)) if lines[i] in ("{", "{}"))
    return first, lines[first:end]


def clauses(contract, names=None):
    """The lines of the clauses of these names, or of all."""
    chosen, takes = [], False
    for line in contract:
        head = re.match(r"    ensures (?:(\w+) )?\{", line)
        if head:
            takes = names is None or head[1] in names
        if takes:
            chosen.append(line)
    return chosen


def named_by(modules, lines, used):
    """The definitions that these lines of a .rt file name."""
    names = set(re.findall(NAME, "\n".join(lines))) & set(used)
    return {resolve(modules, *used[name]) for name in names} - {None}


def table_starts(modules):
    """The definitions that the laws over tables name."""
    lines = read_lines(TABLES)
    used = {name: place for line in lines for name, place in names_used(line).items()}
    contracts = [line for name in TABLE_LAWS for line in clauses(contract_of(lines, name)[1])]
    return named_by(modules, contracts, used)


def lists_of(modules):
    """The definitions that the main clauses reach, those that only the others reach, and those that
    only the laws over tables reach."""
    lines = read_lines(RUN)
    contract = contract_of(lines)[1]
    used = {name: place for line in lines for name, place in names_used(line).items()}
    main = reached(modules, named_by(modules, clauses(contract, MAIN_CLAUSES), used))
    # what `B.state` is stands in the trait
    book = [line.strip() for line in read_lines(BOOK)]
    trait = book[book.index("pub trait Book {"):]
    state = [line for line in trait if line.startswith("ghost state:")]
    in_trait = {name: place for line in trait for name, place in names_used(line).items()}
    starts = named_by(modules, clauses(contract), used) | named_by(modules, state, in_trait)
    others = reached(modules, starts) - main
    return main, others, reached(modules, table_starts(modules)) - main - others


def count(definitions):
    counts = {}
    for key, _ in definitions:
        counts[key] = counts.get(key, 0) + 1
    return counts


# The page.

def page_contract(lines):
    """Where the contract stands on the page, from 0, and its lines."""
    for start, line in enumerate(lines[:-1]):
        if line.startswith("```") and lines[start + 1].startswith("pub fn run<"):
            return start + 1, lines[start + 1:lines.index("```", start + 1)]
    raise Wrong(f"{PAGE}:1: no code block that begins with `pub fn run<`")


def page_lists(lines):
    """The rows of each list: the line, the file, both numbers, and the text."""
    lists = [[]]
    for number, line in enumerate(lines, 1):
        row = ROW.match(line)
        if row:
            lists[-1].append((number, (row[1], row[2]), (int(row[3]), int(row[4])), row[5]))
        elif lists[-1]:
            lists.append([])
    return [rows for rows in lists if rows]


def views():
    """The types that contracts see by an `impl Model`, each with its crate."""
    folders = [(f"canary_{name}", ROOT / "crates" / f"canary_{name}" / "src") for name in RULES]
    return {(crate, name) for crate, folder in folders for path in folder.rglob("*.rt")
            for name in MODEL.findall(path.read_text(encoding="utf-8"))}


def view_differences(lines):
    """Where the table of types differs from the source."""
    right, shown, last = views(), set(), 1
    for number, line in enumerate(lines, 1):
        row = VIEW_ROW.match(line)
        for name in re.findall(r"`(\w+)`", row[2]) if row else ():
            last = number
            if (row[1], name) not in right - shown:
                yield number, f"{row[1]} has no other `impl Model for {name}`"
            shown.add((row[1], name))
    for crate, name in sorted(right - shown):
        yield last, f"no row for {name} of {crate}"
    if not any(f" all {len(right)}, " in line for line in lines):
        yield last, f"the types are {len(right)}"


def differences(modules):
    """Where the page differs from the source: the line, and what differs."""
    lines = read_lines(PAGE)
    yield from view_differences(lines)
    first, contract = contract_of(read_lines(RUN))
    start, block = page_contract(lines)
    if block != contract:
        same = [a == b for a, b in zip(block, contract)] + [False]
        at = same.index(False)
        yield start + at + 1, f"the contract differs from {RUN}:{first + at + 1}"
    lists = page_lists(lines)
    if len(lists) != 3:
        raise Wrong(f"{PAGE}:1: {len(lists)} lists of definitions in place of 3")
    for rows, definitions in zip(lists, lists_of(modules)):
        yield from row_differences(modules, rows, definitions)


def row_differences(modules, rows, definitions):
    """Where a list of definitions differs from the source."""
    counts, above = count(definitions), {}
    below = {(d[0], c[0]) for d in definitions for c in cites(modules, d) & definitions}
    for line, (crate, place), numbers, _ in rows:
        key = (crate, place.rpartition("/")[2])
        name = " ".join(key)
        if key in modules and modules[key].place != place:
            yield line, f"{name} is the file {modules[key].place}"
        right = (counts.get(key, 0), len(modules[key].bodies) if key in modules else 0)
        if numbers != right:
            yield line, f"{name}: the clauses reach {right[0]} of {right[1]} definitions"
        if key in above:
            yield line, f"{name} stands on line {above[key]} already"
        for other in above:
            if other != key and (key, other) in below:
                yield line, f"{name} stands below {' '.join(other)}, which it cites"
        above[key] = line
    for key in sorted(set(counts) - set(above)):
        yield rows[-1][0], f"no row for {' '.join(key)}, {counts[key]} definitions"


def print_lists(modules):
    """Prints the lists, with the texts and in the order that the page has."""
    try:
        lists = page_lists(read_lines(PAGE))
    except OSError:
        lists = []
    texts = {(crate, place.rpartition("/")[2]): text
             for rows in lists for _, (crate, place), _, text in rows}
    order = list(texts)
    for definitions in lists_of(modules):
        counts = count(definitions)
        print(f"{len(definitions)} definitions in {len(counts)} files:\n")
        for key in sorted(counts, key=lambda k: (order.index(k) if k in order else len(order), k)):
            whole, place = len(modules[key].bodies), modules[key].place
            print(f"| {key[0]} | {place} | {counts[key]} of {whole} | {texts.get(key, '?')} |")
        print()


def main():
    if sys.argv[1:] not in ([], ["--print"]):
        print(__doc__, file=sys.stderr)
        return 2
    modules = read_modules()
    if sys.argv[1:]:
        print_lists(modules)
        return 0
    try:
        found = [f"{PAGE}:{line}: {what}" for line, what in differences(modules)]
    except Wrong as fault:
        found = [str(fault)]
    print("\n".join(found), end="\n" if found else "")
    return 1 if found else 0


if __name__ == "__main__":
    sys.exit(main())
