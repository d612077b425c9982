"""Prints the way of a Promote, or compares docs/CHANGING.md with it: see tests/trace/run."""
import argparse
import os
import pathlib
import subprocess
import sys

from sources import Sources
from ways import PAGE, rows_of

ROOT = pathlib.Path(__file__).resolve().parents[2]
# The module of a crate's laws: empty functions that proofs cite.
LAWS = "laws.rt"


def symbols_called(program, work):
    """The symbols of the functions that the desk called, in the order of their first calls."""
    to = work / "called"
    names = {"TRACE_WORK": work, "TRACE_PROGRAM": program, "TRACE_TO": to}
    done = subprocess.run(
        ["gdb", "-nx", "-q", "-batch", "-x", str(ROOT / "tests/trace/stops.py")],
        env={**os.environ, **{name: str(value) for name, value in names.items()}},
        stdin=subprocess.DEVNULL, capture_output=True, text=True, timeout=600)
    if not to.exists():
        said = "\n".join((done.stdout + done.stderr).split("\n")[-20:])
        sys.exit(f"tests/trace/run: gdb did not come to the end\n{said}")
    return to.read_text(encoding="utf-8").split("\n")


def way_of(program, work):
    """The functions of the source that the desk called, each once."""
    sources = Sources(ROOT)
    found = map(sources.of_symbol, symbols_called(program, work))
    way = list(dict.fromkeys(one for one in found if one))
    if not way:
        sys.exit(f"tests/trace/run: {program} has no symbols, or its functions are inlined")
    return way


def path_of(one):
    return f"{one.owner}::{one.name}" if one.owner else one.name


def print_way(way):
    width = max(len(path_of(one)) for one in way)
    for one in way:
        print(f"{path_of(one):{width}}  {'/'.join(('crates', one.crate, 'src', one.file))}")
    done = [one for one in way if one.file != LAWS]
    crates = [one.crate for one in done]
    files = {(one.crate, one.file) for one in done}
    crossings = sum(a != b for a, b in zip(crates, crates[1:]))
    print(f"{len(done)} functions in {len(files)} files of {len(set(crates))} crates;"
          f" {crossings} times the next one is of another crate."
          f" Besides, {len(way) - len(done)} laws, which do nothing")


def faults_of(way):
    """What is wrong with the table: each fault as its line and what is wrong."""
    places = {(one.crate, one.file.rpartition("/")[2], path_of(one)): at
              for at, one in reversed(list(enumerate(way)))}
    last = -1
    for number, crate, file, name in rows_of(ROOT):
        at = places.get((crate, file, name))
        if at is None:
            yield number, f"{name} of {crate}, {file}, is not on the way"
        elif at < last:
            yield number, f"{name} is first called before the function of the row above"
        else:
            last = at


def main():
    parser = argparse.ArgumentParser(prog="tests/trace/run")
    parser.add_argument("--check", action="store_true")
    parser.add_argument("--program", type=pathlib.Path, required=True)
    parser.add_argument("--work", type=pathlib.Path, required=True, help=argparse.SUPPRESS)
    words = parser.parse_args()
    way = way_of(words.program.resolve(), words.work)
    if not words.check:
        print_way(way)
        return
    faults = list(faults_of(way))
    for number, fault in faults:
        print(f"{PAGE}:{number}: {fault}")
    print(f"trace: {len(faults)} faults", file=sys.stderr)
    sys.exit(1 if faults else 0)


main()
