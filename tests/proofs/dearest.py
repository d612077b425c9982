"""Which functions cost most to prove: see `tests/proofs/prove --dearest`.

A check writes a file for each module that it has checked: of a function its steps (`Lts`), its
proof (`Proof`), what joins both (`Tie`) and more. So the time between two files is what the second
one took, if the check has one job, as those of `rt ci` below `tests/proofs/watched` have. Beside
other work it has the waits, too."""
import collections
import glob
import os

from kept import ENDING

# How a module's name begins: that of the proofs of a crate, and that of its contracts.
BEGINS = "proofs.", "specs.contracts."
# The module of a contract that each function has.
KEY = ".Key"


def made_in(folder, crate):
    """The modules of a crate in a folder, and the seconds that each took, in the order of time."""
    found, begin = [], f"Rattle-{crate}-"
    for name in os.listdir(folder):
        if name.startswith(begin) and name.endswith(ENDING):
            found.append((os.stat(f"{folder}/{name}").st_mtime, name[len(begin) : -len(ENDING)]))
    found.sort()
    for before, (time, module) in zip(found, found[1:]):
        yield module, time - before[0]


def owner(module, functions):
    """The function of a module, and what the module is of it; or the module itself."""
    for begin in filter(module.startswith, BEGINS):
        parts = module[len(begin) :].split(".")
        for count in range(len(parts), 0, -1):
            if (name := ".".join(parts[:count])) in functions:
                return name, ".".join(parts[count:])
    return module, ""


def costs(folder, crate):
    """By function, the seconds of each of its modules, by what they are of it."""
    made = list(made_in(folder, crate))
    functions = {module[len(BEGINS[1]) : -len(KEY)] for module, _ in made if module.endswith(KEY)}
    found = collections.defaultdict(collections.Counter)
    for module, seconds in made:
        name, part = owner(module, functions)
        found[name][part] += seconds
    return found


def folders(root, crates):
    """Where these crates have what their last checks made, by their names."""
    for crate in crates:
        for folder in sorted(glob.glob(f"{root}/crates/{crate}/out/incremental/*/"))[-1:]:
            yield crate, folder


def table(root, crates, count):
    """Prints so many functions, the dearest first, with their dearest modules; and the crates."""
    rows, sums = [], []
    for crate, folder in folders(root, crates):
        found = costs(folder, crate)
        rows += [(sum(parts.values()), crate, name, parts) for name, parts in found.items()]
        sums.append((sum(sum(parts.values()) for parts in found.values()), crate))
    for seconds, crate, name, parts in sorted(rows, key=lambda it: -it[0])[:count]:
        dearest = ", ".join(f"{part or 'module'} {it:.1f}" for part, it in parts.most_common(3))
        print(f"{seconds:8.1f}  {crate}::{name.replace('.', '::')}: {dearest}")
    for seconds, crate in sorted(sums, reverse=True):
        print(f"{seconds:8.0f}  {crate}")
