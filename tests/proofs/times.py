"""Where the time of proofs goes, by crate: times.py ROOT [--keep] [--told FOLDER] COMMAND.. runs a
command and looks, each second, at the checks of the prover below it. What they took is in
tests/proofs/out/times, of which `tests/proofs/prove --times` prints a table. A `rt ci` proves as
many crates at a time as there are processors, and memory for. With --keep what its
checks made is then kept for `rt check` (kept.py). The files of FOLDER tell others of the command:
`process` has its number, `lines` has what it has printed on standard output so far, and `status`
comes once it has ended."""
import collections
import contextlib
import os
import signal
import subprocess
import sys
import threading
import time

import kit
from kept import Keeper

FILE = "tests/proofs/out/times"
TICKS = os.sysconf("SC_CLK_TCK")
# The memory that a check of a crate takes at most, in bytes.
MEMORY = 6_000_000_000
PROOF, TESTS, EDITS = KINDS = ("proof", "tests", "edits")

# What was seen of a process: whose check it is, when it was first and last there, in seconds since
# the watch began, and its seconds of a processor.
Seen = collections.namedtuple("Seen", "crate kind first last seconds")


def stat_of(number):
    """The parent of a process, its start, and its seconds of a processor."""
    with open(f"/proc/{number}/stat", encoding="utf-8", errors="replace") as file:
        words = file.read().rpartition(")")[2].split()
    return int(words[1]), words[19], (int(words[11]) + int(words[12])) / TICKS


def check_of(number):
    """The crate that a process checks, and of what the check is, or none."""
    with open(f"/proc/{number}/cmdline", encoding="utf-8", errors="replace") as file:
        words = file.read().split("\0")
    if "--crate-name" not in words[:-1]:
        return None
    place = os.readlink(f"/proc/{number}/cwd")
    is_copy = os.path.basename(os.path.dirname(place)) != "crates"
    kind = TESTS if "--test" in words else EDITS if is_copy else PROOF
    return words[words.index("--crate-name") + 1], kind


class Watch:
    """Looks at the processes below one."""

    def __init__(self, above, keeper=None):
        self.above, self.begun, self.keeper = above, time.monotonic(), keeper
        self.seen, self.known = {}, {}

    def look(self):
        now, stats = time.monotonic() - self.begun, {}
        for number in filter(str.isdigit, os.listdir("/proc")):
            with contextlib.suppress(OSError, ValueError, IndexError):
                stats[int(number)] = stat_of(number)
        for number, (_, start, seconds) in stats.items():
            if found := self.found(number, stats):
                key = number, start
                first = self.seen[key].first if key in self.seen else now
                self.seen[key] = Seen(*found, first, now, seconds)
                if self.keeper and found[1] == PROOF:
                    self.keeper.look(number, found[0])

    def found(self, number, stats):
        """Whose check the process is a part of, if it is below the one that is watched."""
        found = None
        while number in stats and number != self.above:
            found = found or self.own(number, stats[number][1])
            number = stats[number][0]
        return found if number == self.above else None

    def own(self, number, start):
        """Whose check a process is; it is asked until its words are those of a check."""
        key = number, start
        if not self.known.get(key):
            with contextlib.suppress(OSError):
                self.known[key] = check_of(number)
        return self.known.get(key)

    def write(self, file):
        """Writes what was seen, by crate and kind."""
        parts = collections.defaultdict(list)
        for it in self.seen.values():
            parts[it.crate, it.kind].append(it)
        os.makedirs(os.path.dirname(file), exist_ok=True)
        with open(file, "w", encoding="utf-8") as out:
            for (crate, kind), them in parts.items():
                first, last = min(it.first for it in them), max(it.last for it in them)
                seconds = sum(it.seconds for it in them)
                print(crate, kind, f"{first:.0f} {last:.0f} {seconds:.0f}", file=out)


@contextlib.contextmanager
def watched(above, file, keeper=None):
    """Watches the processes below one, until the block ends, and writes what it saw. A keeper looks
    at each check of a proof, each time."""
    watch, ended = Watch(above, keeper), threading.Event()

    def go_on():
        # What a check makes in its last moments is lost to a keeper that looks seldom.
        while not ended.wait(0.3 if keeper else 1):
            watch.look()

    thread = threading.Thread(target=go_on, daemon=True)
    thread.start()
    try:
        yield
    finally:
        ended.set()
        thread.join()
        watch.write(file)


def table(root):
    """Prints what the last run took."""
    rtlib = kit.load_rtlib()
    rows = collections.defaultdict(dict)
    if not os.path.exists(f"{root}/{FILE}"):
        return "tests/proofs/prove: there is no run of ./check or of this script here"
    with open(f"{root}/{FILE}", encoding="utf-8") as file:
        for crate, kind, *times in (line.split() for line in file):
            rows[crate][kind] = Seen(crate, kind, *map(int, times))
    below = {it.name: [low.name for low in it.below()] for it in rtlib.crates_below(root)}
    proofs = {crate: row[PROOF] for crate, row in rows.items() if PROOF in row}
    # What a crate waited for: the library below that was proved last.
    last = {crate: max((proofs[it] for it in below.get(crate, ()) if it in proofs),
                       key=lambda it: it.last, default=None) for crate in proofs}
    print(f"{'crate':20}{'begun':>7}{'ended':>7}{'proof':>8}{'tests':>7}{'edits':>7}  waited for")
    for crate, proof in sorted(proofs.items(), key=lambda it: it[1].last):
        seconds = [rows[crate][kind].seconds if kind in rows[crate] else "" for kind in KINDS]
        after = f"  {last[crate].crate}" if last[crate] else ""
        minutes = f"{proof.first / 60:7.1f}{proof.last / 60:7.1f}"
        print(f"{crate:20}{minutes}{seconds[0]:8}{seconds[1]:7}{seconds[2]:7}{after}")
    whole = [sum(row[kind].seconds for row in rows.values() if kind in row) for kind in KINDS]
    print(f"{'all':34}{whole[0]:8}{whole[1]:7}{whole[2]:7}")
    tell_chain(proofs, last)


def tell_chain(proofs, last):
    """Prints the chain of crates for which the clock waited, from its end."""
    link = max(proofs.values(), key=lambda it: it.last, default=None)
    print("\nthe chain, from its end: minutes of the crate, and before them since that below it")
    while link:
        under = last[link.crate]
        waited = link.first - (under.last if under else 0)
        print(f"{link.crate:20}{(link.last - link.first) / 60:7.1f}{waited / 60:7.1f}")
        link = under


def hand_on(ran, file):
    """Hands on what a process prints, line by line, to standard output and to a file."""
    with open(file, "wb", buffering=0) as lines:
        for line in ran.stdout:
            # The file comes last: whoever reads it may print beside standard output.
            with contextlib.suppress(OSError):
                sys.stdout.buffer.write(line)
                sys.stdout.buffer.flush()
            lines.write(line)


def write(file, number):
    """Writes a number to a file, all at once."""
    with open(f"{file}.new", "w", encoding="utf-8") as out:
        out.write(f"{number}\n")
    os.replace(f"{file}.new", file)


def ended(ran, folder):
    """The status of a process, once it has ended; the files of the folder, if one is given, tell of
    it."""
    if not folder:
        return ran.wait()
    write(f"{folder}/process", ran.pid)
    thread = threading.Thread(target=hand_on, args=(ran, f"{folder}/lines"), daemon=True)
    thread.start()
    status = ran.wait()
    # Something that it has started may still hold its standard output.
    thread.join(10)
    write(f"{folder}/status", status)
    return status


def take_lanes():
    """Has a `rt ci` below this prove a crate on each processor, or on as many as there is memory
    for. It plans with about twice the memory that its checks take, and then has processors wait."""
    rt = kit.load_rt()
    lanes = min(rt.processors(), int(rt.free() // MEMORY))
    if lanes > 1:
        os.environ.setdefault("RT_JOBS", str(lanes))


def main():
    """Runs a command under a watch. A signal that would end this ends the command."""
    root, *words = sys.argv[1:]
    folder = keeper = None
    if words[0] == "--keep":
        keeper, words = Keeper(), words[1:]
    if words[0] == "--told":
        _, folder, *words = words
    out = subprocess.PIPE if folder else None
    take_lanes()
    with subprocess.Popen(words, stdin=subprocess.DEVNULL, stdout=out) as ran:
        for it in (signal.SIGTERM, signal.SIGINT, signal.SIGHUP):
            signal.signal(it, lambda number, _: ran.send_signal(number))
        with watched(ran.pid, f"{root}/{FILE}", keeper):
            status = ended(ran, folder)
    if keeper:
        keeper.hand_over(root)
    return status if status >= 0 else 128 - status


if __name__ == "__main__":
    sys.exit(main())
