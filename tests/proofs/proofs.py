"""Proves crates side by side over the work that earlier checks kept: see tests/proofs/prove."""

import argparse
import os
import sys
import threading
import time

import dearest
import planned
import times
from kit import load_rtlib, share_stamps, take


def wanted(crates, names):
    """The crates of these names with those below them, or all."""
    by_name = {it.name: it for it in crates}
    unknown = [it for it in names if it not in by_name]
    if unknown:
        sys.exit(f"tests/proofs/prove: no crate has the name {unknown[0]}")
    chosen = {below.name for it in names for below in by_name[it].below()} | set(names)
    return [it for it in crates if it.name in chosen] if names else crates


def lengths(crates):
    """By name, the lines of the longest chain of crates that begins with a crate."""
    found = {}
    for crate in sorted(crates, key=lambda it: -len(it.below())):
        above = [it for it in crates if crate.name in {below.name for below in it.below()}]
        longest = max((found[it.name] for it in above), default=0)
        found[crate.name] = longest + crate.count(b"\n")
    return found


class Run:
    """Crates that are being proved: what is left, and how each that has ended did."""

    def __init__(self, crates, logs):
        longest = lengths(crates)
        self.left = sorted(crates, key=lambda it: -longest[it.name])
        self.names = {it.name for it in crates}
        self.proved = {}
        self.logs = logs
        self.turn = threading.Condition()
        self.begun = time.time()

    def next(self):
        """The next crate whose libraries are proved, or None if none is left that can be."""
        with self.turn:
            self.turn.wait_for(lambda: self.ready() is not None or not self.left)
            crate = self.ready()
            if crate is not None:
                self.left.remove(crate)
            return crate

    def ready(self):
        """A crate whose libraries are proved, or None. Those are dropped that cannot be proved."""
        self.drop_blocked()
        return next((crate for crate in self.left
                     if all(self.proved.get(it.name) for it in self.below(crate))), None)

    def below(self, crate):
        return [it for it in crate.below() if it.name in self.names]

    def drop_blocked(self):
        for crate in list(self.left):
            if any(self.proved.get(it.name) is False for it in self.below(crate)):
                self.left.remove(crate)
                self.proved[crate.name] = False
                print(f"{crate.name}: a library below is not proved", flush=True)

    def lane(self):
        while (crate := self.next()) is not None:
            begun = time.time()
            is_proved = self.prove(crate)
            with self.turn:
                self.proved[crate.name] = is_proved
                word = "proved" if is_proved else f"NOT PROVED: {self.logs}/{crate.name}"
                now = time.time()
                times = f"{now - self.begun:5.0f} s: {crate.name}: {word}, {now - begun:.0f} s"
                print(times, flush=True)
                self.turn.notify_all()

    def prove(self, crate):
        os.makedirs(f"{crate.folder}/out", exist_ok=True)
        with open(f"{self.logs}/{crate.name}", "w", encoding="utf-8") as crate.out:
            try:
                if crate.is_program:
                    return crate.check(["--jobs", "1"]) == 0
                return crate.build_rlib(["--jobs", "1"], anew=False) == 0
            except SystemExit:
                return False


def main():
    words = argparse.ArgumentParser(prog="tests/proofs/prove")
    words.add_argument("--lanes", type=int, default=os.cpu_count(), help="so many at a time")
    words.add_argument("--from", dest="clone", help="a clone whose kept work is taken first")
    words.add_argument("--times", action="store_true", help="where the last run's time went")
    words.add_argument("--gate", action="store_true", help="by rt ci, and kept for the gate")
    words.add_argument("--dearest", type=int, metavar="N", help="the N dearest functions")
    words.add_argument("crates", nargs="*", metavar="CRATE", help="these, and what is below")
    root, given = sys.argv[1], words.parse_intermixed_args(sys.argv[2:])
    if given.times:
        return times.table(root)
    if given.dearest:
        crates = given.crates or sorted(os.listdir(f"{root}/crates"))
        return dearest.table(root, crates, given.dearest)
    if given.gate:
        with times.watched(os.getpid(), f"{root}/{times.FILE}"):
            return planned.run(root, given.lanes, ["ci", *given.crates])
    rtlib = load_rtlib()
    share_stamps(rtlib)
    os.chdir(root)
    rtlib.guarded()
    rtlib.Crate.may_have_bugs = rtlib.Crate.may_be_empty = rtlib.Crate.may_call_c = True
    crates = wanted(rtlib.crates_below(root), given.crates)
    held = rtlib.lock(crates)
    if given.clone:
        take(crates, os.path.abspath(given.clone))
    logs = f"{root}/tests/proofs/out"
    os.makedirs(logs, exist_ok=True)
    run = Run(crates, logs)
    lanes = [threading.Thread(target=run.lane) for _ in range(max(1, given.lanes))]
    with times.watched(os.getpid(), f"{root}/{times.FILE}"):
        for lane in lanes:
            lane.start()
        for lane in lanes:
            lane.join()
    del held
    failed = [name for name, is_proved in run.proved.items() if not is_proved]
    print(f"{len(run.proved) - len(failed)} proved, {len(failed)} not proved")
    return 1 if failed else 0


sys.exit(main())
