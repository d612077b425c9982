"""Tries the planted bugs that a landing tries, or all: see tests/edits/run."""
import argparse
import collections
import concurrent.futures
import contextlib
import functools
import itertools
import os
import pathlib
import signal
import sys
import tempfile
import time

import checks
import kept
import kit
import parts
import planting
import selftest
import shares
import verdicts
from lanes import Lanes
from libraries import Built, BuiltBeside
from trial import Trial

# How much longer a bug in a definition takes, which has a check of its own.
OWN_CHECK = 6
# The minutes by the clock after which a landing begins nothing that may wait, and nothing at all;
# and those after which a run of all bugs begins nothing.
MINUTES, AT_MOST, FOR_ALL = 20, 75, 600
# What came of a crate: how many bugs were tried, the refusals that are kept, the bugs that wait,
# the seconds of a processor, and each complaint.
Came = collections.namedtuple("Came", "tried kept waiting seconds complaints",
                              defaults=(0, 0, (), 0.0, ()))
# What is tried, by name: the libraries below the crate have to be there.
Task = collections.namedtuple("Task", "name crate call")


def words_given(words):
    made = argparse.ArgumentParser(prog="tests/edits/run")
    which = made.add_mutually_exclusive_group(required=True)
    which.add_argument("--landing", action="store_true", help="whether its turn has been taken")
    which.add_argument("--take-turn", action="store_true", help="takes it")
    which.add_argument("--turn", action="store_true", help="tries those of this landing")
    which.add_argument("--all", action="store_true", help="tries all")
    made.add_argument("--beside", metavar="FOLDER",
                      help="beside the rt ci of which tests/proofs/watched tells there")
    made.add_argument("--lanes", type=int, help="so many checks at a time")
    made.add_argument("--limit", type=int, default=1800, help="processor seconds of a check")
    made.add_argument("--minutes", type=int, default=0, help="of the clock, for what may wait")
    made.add_argument("crates", nargs="*", metavar="CRATE", help="the bugs of these alone")
    given = made.parse_intermixed_args(words)
    given.lean = True
    given.minutes = given.minutes or (FOR_ALL if given.all else MINUTES)
    given.at_most = given.minutes if given.all else max(given.minutes, AT_MOST)
    return given


class Gate:
    """The crates with planted bugs, which of these are tried, over which libraries, and when. What
    the checks keep for one another is in the folder `room`, if they run beside proofs."""

    def __init__(self, root, rt, given, room):
        self.root, self.kit_rt, self.given = root, rt, given
        self.landing = None if given.all else shares.Landing(root)
        self.crates = {it.name: it for it in rt.rtlib.crates_below(root)}
        if unknown := set(given.crates) - self.crates.keys():
            sys.exit(f"tests/edits/run: there is no crate {min(unknown)}")
        self.room = room if given.beside else None
        self.libraries = (BuiltBeside(self.crates.values(), given.beside, f"{room}/libraries")
                          if given.beside else Built(self.crates.values()))
        self.lanes = Lanes(rt, given.lanes, given.minutes, given.at_most, bool(given.beside))
        self.keys = kept.Keys(rt, root, given.limit)
        self.store = kept.Store(kept.place(rt), blind=given.all)

    def bugs(self):
        """How long the trial of each planted bug is likely to take, by its crate and name: that of
        one in a function is 1."""
        found = {}
        for crate in self.given.crates or self.crates:
            files = sorted(pathlib.Path(f"{self.crates[crate].folder}/planted").glob("*.edit"))
            found[crate] = {it.stem: OWN_CHECK if "file: specs/" in it.read_text("utf-8") else 1
                            for it in files}
        return found

    def parts(self):
        """The parts of what is tried, in their order, by their crates."""
        if self.given.all:
            found = parts.everything(self.bugs())
        else:
            found = parts.chosen(self.landing, shares.named_in(self.root), self.bugs())
        crates = collections.defaultdict(list)
        for it in found:
            crates[it.crate].append(it)
        return crates

    def tasks(self):
        """All that is tried, in its order: the trials themselves first."""
        made = [Task("the trials themselves", self.crates[selftest.CRATE], self.try_itself)]
        for name, found in self.parts().items():
            crate = self.crates[name]
            made.append(Task(name, crate, functools.partial(self.try_crate, crate, found)))
        return made

    def trial(self, crate, rank, folder="out"):
        logs = f"{self.root}/tests/edits/{folder}"
        turn = functools.partial(self.lanes.turn, rank)
        return Trial(planting.with_never(crate), self.kit_rt, logs, self.given, turn, self.room)

    def turns(self, part):
        """How each check of a part gets its turn. A part that has begun no longer waits."""
        may_wait = itertools.chain([part.may_wait], itertools.repeat(False))
        return lambda: self.lanes.turn(part.rank, next(may_wait))

    def try_crate(self, crate, found):
        """Tries these parts of a crate's bugs, each beside a function as it is."""
        trial = self.trial(crate, found[0].rank)
        every = planting.edits_in(f"{crate.folder}/planted", trial.source, self.kit_rt)
        functions = sorted({it for edit in every if edit.stays_inside for it in edit.changed})
        tries = parts.Tries(crate, trial, self.store, self.keys, self.turns)
        if self.given.all:
            with contextlib.suppress(checks.Stopped):
                trial.look_at_all(functions)
        with contextlib.suppress(checks.Ended):
            for it in found:
                tries.run(it, {edit.name: edit for edit in every}, self.beside(functions))
        said = f"{len(tries.kept)} kept, {len(tries.waiting)} wait: {trial.told()}"
        print(f"{crate.name}: {said}", flush=True)
        waiting = [f"{crate.name}/{it}" for it in tries.waiting]
        return Came(len(tries.tried), len(tries.kept), waiting, trial.seconds, tries.complaints())

    def beside(self, functions):
        """The function that is looked at as it is beside a crate's bugs, another one at each
        landing. One in a cycle of calls has no proof beside a bug in that cycle."""
        single = [it for it in functions if not it[1].cycle]
        if self.given.all or not single:
            return ()
        at = self.landing.number % len(single)
        return (single[at],)

    def try_itself(self):
        """Tries the trials themselves, by bugs of which is known what they come to. Only then the
        refusals of this run are kept."""
        trial = self.trial(self.crates[selftest.CRATE], 0, "out/itself")
        complaints = selftest.complaints_of(trial, self.root, self.kit_rt)
        if not complaints:
            self.store.trust()
        return Came(seconds=trial.seconds, complaints=complaints)

    def tell(self, complaints):
        """Tells complaints at once, beside proofs on standard error too."""
        for line in complaints:
            print(f"tests/edits/run: {line}", flush=True)
            if self.lanes.is_beside:
                print(f"tests/edits/run: {line}", file=sys.stderr, flush=True)

    def safely(self, task):
        """What came of a task, whose complaints are told; if it fails, that is one."""
        try:
            lacking = self.libraries.lacking(task.crate)
            came = no_library(task.name, lacking) if lacking else task.call()
        except checks.Ended:
            came = Came()
        except (Exception, SystemExit) as error:  # pylint: disable=broad-exception-caught
            why = f"the trials ended: {type(error).__name__}: {error}"
            came = Came(complaints=[f"{task.name}: {why}"])
        self.tell(came.complaints)
        return came


def in_lanes(gate):
    """Runs all trials side by side, each once its libraries are there, and gives what came of
    each."""
    left, made = gate.tasks(), []
    with concurrent.futures.ThreadPoolExecutor(len(left)) as pool:
        while left or not all(it.done() for it in made):
            is_over = gate.libraries.look()
            ready = [it for it in left if is_over or not gate.libraries.lacking(it.crate)]
            left = [it for it in left if it not in ready]
            made += [pool.submit(gate.safely, it) for it in ready]
            if is_over and gate.lanes.is_beside:
                gate.lanes.take_part()
                kit.stamp_libraries(gate.crates.values(), gate.libraries.begun())
            time.sleep(0.5)
        return [it.result() for it in made]


def no_library(name, lacking):
    """What came of bugs for whose trial these libraries are missing."""
    why = f"not tried: these libraries are not built: {' '.join(lacking)}"
    return Came(complaints=[f"{name}: {why}"])


def told(gate, came, seconds):
    """The line that says what was tried."""
    which = f"landing {gate.landing.number}" if gate.landing else "all"
    known = sum(it.kept for it in came)
    counts = [f"{sum(it.tried for it in came)} planted bugs tried ({which})",
              f"{known} kept from earlier runs on this machine",
              f"{sum(len(it.waiting) for it in came)} wait for their turn"]
    used = f"{sum(it.seconds for it in came):.0f} s of a processor"
    if gate.given.beside:
        used += f", of which {gate.lanes.beside:.0f} beside the proofs"
    return f"{', '.join(counts)}; {used}; {seconds:.0f} s by the clock"


def name_waiting(came):
    """Names each bug that waits for its turn."""
    for name in (it for one in came for it in one.waiting):
        print(f"tests/edits/run: {name}: it waits for its turn", flush=True)


def end_by_signals(lanes):
    """Has a signal that would end this end what runs too, so that nothing is left."""

    def end(number, _):
        lanes.end()
        sys.exit(128 + number)

    for it in (signal.SIGTERM, signal.SIGINT, signal.SIGHUP):
        signal.signal(it, end)


def try_bugs(root, given, room):
    rt = kit.load_rt()
    kit.share_stamps(rt.rtlib)
    os.chdir(root)
    rt.rtlib.guarded()
    gate, begun = Gate(root, rt, given, room), time.monotonic()
    if not gate.store.folder:
        print("tests/edits/run: no folder can keep refusals, so each bug is tried", flush=True)
    end_by_signals(gate.lanes)
    came = in_lanes(gate)
    gate.store.forget()
    name_waiting(came)
    count = sum(len(it.complaints) for it in came)
    print(f"tests/edits/run: {told(gate, came, time.monotonic() - begun)}: "
          f"{f'{count} complaints' if count else 'each one tried is refused'}")
    return 1 if count else 0


def main():
    root, given = sys.argv[1], words_given(sys.argv[2:])
    if given.take_turn:
        print(f"tests/edits/run: this is landing {shares.take_turn(root)}: commit {shares.TURN}")
        return 0
    if not given.all and (fault := shares.fault_of_turn(root)):
        sys.exit(f"tests/edits/run: {fault}: run tests/edits/run --take-turn, and commit the file")
    if given.landing:
        return 0
    with tempfile.TemporaryDirectory(prefix="trials-") as room:
        return try_bugs(root, given, room)


sys.exit(main())
