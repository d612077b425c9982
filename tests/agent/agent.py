"""Tries `canary agent`: agent.py --program FILE --folder FOLDER [--seed N] [--all] [PART..]. The
comment at the top of tests/agent/run says what is tried, and each part what it shows."""
import argparse
import multiprocessing
import multiprocessing.connection
import os
import signal
import sys
import time
import traceback

import crowd
import edges
import edits
import lines
import machine
import order
import pauses
import real
import replies
import runs
import silence
import streams
import verdicts
import web
from turns import LATE, PASSED, WRONG, Watch, end_by_signals, is_for_time, parts_of
from world import Late, World, factor_of, running, slowness

# The parts that are left out without these tools.
PARTS_WITH = {"prometheus": ("try_releases", "try_kills"),
              "strace": ("try_health_race", "try_unreadable_file", "try_uneven_file", "try_no_gate",
                         "try_kept_first"),
              "cc": ("try_hindered", "try_hindered_desk", "try_begun", "try_exhausted",
                     "try_crowded", "try_other_provider", "try_beside_slow", "try_unresolved",
                     "try_two_addresses", "try_unresolved_once", "try_hindered_once",
                     "try_abort_late_away", "try_abort_late_others", "try_pauses",
                     "try_said_again")}
# The most seconds of a part, and five times as many with --all.
LONGEST = 180
# How many parts run beside one another: they wait more than they compute.
BESIDE = 12
# How many times as long a part may take on a machine that is busy.
MOST_SLOW = 4
# The exit status of a part's process, by what came of the part.
STATUSES = {PASSED: 0, WRONG: 1, LATE: 2}
# A part has all that was read so far.
CONTEXT = multiprocessing.get_context("fork")
# The parts that run, by their names.
parts = {}
# The long ones first.
PARTS = parts_of(silence, real, crowd, replies, edits, lines, runs, verdicts, web, edges, streams,
                 machine, pauses, order)


def give_up(*_):
    """Ends a part that takes too long; again, if what it waits for goes on waiting."""
    signal.alarm(20)
    raise Late("the part took too long")


def came_of(name, world):
    """What came of a part, and what is said of it."""
    watch, begun = Watch(), time.monotonic()
    try:
        return PASSED, PARTS[name](world) or "passed"
    except Exception as fault:  # pylint: disable=broad-except
        signal.alarm(0)
        came = LATE if is_for_time(fault, watch.has_seen_stop(begun)) else WRONG
        return came, f"FAILED ({came})\n{traceback.format_exc()}"


def try_part(name, world):
    """Tries a part in this process, and ends it."""
    parts.clear()
    signal.signal(signal.SIGALRM, give_up)
    signal.alarm(LONGEST * (5 if world.is_whole else 1) * world.slowness)
    begun = time.monotonic()
    came, told = came_of(name, world)
    signal.alarm(0)
    for process in [*running]:
        process.kill()
    seconds = time.monotonic() - begun
    print(f"agent: {name}: {told} ({seconds:.1f} s)", file=sys.stderr, flush=True)
    os._exit(STATUSES[came])


def try_all(world, names, most):
    """Tries parts, each in a process of its own, so many at a time. The exit status of each."""
    waiting, statuses = [*names], {}
    while waiting or parts:
        while waiting and len(parts) < most:
            name = waiting.pop(0)
            parts[name] = CONTEXT.Process(target=try_part, args=(name, world))
            parts[name].start()
        multiprocessing.connection.wait([part.sentinel for part in parts.values()])
        for name, part in [*parts.items()]:
            if part.exitcode is not None:
                del parts[name]
                statuses[name] = part.exitcode
    return statuses


def end_all(*_):
    """Ends what runs: of the first process the parts, and of a part what it started."""
    for process in [*parts.values()]:
        process.terminate()
    for process in [*parts.values()]:
        process.join()
    for process in [*running]:
        process.kill()
    os._exit(143)


def given():
    words = argparse.ArgumentParser()
    words.add_argument("--program", required=True)
    words.add_argument("--folder", required=True)
    words.add_argument("--seed", type=int, default=0)
    words.add_argument("--all", action="store_true")
    words.add_argument("parts", nargs="*", metavar="PART")
    found = words.parse_args()
    if unknown := set(found.parts) - set(PARTS):
        sys.exit(f"agent: unknown part: {' '.join(sorted(unknown))}")
    return found


def main():
    words = given()
    program = os.path.realpath(words.program)
    factor = factor_of(program)
    world = World(program, words.folder, words.all, words.seed, factor)
    left_out = [name for tool in os.environ.get("CHECK_WITHOUT", "").split()
                for name in PARTS_WITH.get(tool, ())]
    names = [name for name in PARTS if name in (words.parts or PARTS) and name not in left_out]
    end_by_signals(end_all)
    print(f"agent: --seed {words.seed}", file=sys.stderr)
    statuses = try_all(world, names, BESIDE)
    late = [name for name in names if statuses[name] == STATUSES[LATE]]
    if late:
        # A machine that is busy may be too slow for many parts at a time. So what was late is tried
        # once more, alone, in a folder of its own, with the time that such a machine takes.
        again = os.path.join(words.folder, "again")
        os.mkdir(again)
        slow = factor * slowness(MOST_SLOW)
        world = World(program, again, words.all, words.seed, slow)
        print(f"agent: again, with {world.slowness} times the seconds: {' '.join(late)}",
              file=sys.stderr, flush=True)
        statuses |= try_all(world, late, 1)
    failed = [name for name in names if statuses[name] != 0]
    if failed:
        sys.exit(f"agent: --seed {words.seed} repeats it: {' '.join(failed)}")
    print(f"agent: {len(names)} parts passed", file=sys.stderr)


main()
