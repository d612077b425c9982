"""Tries the client over desks on files: client.py PROGRAM FOLDER IS_WHOLE SHARE [PART..]. The
comment at the top of tests/client/run says what is tried, and each part what it shows."""
import os
import sys

import argo
import closed
import copies
import fates
import journals
import kills
import limits
import looks
import minutes
import queries
import replies
import reports
import sends
import silence
import storms
import strangers
import unread
import wishes
import words
from turns import Turns, end_by_signals, parts_of
from world import World, allow_descriptors

# What needs a command that CHECK_WITHOUT may name.
PARTS_WITH = {
    "strace": ("try_client_killed", "try_desk_killed", "try_power_cuts", "try_failing_calls",
               "try_taken_path", "try_defaults", "try_hindered", "try_slow_calls"),
    "cc": ("try_late_clock", "try_two_addresses", "try_no_memory_for_a_name"),
}
# How many parts run beside one another: they wait more than they compute.
BESIDE = 6
# The long ones first.
PARTS = parts_of(storms, kills, journals, fates, copies, replies, wishes, closed, reports, sends,
                 queries, silence, strangers, unread, limits, looks, words, minutes, argo)


def fail(why):
    print(f"client: {why}", file=sys.stderr)
    sys.exit(1)


def chosen(wanted):
    unknown = set(wanted) - set(PARTS)
    if unknown:
        fail(f"unknown part: {' '.join(sorted(unknown))}")
    without = os.environ.get("CHECK_WITHOUT", "").split()
    left_out = [part for command in without for part in PARTS_WITH.get(command, ())]
    return [name for name in PARTS if name in (wanted or PARTS) and name not in left_out]


def main():
    program, folder, is_whole, share, *wanted = sys.argv[1:]
    allow_descriptors()

    def world_in(place):
        return World(os.path.realpath(program), place, is_whole == "1", int(share))

    def world_again():
        again = os.path.join(folder, "again")
        os.mkdir(again)
        return world_in(again)

    names = chosen(wanted)
    end_by_signals()
    # A machine that stands still for seconds makes what is about seconds fail.
    failed = Turns("client", PARTS).failing(names, world_in(folder), world_again, BESIDE)
    if failed:
        fail(f"{len(failed)} of {len(names)} parts failed: {' '.join(failed)}")
    print(f"client: {len(names)} parts passed", file=sys.stderr)


main()
