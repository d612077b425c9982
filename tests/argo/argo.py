"""Tries `canary argo`: argo.py --program FILE --examples FOLDER --folder FOLDER [--seed N] [--all]
[--selftest] [PART..]. The comment at the top of tests/argo/run says what is tried."""
import argparse
import os
import sys
import time
import traceback

import attempts
import examples
import hostile
import inputs
import members
import outputs
import pairs
import told
from asked import Trial, Wrong
from turns import parts_of

STRACE_PARTS = ("try_empty_name", "try_full_disk")
MODULES = (examples, told, attempts, members, outputs, inputs, hostile, pairs)


PARTS = parts_of(*MODULES)


def try_part(name, trial):
    """Whether a part passes."""
    begun = time.monotonic()
    try:
        told = PARTS[name](trial)
    except Wrong as why:
        print(f"argo: {name} FAILED: {why}", file=sys.stderr)
        return False
    except Exception:  # pylint: disable=broad-except
        print(f"argo: {name} FAILED\n{traceback.format_exc()}", file=sys.stderr)
        return False
    seconds = time.monotonic() - begun
    print(f"argo: {name}: {told} ({seconds:.1f} s)", file=sys.stderr, flush=True)
    return True


def main():
    words = argparse.ArgumentParser()
    words.add_argument("--program", required=True)
    words.add_argument("--examples", required=True)
    words.add_argument("--folder", required=True)
    words.add_argument("--seed", type=int, default=0)
    words.add_argument("--all", action="store_true")
    words.add_argument("--selftest", action="store_true")
    words.add_argument("parts", nargs="*", metavar="PART")
    given = words.parse_args()
    if unknown := set(given.parts) - set(PARTS):
        sys.exit(f"argo: unknown part: {' '.join(sorted(unknown))}")
    trial = Trial(*map(os.path.realpath, (given.program, given.examples, given.folder)),
                  given.seed, given.all)
    print(f"argo: --seed {given.seed}", file=sys.stderr)
    names = given.parts or (["try_planted"] if given.selftest else PARTS)
    if "strace" in os.environ.get("CHECK_WITHOUT", "").split():
        names = [name for name in names if name not in STRACE_PARTS]
    failed = [name for name in names if not try_part(name, trial)]
    if failed:
        print(f"argo: --seed {given.seed} repeats it: {' '.join(failed)}", file=sys.stderr)
    sys.exit(1 if failed else 0)


if __name__ == "__main__":
    main()
