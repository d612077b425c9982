"""Runs each test of a program of tests with one allocation refused, and once more for each further
one: tests_refused.py PROGRAM FOLDER LIBRARY [TEST..]. LIBRARY is made of refusing.c. The comment at
the top of tests/allocations/in-tests says what has to come of it."""
import os
import re
import struct
import subprocess
import sys

# How many allocations of one test are refused, at most: of one that asks for more, some in between.
MOST = 2000
# How a test ends that could not be set up since memory ran out.
OUT_OF_MEMORY = re.compile(
    r"error: (Memory|AllocError|AllocFailed|.*[Oo]ut ?[Oo]f ?[Mm]emory)\n"
    r"the test failed: its result gives status 1\n")


def names_of(program):
    """The names of the tests."""
    listed = subprocess.run([program, "--list"], capture_output=True, text=True, check=True)
    return re.findall(r"^(\S+): test$", listed.stdout, re.MULTILINE)


def refuse(program, library, counted, name, number):
    """Runs a test. Whether it held, and how many allocations it asked for; it may end since memory
    ran out."""
    environment = {**os.environ, "LD_PRELOAD": library, "REFUSED": str(number), "COUNTED": counted}
    done = subprocess.run([program, name], capture_output=True, text=True, timeout=60,
                          stdin=subprocess.DEVNULL, env=environment)
    with open(counted, "rb") as told:
        asked, = struct.unpack("L", told.read())
    is_held = done.returncode == 0 and "test result: ok" in done.stdout
    ran_out = done.returncode == 101 and OUT_OF_MEMORY.fullmatch(done.stderr) is not None
    if not is_held and not (ran_out and 1 <= number <= asked):
        sys.exit(f"in-tests: {name}, with allocation {number} of {asked} refused: status "
                 f"{done.returncode}: {done.stderr}{done.stdout}")
    return is_held, asked


def main():
    program, folder, library, *wanted = sys.argv[1:]
    counted = os.path.join(folder, "counted")
    names = names_of(program)
    unknown = set(wanted) - set(names)
    if unknown or not names:
        sys.exit(f"in-tests: no such test: {' '.join(sorted(unknown))}")
    for name in wanted or names:
        _, asked = refuse(program, library, counted, name, 0)
        numbers = range(1, asked + 1, asked // MOST + 1)
        held = sum(refuse(program, library, counted, name, number)[0] for number in numbers)
        print(f"in-tests: {name}: {len(numbers)} of {asked} allocations refused; it held in {held}",
              file=sys.stderr)


main()
