"""Programs some of whose standard streams are closed."""
import itertools
import os
import subprocess

from world import Ended, environment, process

SUBSETS = [closed for count in range(4) for closed in itertools.combinations(range(3), count)]


def closing(closed, words):
    """The words that run a program with these streams closed."""
    closes = " ".join(f"{number}>&-" for number in closed)
    return ["sh", "-c", f'exec "$0" "$@" {closes}', *words]


def run_closed(words, folder, closed, source=None):
    """Runs a program in a folder with these streams closed, and has what came of it. Its input is
    a file of the folder, or nothing."""
    with open(folder / source if source else os.devnull, "rb") as stdin, process(
            closing(closed, words), cwd=folder, stdin=stdin, stdout=subprocess.PIPE,
            stderr=subprocess.PIPE, env=environment()) as started:
        output, errors = started.communicate(timeout=60)
        return Ended(started.returncode, output.decode(), errors.decode())
