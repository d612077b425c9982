"""Runs of the program, and what the parts of argo.py share."""
import collections
import os
import resource
import subprocess
import time

SECONDS = 120
# What so many steps take on a quiet machine, in seconds of a processor.
STEPS, QUIET = 1_000_000, 0.107
Ended = collections.namedtuple("Ended", "status output errors")
Trial = collections.namedtuple("Trial", "program examples folder seed is_whole")


class Wrong(Exception):
    """Something is not as it must be."""


def expect(row, found, wanted):
    if found != wanted:
        raise Wrong(f"{row}\n  wanted {wanted!r}\n  and got {found!r}")


class Faults:
    """What is not as it must be, all of it."""

    def __init__(self):
        self.found = []

    def __enter__(self):
        return self

    def __exit__(self, kind, fault, _):
        """Keeps a fault, so that what follows is tried, too."""
        if kind is Wrong:
            self.found.append(str(fault))
        return kind is Wrong

    def end(self):
        if self.found:
            raise Wrong("\n  ".join([f"{len(self.found)} are wrong", *self.found[:20]]))


def run(program, words, given=None, **more):
    """Runs the program with a text in bytes as its input, or none."""
    source = {"input": given} if given is not None else {"stdin": more.pop(
        "stdin", subprocess.DEVNULL)}
    more = {"stdout": subprocess.PIPE, "stderr": subprocess.PIPE} | more
    try:
        done = subprocess.run([program, *words], timeout=SECONDS, check=False, **source, **more)
    except subprocess.TimeoutExpired as late:
        raise Wrong(f"{words}: not done in {SECONDS} seconds") from late
    return Ended(done.returncode, done.stdout, done.stderr)


def timed(program, words, given):
    """The same, and the seconds of a processor that it took."""
    before = resource.getrusage(resource.RUSAGE_CHILDREN)
    ended = run(program, words, given)
    after = resource.getrusage(resource.RUSAGE_CHILDREN)
    return ended, after.ru_utime - before.ru_utime + after.ru_stime - before.ru_stime


def slowness():
    """How many times slower than a quiet one this machine is now; 1 if it is as quick."""
    begun, made = time.process_time(), 0
    for step in range(STEPS):
        made += step * step % 7
    return max(1.0, (time.process_time() - begun) / QUIET)


def write(file, content):
    with open(file, "wb") as made:
        made.write(content if isinstance(content, bytes) else content.encode())
    return file


def read(file):
    with open(file, "rb") as found:
        return found.read()


def folder_in(trial, name):
    """A new folder for a part."""
    made = os.path.join(trial.folder, name)
    os.mkdir(made)
    return made
