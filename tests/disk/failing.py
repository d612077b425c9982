"""Calls on a file that fail, by strace: a part of disk.py, and of tests/migrate."""
import re

# The calls that read, write or sync a file.
CALLS = ("pread64", "pwrite64", "fsync", "fdatasync", "ftruncate")


def under_strace(file, log, failing=()):
    """The words that go before those of a program, so that strace writes its calls on a file to a
    log. strace counts the calls of each name alone: of those named here, the counted ones fail."""
    words = ["strace", "-f", "-o", log, "-P", file, "-P", file + "-wal",
             "-e", "trace=" + ",".join(CALLS)]
    for call, when in failing:
        words += ["-e", f"inject={call}:error=EIO:when={when}"]
    return words


def calls_in(log):
    """The names of the calls in such a log, one after another."""
    with open(log) as told:
        return re.findall(r"^\d+ +(\w+)\(", told.read(), re.MULTILINE)


def failing_alone(names, at):
    """Of calls with these names, one after another, that at this place fails, from 0."""
    return [(names[at], names[:at + 1].count(names[at]))]


def has_failed(log):
    """Whether the call that was to fail was made."""
    with open(log) as told:
        return "(INJECTED)" in told.read()
