"""The file of a desk with three services, opened while a call on it fails: a part of disk.py."""
import os
import re
import signal
import subprocess
import sys

from book_files import copy, remove
from conversation import STILL_AT_B, reply_of, without_progress
from disk_story import fail, in_time
from failing import calls_in, failing_alone, has_failed, under_strace
from story_tables import tables_of
from story_words import answer, command, put

SERVICES = ("web", "api", "db")
# What opens a file that is there, and reads all of it.
OPENED = (("history", "web"), ("export", "--caller", "agent", "api"),
          ("serve", "--listen", "127.0.0.1:0"))
RELEASE = (("service v1 setWeight:20 pause background:errs", "Healthy 2 100"),
           ("start v2", "Paused 1 20"))


def messages():
    """Those of a desk on which each service has a release that waits, with a measurement."""
    yield put("ops", 1, command("template errs m,interval=60")), answer("[errs 1]")
    for at, web in enumerate(SERVICES):
        for number, (asked, stands) in enumerate(RELEASE, 2 * at + 2):
            yield put("ops", number, command(asked, web)), answer(f"[{web} {stands}]")
        told = answer(f"[{web} Paused 1 20 | 1 Successful | Running]")
        yield put("agent", at + 1, command("report 1 m:1:0:5", web)), told


def make(program, file, is_killed):
    """Makes such a file, whose desk was killed or has ended."""
    remove(file)
    process = subprocess.Popen([program, *STILL_AT_B, "--db", file], stdin=subprocess.PIPE,
                               stdout=subprocess.PIPE, start_new_session=True)
    with in_time("a desk with three services", process):
        for message, wanted in messages():
            found = reply_of(process, message)
            if found != wanted:
                fail(f"a desk with three services: the reply is {found}")
        if is_killed:
            process.kill()
        process.communicate()


def bytes_of(file):
    with open(file, "rb") as found:
        return found.read()


def told_by_opening(row, front, words):
    """What a program comes to: its exit status, output, and standard error but for how far it was.
    A desk that listens is killed then, and comes to no status."""
    process = subprocess.Popen([*front, *words], stdin=subprocess.DEVNULL, start_new_session=True,
                               stdout=subprocess.PIPE, stderr=subprocess.PIPE)
    with in_time(row, process):
        if words[1] == "serve" and process.stdout.readline():
            os.killpg(process.pid, signal.SIGKILL)
            process.communicate()
            return None
        output, errors = process.communicate()
    return process.returncode, output, without_progress(errors)


class Opening:
    """A program that opens a copy of such a file, under strace."""

    def __init__(self, row, program, folder, words, made):
        self.row, self.made = row, made
        self.file, self.log = os.path.join(folder, "opened"), os.path.join(folder, "calls")
        self.words = [program, words[0], "--db", self.file, *words[1:]]
        copy(made, self.file)
        self.well = told_by_opening(row, under_strace(self.file, self.log), self.words)
        if self.well is not None and (self.well[0], self.well[2]) != (0, b""):
            fail(f"{row}: {self.well}")
        self.names = calls_in(self.log)
        self.tables = tables_of(made)
        self.bytes = bytes_of(made)

    def want_one_opening(self):
        """The file is opened once: its store is asked before there is a connection over it, so that
        its rows are held against the schema once."""
        traced = ["strace", "-f", "-o", self.log, "-P", self.file, "-e", "trace=openat"]
        copy(self.made, self.file)
        if told_by_opening(self.row, traced, self.words) != self.well:
            fail(f"{self.row}: it does otherwise when traced")
        with open(self.log) as told:
            opened = re.findall(r", O_RDWR\|O_NOCTTY\|O_CLOEXEC\) = \d", told.read())
        if len(opened) != 1:
            fail(f"{self.row}: the file is opened {len(opened)} times")

    def fail_call(self, at, is_killed):
        """The call at this place fails: the program says so, writes nothing else, and leaves the
        file as it is; one that a killed desk left may get what its log has."""
        row = f"{self.row}: call {at + 1}, {self.names[at]}, fails"
        copy(self.made, self.file)
        failing = failing_alone(self.names, at)
        found = told_by_opening(row, under_strace(self.file, self.log, failing), self.words)
        if not has_failed(self.log):
            fail(f"{row}: it was not made")
        if found != (1, b"", b"canary: storage\n"):
            fail(f"{row}: {found}")
        if not is_killed and bytes_of(self.file) != self.bytes:
            fail(f"{row}: the file has changed")
        if tables_of(self.file) != self.tables:
            fail(f"{row}: its tables have changed")
        if told_by_opening(row, (), self.words) != self.well:
            fail(f"{row}: the file is not read as before")


def try_openings(program, folder, step, first):
    """Each STEP-th call that reads, writes or syncs a file, from the FIRST on, as a file that is
    there is opened by each program."""
    made, tried = os.path.join(folder, "three"), 0
    for is_killed in (False, True):
        make(program, made, is_killed)
        for words in OPENED:
            row = f"{words[0]} on the file of a desk that {'was killed' if is_killed else 'ended'}"
            opening = Opening(row, program, folder, words, made)
            opening.want_one_opening()
            for at in range(first % step, len(opening.names), step):
                opening.fail_call(at, is_killed)
                tried += 1
    if tried == 0:
        fail("no call is made as a file is opened")
    print(f"disk: {tried} times a call failed as a file was opened, and each program said so",
          file=sys.stderr)
