"""Migrations that stop in between: parts of migrate.py. Afterwards the file is wholly of the first
schema or wholly of this one, and can be migrated."""
import os
import random
import re
import sys

from asking import migrate, printed, refused, want, want_histories
from book_files import copy, remove
from conversation import limits_writes
from failing import CALLS, has_failed
from first import bytes_of, contents, fail, in_order, make_first, migrated, schema_after
from power_cuts import CALL, TRACED, Trace, write_image

SYNCS = ("fsync", "fdatasync")
KILLED = -9


class Stopped:
    """A file of the first schema that is migrated again and again, and stopped each time."""

    def __init__(self, program, folder, is_logged):
        self.program, self.folder = program, folder
        self.whole, self.file = os.path.join(folder, "whole"), os.path.join(folder, "stopped")
        self.log = os.path.join(folder, "calls")
        make_first(self.whole, "reports", is_logged)
        self.before = contents(self.whole)
        self.rows = self.before[1]
        self.after = schema_after(os.path.join(folder, "made")), migrated(self.rows)
        # What a stop left, and whether that was migrated.
        self.known = {}

    def begin(self):
        """The file is of the first schema again."""
        copy(self.whole, self.file)

    def is_migrated(self, row):
        """Whether the file is wholly of this schema. It fails unless it is wholly of one."""
        schema, rows = contents(self.file)
        if (schema, rows) == self.before:
            return False
        want(f"{row}: what it leaves", (schema, in_order(rows)), self.after)
        return True

    def want_whole(self, row, is_done):
        """After a stop the file is of one schema, of this one if the program was done. Returns
        whether it was migrated."""
        left = tuple(bytes_of(self.file))
        if left not in self.known:
            self.known[left] = self.goes_on(row)
        if is_done and not self.known[left]:
            fail(f"{row}: it said that it was done, and it was not")
        return self.known[left]

    def goes_on(self, row):
        """The file is wholly of one schema, and what it is not yet it becomes, with the same
        history. Returns whether it was migrated."""
        found = self.is_migrated(row)
        want(f"{row}: again", migrate(self.program, self.file),
             printed("current" if found else "migrated"))
        want(f"{row}: whether it is migrated then", self.is_migrated(f"{row}, again"), True)
        want_histories(self.program, self.file, self.rows)
        return found

    def under_strace(self, injected=()):
        """The words that go before those of a program, so that strace writes its calls on the file
        to a log. strace counts the calls of each name alone: these are done to the counted ones."""
        words = ["strace", "-f", "-o", self.log, "-P", self.file, "-P", self.file + "-wal",
                 "-e", "trace=" + ",".join(CALLS)]
        for call, what, when in injected:
            words += ["-e", f"inject={call}:{what}:when={when}"]
        return words

    def calls(self):
        """The names of the calls that migrating needs, one after another."""
        self.begin()
        done = migrate(self.program, self.file, front=self.under_strace())
        want("a traced program", done, printed("migrated"))
        with open(self.log, encoding="ascii", errors="replace") as logged:
            names = re.findall(r"^\d+ +(\w+)\(", logged.read(), re.MULTILINE)
        if "pread64" not in names or "pwrite64" not in names:
            fail(f"migrating needs these calls alone: {names}")
        return names

    def stop(self, row, injected, end):
        """Migrates with this done to its calls. Returns whether it ended in that way, and whether
        the file was migrated."""
        self.begin()
        found = migrate(self.program, self.file, front=self.under_strace(injected))
        is_done = found[1] == b"migrated\n"
        if not (found[0] == KILLED or has_failed(self.log)):
            fail(f"{row}: it was not made")
        if found != printed("migrated") and (found[0], found[2]) != (end[0], end[2]):
            fail(f"{row}: {found}")
        return found != printed("migrated"), self.want_whole(row, is_done)


def try_stops(program, folder):
    """Each call fails, alone and with all after it; the program is killed at each that changes what
    the disk holds, also where the old rows are in the log."""
    for is_logged in (False, True):
        stopped = Stopped(program, folder, is_logged)
        names = stopped.calls()
        counted = [(name, names[:at + 1].count(name)) for at, name in enumerate(names)]
        kills = [[(name, "signal=SIGKILL", count)] for name, count in counted if name != "pread64"]
        try_rows(stopped, "meets a kill", kills, (KILLED, b"", b""))
        if not is_logged:
            alone = [[(name, "error=EIO", count)] for name, count in counted]
            after = [[(call, "error=EIO", f"{names[:at].count(call) + 1}+") for call in CALLS]
                     for at in range(len(names))]
            found = try_rows(stopped, "fails alone", alone, refused("storage"))
            syncs = [at for at, name in enumerate(names) if name in SYNCS]
            want("each sync that fails alone ends it", {found[at][0] for at in syncs}, {True})
            last = max(syncs)
            want("the last sync, as the file is closed, fails alone: whether it ends so, and"
                 " whether it is migrated", found[last], (True, True))
            try_rows(stopped, "fails with all after it", after, refused("storage"))
    remove(stopped.file)
    remove(stopped.whole)


def try_rows(stopped, how, rows, end):
    """One way to stop at each of some calls. At the first one nothing can have been written.
    Returns what was found at each."""
    found = [stopped.stop(f"call {at + 1}, {row[0]}, {how}", row, end)
             for at, row in enumerate(rows)]
    want(f"the first call {how}: whether it ends so, and whether it is migrated", found[0],
         (True, False))
    ended, done = map(sum, zip(*found))
    print(f"migrate: {len(rows)} times a call {how}; the program ended so in {ended}, and the file"
          f" was migrated in {done}", file=sys.stderr)
    return found


def try_full_disk(program, folder):
    """A disk that takes so many bytes of a file, in steps up to what migrating needs."""
    stopped = Stopped(program, folder, False)
    stopped.begin()
    want("a disk with room", migrate(program, stopped.file), printed("migrated"))
    most = max(os.path.getsize(stopped.file + suffix) for suffix in ("", "-wal")
               if os.path.exists(stopped.file + suffix))
    full = 0
    for limit in range(0, most + 4096, 4096):
        row = f"a disk of {limit} bytes"
        stopped.begin()
        found = migrate(program, stopped.file, first=lambda: limits_writes(limit))
        if found not in (refused("storage"), printed("migrated")):
            fail(f"{row}: {found}")
        full += found == refused("storage")
        stopped.want_whole(row, found == printed("migrated"))
    want("whether a disk was full", full > 0, True)
    remove(stopped.file)
    remove(stopped.whole)
    print(f"migrate: the disk was full at {full} places", file=sys.stderr)


def trace(stopped):
    """The lines of strace about a migration, with all bytes that it writes, and the file before."""
    stopped.begin()
    front = ["strace", "-f", "-o", stopped.log, "-xx", "-s", "1000000", "-e",
             "trace=" + ",".join(TRACED)]
    traced = Trace(stopped.file)
    for name, file in traced.files.items():
        if os.path.exists(name):
            with open(name, "rb") as opened:
                file.synced = opened.read()
    want("a traced program", migrate(stopped.program, stopped.file, front=front),
         printed("migrated"))
    with open(stopped.log, encoding="ascii", errors="replace") as logged:
        return traced, logged.readlines()


def try_power_cuts(program, folder):
    """The power fails at each call that changes the file or its log; of what was not synced the
    disk has all, nothing, or any part."""
    chance, seen, calls, done = random.Random(1), set(), 0, 0
    stopped = Stopped(program, folder, False)
    traced, lines = trace(stopped)
    for line in lines:
        call = CALL.match(line)
        if call is None or not traced.take(call[1], call[2], int(call[3])):
            continue
        calls += 1
        for image in traced.images(chance):
            if (key := (*image, traced.told > 0)) not in seen:
                seen.add(key)
                write_image(stopped.file, image)
                done += stopped.want_whole(f"a power cut after call {calls}", traced.told > 0)
    want("power cuts: how much was printed", traced.told, len("migrated\n"))
    want("power cuts: whether some left the file as it was, and some migrated",
         0 < done < len(seen), True)
    remove(stopped.file)
    remove(stopped.whole)
    print(f"migrate: the power was cut at {calls} calls, with {len(seen)} files left, of which"
          f" {done} were migrated", file=sys.stderr)


STRACE_PARTS = (try_stops, try_power_cuts)
