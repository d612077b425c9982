"""Sends the program a story over files whose disk fails: disk.py PROGRAM FOLDER STEP FIRST
[PART..]. What was answered is kept, what was not is as if it had not been sent, and the program
goes on, or says that it does not. Of the calls that openings make each STEP-th fails, from the
FIRST on. The comment at the top of tests/disk/run says what is tried."""
import os
import shutil
import sqlite3
import sys
from contextlib import closing

from book_files import copy, remove, size
from chosen import chosen, is_without
from disk_story import (
    MESSAGES, REFUSED, Desk, Well, begin_large, fail, history, tell_after, tell_failing, tell_whole,
    told_by, went_on,
)
from failing import CALLS, calls_in, failing_alone, under_strace
from log_copying import try_log_copying, try_log_copying_full, try_log_copying_power
from openings import try_openings
from power_cuts import try_power_cuts

NOBODY = 65534
CUT_FAULTS = [f"canary: {word}\n" for word in (
    "storage", "broken-row", "other-schema", "unknown-service")]
# How many lines the history of the story has after one message of it or another.
LINES_SETTLED = {0, 1, 5, 8, 12, 14, 18, 21}


def try_full_disk(program, folder):
    """A disk that takes so many bytes of a file, in steps up to what the story needs: of a new
    file, and of one with large pages, in which the story outgrows the log's zeros."""
    file = os.path.join(folder, "full")
    made = fill_disk(program, file, remove, "a new file")
    tried = fill_disk(program, file, begin_large, "large pages")
    if tried == 0:
        fail("no message met a full disk")
    print(f"disk: full at {made + tried} places, and in each the desk went on once there was room",
          file=sys.stderr)


def fill_disk(program, file, begin, name):
    """At how many limits, in steps, a message met a full disk."""
    well = Well(program, file, begin)
    tried = 0
    for limit in range(0, well.most + 4096, 4096):
        row = f"a disk of {limit} bytes, {name}"
        begin(file)
        desk = Desk(program, file, row, most=limit)
        counts = tell_failing(desk, well, is_full=True)
        if REFUSED in desk.replies:
            tried += 1
            if not went_on(desk, counts):
                fail(f"{row}: once there is room, the reply to message {min(counts) + 1} is 503")
        desk.want_end()
        tell_after(program, file, row, well, counts)
    return tried


def calls_of_story(program, folder):
    """The names of the calls that the story needs, one after another."""
    file, log = os.path.join(folder, "traced"), os.path.join(folder, "calls")
    tell_whole(Desk(program, file, "a traced desk", front=under_strace(file, log)))
    names = calls_in(log)
    if not names:
        fail("the story needs no calls")
    return names


def fail_calls(program, folder, well, row, failing):
    """Tells the story while such calls fail. Returns whether the desk answered 503, whether it went
    on, and whether it had settled what it answered 503 to the end."""
    file, log = os.path.join(folder, "failing"), os.path.join(folder, "calls")
    remove(file)
    desk = Desk(program, file, row, front=under_strace(file, log, failing), log=log)
    counts = tell_failing(desk, well)
    desk.want_end()
    if desk.failed_calls() == 0:
        fail(f"{row}: it was not made")
    settled = tell_after(program, file, row, well, counts)
    return REFUSED in desk.replies, went_on(desk, counts), settled > min(counts)


def try_failing_calls(program, folder):
    """Each call in turn that reads, writes or syncs a file fails, alone, and with all after it."""
    well = Well(program, os.path.join(folder, "failing"))
    names = calls_of_story(program, folder)
    alone = [failing_alone(names, at) for at in range(len(names))]
    after = [[(call, f"{names[:at].count(call) + 1}+") for call in CALLS]
             for at in range(len(names))]
    for how, rows in (("alone", alone), ("with all after it", after)):
        found = [fail_calls(program, folder, well, f"call {at + 1}, {names[at]}, fails {how}", row)
                 for at, row in enumerate(rows)]
        refused, on, settled = map(sum, zip(*found))
        if how == "alone" and on == 0:
            fail("no desk goes on after a call that fails alone")
        print(f"disk: {len(rows)} times a call failed {how}; the desk answered 503 in {refused}, of"
              f" which it went on in {on}, and had settled the message in {settled}",
              file=sys.stderr)


def history_of_cut(program, cut, row, lines):
    """How many lines `history` prints of a file that is cut short, a prefix of these lines; None if
    it ends with a fault."""
    status, found, told = history(program, cut, row)
    is_fault = status == 1 and found == "" and told in CUT_FAULTS
    if not is_fault and not (status == 0 and lines.startswith(found) and told == ""):
        fail(f"{row}: status {status}, {told!r}, {found!r}")
    return None if is_fault else found.count("\n")


def history_by_sqlite(file, folder):
    """How many lines of history a file and its log have, as sqlite3 reads a copy of them."""
    seen = os.path.join(folder, "seen")
    copy(file, seen)
    with closing(sqlite3.connect(seen)) as opened:
        try:
            return opened.execute("SELECT count(*) FROM history").fetchone()[0]
        except sqlite3.Error:
            return 0


def cut_at(file, cut, end, place):
    """A copy of a file and its log, one of which, by the end of its name, is cut at a place."""
    copy(file, cut)
    os.truncate(cut + end, place)


def try_cut_file(program, file, cut, lines):
    """At how many places a file that a desk has closed, or its log, was cut."""
    tried = 0
    for end in ("", "-wal"):
        whole = size(file + end)
        for place in [*range(0, whole, 311), *range(max(whole - 3, 0), whole)]:
            row = f"cut{end} at {place}"
            cut_at(file, cut, end, place)
            found = history_of_cut(program, cut, row, lines)
            if end == "" and place > 0 and found not in (None, lines.count("\n")):
                fail(f"{row}: rows are missing, and no fault is printed")
            tried += 1
    return tried


def try_cut_log(program, file, cut, lines, folder):
    """At how many places the log of a desk that had not ended was cut: `history` prints what
    sqlite3 finds, which is what was settled after some message, after each of them at one place."""
    with open(file + "-wal", "rb") as log:
        written = len(log.read().rstrip(b"\0"))
    counts = set()
    places = [*range(0, written, 311), *range(written - 3, written + 1), size(file + "-wal")]
    for place in places:
        cut_at(file, cut, "-wal", place)
        wanted = history_by_sqlite(cut, folder)
        found = history_of_cut(program, cut, f"a log cut at {place}", lines) or 0
        if found != wanted:
            fail(f"a log cut at {place}: {found} lines, and sqlite3 finds {wanted}")
        counts.add(found)
    if counts != LINES_SETTLED:
        fail(f"a log that is cut short: only {sorted(counts)} lines were found")
    return len(places)


def try_cut_files(program, folder):
    """A file or its log that is cut short: `history` prints a prefix of what was settled, and
    nothing at all if the file lacks a page."""
    file, cut, going = (os.path.join(folder, name) for name in ("whole", "cut", "going"))
    remove(file)
    desk = Desk(program, file, "a whole file")
    for at in range(len(MESSAGES)):
        desk.want(at, "before a cut,")
    copy(file, going)
    desk.want_end()
    status, lines, _ = history(program, file, "a whole file")
    if status != 0 or lines.count("\n") != max(LINES_SETTLED):
        fail(f"the whole file has another history: {lines!r}")
    tried = (try_cut_file(program, file, cut, lines),
             try_cut_log(program, going, cut, lines, folder))
    print(f"disk: cut short at {tried[0]} places, and a log in use at {tried[1]}", file=sys.stderr)


def want_untouched(program, file, words, row):
    """Each program on this file ends with this fault, and leaves it as it is."""
    with open(file, "rb") as before:
        bytes_before = before.read()
    for asked in (("history", "--db", file, "web"), ("status", "--db", file),
                  ("serve", "--listen", "127.0.0.1:0", "--db", file),
                  ("export", "--db", file, "--caller", "a", "web")):
        status, found, told = told_by(row, program, *asked)
        if (status, found, told) not in [(1, "", f"canary: {word}\n") for word in words]:
            fail(f"{row}: {asked[0]}: status {status}, {told!r}, {found!r}")
    with open(file, "rb") as after:
        if after.read() != bytes_before:
            fail(f"{row}: the file was changed")


def try_foreign_files(program, folder):
    """Files that another program made."""
    text = os.path.join(folder, "text")
    with open(text, "w") as file:
        file.write("no database\n" * 1000)
    want_untouched(program, text, ["storage"], "a text")
    for name, schema in (("songs", "CREATE TABLE song (title TEXT)"),
                         ("odd", "CREATE TABLE caller (k TEXT PRIMARY KEY) WITHOUT ROWID"),
                         ("views", "CREATE VIEW caller AS SELECT 1")):
        path = os.path.join(folder, name)
        with sqlite3.connect(path) as other:
            other.execute(schema)
        other.close()
        want_untouched(program, path, ["other-schema"], f"another program's database: {name}")
    # byte 20 of the header says how many bytes of each page are reserved
    with open(path, "r+b") as file:
        file.seek(20)
        file.write(b"\x08")
    want_untouched(program, path, ["storage"], "a database whose pages end in eight reserved bytes")
    print("disk: files of other programs are left alone", file=sys.stderr)


def try_read_only(program, folder):
    """A file that may not be written, in a folder that may not be either."""
    row = "a file that may not be written"
    place = os.path.join(folder, "read-only")
    os.mkdir(place)
    desk, file = os.path.join(place, "canary"), os.path.join(place, "desk")
    shutil.copy(program, desk)
    tell_whole(Desk(program, file, "a file"))
    os.chmod(desk, 0o755)
    for name in os.listdir(place):
        if name != "canary":
            os.chmod(os.path.join(place, name), 0o444)
    os.chmod(place, 0o555)
    os.chmod(folder, 0o755)
    with open(file, "rb") as before:
        bytes_before = before.read()
    nobody = (lambda: os.setuid(NOBODY)) if os.getuid() == 0 else None
    found = told_by(row, desk, "history", "--db", file, "web", first=nobody)
    if found != (1, "", "canary: storage\n"):
        fail(f"{row}: {found}")
    with open(file, "rb") as after:
        if after.read() != bytes_before:
            fail(f"{row} was changed")
    os.chmod(place, 0o755)
    print("disk: of a file that may not be written the fault is storage", file=sys.stderr)


COPYING_PARTS = (try_log_copying, try_log_copying_full, try_log_copying_power)
SHARED_PARTS = (try_openings, *COPYING_PARTS)
STRACE_PARTS = (*SHARED_PARTS, try_failing_calls, try_power_cuts)
PARTS = (try_foreign_files, try_read_only, try_cut_files, try_full_disk, *STRACE_PARTS)


def main():
    program, folder, step, first, *wanted = sys.argv[1:]
    left_out = STRACE_PARTS if is_without("strace") else ()
    for part in chosen("disk", PARTS, wanted, left_out):
        if part in SHARED_PARTS:
            part(program, folder, int(step), int(first))
        else:
            part(program, folder)


main()
