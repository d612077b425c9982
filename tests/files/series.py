"""Copies by time: series.py [--at-calls] PROGRAM FOLDER [PART..]. `backup --every` makes whole
copies in a folder, named by the moment of UTC at which each begins; `--keep` removes the oldest of
these, and nothing else, whatever stands beside them. docs/OPERATIONS.md has the rules ("Copies by
time"). With --at-calls strace kills or fails the program at single calls."""
import calendar
import http.client
import os
import re
import shutil
import signal
import socket
import subprocess
import sys
import threading
import time
from contextlib import contextmanager

from book_files import copy
from chosen import chosen
from places import (
    DONE, FILE_FAULT, SECONDS, folder_in, make_desk, make_killed_desk, pair, told, wait_until,
    want_started, write)
from story_words import B, Wrong, expect, messages_of_story

COPY = re.compile(r"desk-(\d{8}T\d{6})Z\.db")
OLD = [f"desk-2020010{day}T000000Z.db" for day in range(1, 6)]
# Far from UTC, so that a name by the local time is another.
ELSEWHERE = dict(os.environ, TZ="XYZ-9:30")


def copies_in(folder):
    """The names of the copies in a folder, the oldest first."""
    return sorted(name for name in os.listdir(folder) if COPY.fullmatch(name))


def moment_of(name):
    return calendar.timegm(time.strptime(COPY.fullmatch(name)[1], "%Y%m%dT%H%M%S"))


def name_of(moment):
    return time.strftime("desk-%Y%m%dT%H%M%SZ.db", time.gmtime(moment))


def words_of(program, file, out, every, keep=None):
    kept = [] if keep is None else ["--keep", str(keep)]
    return [program, "backup", "--db", file, "--every", str(every), *kept, out]


@contextmanager
def copying(words, **more):
    """A program that copies until the block ends. It has to run until then, and to say nothing."""
    with subprocess.Popen(words, stdin=subprocess.DEVNULL, stdout=subprocess.PIPE,
                          stderr=subprocess.PIPE, env=ELSEWHERE, **more) as process:
        try:
            yield process
            expect(f"{words}: its end", process.poll(), None)
        finally:
            process.kill()
            said = process.communicate()
    expect(f"{words}: what it said", said, (b"", b""))


def want_whole(row, program, folder, name, place):
    """A copy opens, from a folder to which it is copied, and has the release that was begun."""
    moved = os.path.join(place, "moved.db")
    copy(os.path.join(folder, name), moved)
    want_started(f"{row}: {name}", program, moved)
    for end in ("", "-wal"):
        os.remove(moved + end)


def body_of(number):
    entry = f'{{"metric":"m","ordinal":{number},"taken":{B + 60 * number},"result":{number % 7}}}'
    return f'{{"report":{{"service":"web","run":1,"entries":[{entry}]}}}}'


def row_of(number):
    return f"agent,{number},web,1,m,{number},{B + 60 * number},{number % 7},"


class Reports(threading.Thread):
    """Reports to a desk that listens, one after another, and when each was answered."""

    def __init__(self, port):
        super().__init__(daemon=True)
        self.link = http.client.HTTPConnection("127.0.0.1", port, timeout=SECONDS)
        self.answered, self.fault, self.is_over = [], None, False

    def run(self):
        try:
            while not self.is_over:
                number = len(self.answered) + 1
                self.link.request("PUT", f"/callers/agent/requests/{number}", body_of(number))
                reply = self.link.getresponse()
                said = reply.status, reply.read()[:12]
                expect(f"report {number}", said, (200, b'{"code":"ok"'))
                self.answered.append(time.time())
        except (Wrong, OSError, http.client.HTTPException) as fault:
            self.fault = fault

    def end(self):
        self.is_over = True
        self.join()
        if self.fault:
            raise Wrong(f"reports: {self.fault!r}")


def want_prefix(program, made, answered):
    """A copy is judged, and has the first reports, among them those that were answered before the
    second in which it began."""
    began = moment_of(os.path.basename(made))
    expect(f"{made}: judged", told([program, "history", "--db", made, "web"])[::2], (0, b""))
    status, rows, said = told([program, "export", "--db", made, "--caller", "agent", "web"])
    expect(f"{made}: exported", (status, said), (0, b""))
    found = rows.decode().splitlines()[1:]
    expect(f"{made}: its rows", found, [row_of(1 + at) for at in range(len(found))])
    least = sum(moment < began for moment in answered)
    if len(found) < least:
        raise Wrong(f"{made}: {len(found)} reports, of {least} that were answered before")


def try_while_served(program, folder):
    """Copies that are made each second while a desk serves and settles reports."""
    place = folder_in(folder, "served")
    file, out = os.path.join(place, "desk.db"), folder_in(place, "out")
    desk_words = [program, "pipe", "--at", str(B), "--step", "0", "--db", file]
    subprocess.run(desk_words, input=b"".join(asked for asked, _ in messages_of_story()[:3]),
                   capture_output=True, timeout=SECONDS, check=True)
    words = [program, "serve", "--listen", "127.0.0.1:0", "--db", file]
    with subprocess.Popen(words, stdout=subprocess.PIPE, stderr=subprocess.DEVNULL) as desk:
        try:
            reports = Reports(int(re.search(rb":(\d+)\n", desk.stdout.readline())[1]))
            reports.start()
            first = int(time.time())
            with copying(words_of(program, file, out, 1)):
                wait_until("three copies", lambda: len(copies_in(out)) >= 3)
            last = time.time()
            reports.end()
        finally:
            desk.kill()
    for name in copies_in(out):
        if not first <= moment_of(name) <= last:
            raise Wrong(f"{name}: begun between {first} and {last}")
        want_prefix(program, os.path.join(out, name), reports.answered)
    print(f"files: {len(copies_in(out))} copies by time, of {len(reports.answered)} reports",
          file=sys.stderr)


def try_kept(program, folder):
    """With `--keep 2` two copies are left, those that were made last; without it all are."""
    place = folder_in(folder, "kept")
    file, out = os.path.join(place, "desk.db"), folder_in(place, "out")
    make_killed_desk(program, file)
    for name in OLD:
        copy(file, os.path.join(out, name))
    made = set()
    with copying(words_of(program, file, out, 1, 2)):
        def has_made():
            made.update(name for name in copies_in(out) if name not in OLD)
            return len(made) >= 4
        wait_until("four copies", has_made)
    remove_parts(out)
    make_one(program, file, out, 2)
    made.update(name for name in copies_in(out) if name not in OLD)
    left = sorted(made)[-2:]
    expect("two are kept", sorted(os.listdir(out)), sorted(left + [name + "-wal" for name in left]))
    for name in left:
        want_whole("two are kept", program, out, name, place)
    with copying(words_of(program, file, out, 1)):
        wait_until("all are kept", lambda: len(copies_in(out)) >= 4)


def try_one_kept(program, folder):
    """With `--keep 1` the copy that is new is left; with more than there are, all are."""
    place = folder_in(folder, "one")
    file = os.path.join(place, "desk.db")
    make_killed_desk(program, file)
    for keep, left in ((1, []), (3, OLD[3:]), (6, OLD), (7, OLD), (10_000, OLD)):
        out = folder_in(place, f"out-{keep}")
        for name in OLD:
            copy(file, os.path.join(out, name))
        make_one(program, file, out, keep)
        found = copies_in(out)
        expect(f"{keep} kept", [name for name in found if name in OLD], left)
        expect(f"{keep} kept: one is new", len(found), len(left) + 1)
        expect(f"{keep} kept: logs", sum(name.endswith("-wal") for name in os.listdir(out)),
               len(left) + 1)


def make_one(program, file, out, keep):
    """One copy more, and what comes of the old ones."""
    before = set(copies_in(out))
    with copying(words_of(program, file, out, 1000, keep)) as process:
        wait_until("a copy", lambda: is_over(process) or set(copies_in(out)) - before)
        wait_until("the copy is done", lambda: is_over(process) or is_asleep(process.pid))


def is_over(process):
    return process.poll() is not None


def is_asleep(process):
    """Whether a program sleeps, for a fifth of a second."""
    states = set()
    for _ in range(20):
        time.sleep(0.01)
        with open(f"/proc/{process}/stat", encoding="ascii") as told_state:
            states.add(told_state.read().rpartition(")")[2].split()[0])
    return states == {"S"}


def strangers_in(program, out, file):
    """What is in a folder of copies and is no copy, by its name or by what it is."""
    for name in ("desk-1.db", "desk-20200101T000000Z.db.bak", "xdesk-20200101T000000Z.db",
                 "desk-20200101T00000AZ.db", "Desk-20200101T000000Z.db", "desk-20200101T000000.db",
                 "desk-20200101 000000Z.db", "desk-20200101T000000Z.db-wal-wal",
                 "desk-20200101T000000Z.db\n", "desk-+2020101T000000Z.db", "desk-2020-01-01.db",
                 "desk-20200101T000000Z.dbx", "desk-20200101T0000000Z.db", "", "-wal", "\u0663.db"):
        if name:
            write(os.path.join(out, name), "mine")
    write(os.path.join(os.fsencode(out), b"desk-20200101T00000\xffZ.db"), "mine")
    os.mkdir(os.path.join(out, "desk-20190101T000000Z.db"))
    os.mkfifo(os.path.join(out, "desk-20190102T000000Z.db"))
    os.symlink(file, os.path.join(out, "desk-20190103T000000Z.db"))
    os.symlink("nowhere", os.path.join(out, "desk-20190104T000000Z.db"))
    os.symlink(OLD[0], os.path.join(out, "desk-20190105T000000Z.db"))
    with socket.socket(socket.AF_UNIX) as made:
        made.bind(os.path.join(out, "desk-20190106T000000Z.db"))
    copy(file, os.path.join(out, "desk-20190107T000000Z.db"))
    os.remove(os.path.join(out, "desk-20190107T000000Z.db-wal"))
    os.mkdir(os.path.join(out, "desk-20190107T000000Z.db-wal"))
    copy(file, os.path.join(out, "desk-20190108T000000Z.db"))
    os.remove(os.path.join(out, "desk-20190108T000000Z.db-wal"))
    os.symlink(file + "-wal", os.path.join(out, "desk-20190108T000000Z.db-wal"))
    os.symlink(file + "-wal", os.path.join(out, "desk-20190109T000000Z.db-wal"))
    os.mkdir(os.path.join(out, "desk-20190110T000000Z.db-wal"))
    # The log of a copy that another process makes: it has a second name until the copy has its own.
    write(os.path.join(out, "desk-20190111T000000Z.db-wal"), "mine")
    os.link(os.path.join(out, "desk-20190111T000000Z.db-wal"), os.path.join(out, "part"))
    if os.geteuid() == 0:
        copy(file, os.path.join(out, "desk-20190112T000000Z.db"))
        os.chown(os.path.join(out, "desk-20190112T000000Z.db"), 1, 1)
    # A copy of a moment that has not come.
    copy(file, os.path.join(out, "desk-20991231T235959Z.db"))
    write(os.path.join(out, "desk-20991231T235958Z.db-wal"), "mine")


def seen_in(folder):
    """What stands in a folder, with its node."""
    return {name: os.lstat(os.path.join(os.fsencode(folder), name)).st_ino
            for name in os.listdir(os.fsencode(folder))}


def try_strangers(program, folder):
    """What is no copy is left alone, and so is a copy of a moment that has not come; none counts
    as a copy that is kept."""
    place = folder_in(folder, "beside")
    file, out = os.path.join(place, "desk.db"), folder_in(place, "out")
    make_killed_desk(program, file)
    strangers_in(program, out, file)
    before, files = seen_in(out), pair(file)
    for name in OLD:
        copy(file, os.path.join(out, name))
    # Logs that are alone: what a removal leaves that is killed, and one that is later than a copy.
    write(os.path.join(out, "desk-20191231T235959Z.db-wal"), "left")
    write(os.path.join(out, "desk-20200105T000001Z.db-wal"), "mine")
    make_one(program, file, out, 2)
    left = set(os.listdir(os.fsencode(out))) - set(before)
    new = [name for name in copies_in(out) if "desk-2021" < name < "desk-2099"]
    wanted = [OLD[4], OLD[4] + "-wal", "desk-20200105T000001Z.db-wal", new[0], new[0] + "-wal"]
    expect("what is left", sorted(left), sorted(map(os.fsencode, wanted)))
    found = seen_in(out)
    expect("what is no copy", {name: found.get(name) for name in before}, before)
    expect("the desk's files", pair(file), files)


def try_own_files(program, folder):
    """The files of the desk stay, if they have the names of a copy, or other names of that kind."""
    place = folder_in(folder, "own")
    file = os.path.join(place, OLD[0])
    make_killed_desk(program, file)
    os.link(file, os.path.join(place, OLD[1]))
    os.link(file + "-wal", os.path.join(place, OLD[1] + "-wal"))
    copy(file, os.path.join(place, OLD[2]))
    before = pair(file)
    make_one(program, file, place, 1)
    expect("the desk's files", pair(file), before)
    expect("what is left", copies_in(place)[:-1], OLD[:2])


def try_places(program, folder):
    """FOLDER has to be a folder, or a link to one; a path of a file, or of nothing, is refused."""
    place = folder_in(folder, "where")
    file = os.path.join(place, "desk.db")
    make_desk(program, file)
    write(os.path.join(place, "text"), "mine")
    os.mkfifo(os.path.join(place, "fifo"))
    os.symlink("text", os.path.join(place, "link"))
    os.symlink("nowhere", os.path.join(place, "broken"))
    write(os.path.join(place, "other"), "a text, and no database")
    folder_in(place, "out")
    os.symlink("out", os.path.join(place, "around"))
    before = seen_in(place)
    for name in ("missing", "text", "fifo", "link", "broken", "missing/deep", "text/deep", ""):
        expect(f"backup to {name}", told(words_of(program, "desk.db", name, 1, 2), cwd=place),
               FILE_FAULT)
    for name, line in (("none", b"file"), ("other", b"other-schema")):
        expect(f"backup of {name}", told(words_of(program, name, "out", 1), cwd=place),
               (1, b"", b"canary: %b\n" % line))
    expect("what is there", seen_in(place), before)
    expect("nothing is made", os.listdir(os.path.join(place, "out")), [])
    for name in ("around", "out/", "./out"):
        out = os.path.join(place, "out")
        remove_parts(out)
        for end in os.listdir(out):
            os.remove(os.path.join(out, end))
        with copying(words_of(program, "desk.db", name, 1000), cwd=place):
            wait_until(f"a copy in {name}", lambda: copies_in(out))


def try_taken_names(program, folder):
    """A clock that was set back: the names of the next seconds are taken, by a copy, by a log, by a
    link. The copy is begun once a name is free; nothing is written over, and nothing that is later
    is removed."""
    place = folder_in(folder, "taken")
    file, out = os.path.join(place, "desk.db"), folder_in(place, "out")
    make_killed_desk(program, file)
    first = int(time.time())
    for moment in range(first - 1, first + 4):
        write(os.path.join(out, name_of(moment)), "mine")
    write(os.path.join(out, name_of(first + 4) + "-wal"), "mine")
    os.symlink("nowhere", os.path.join(out, name_of(first + 5)))
    write(os.path.join(out, name_of(first + 1000)), "mine")
    before = seen_in(out)

    def made():
        free = range(first + 6, first + 1000)
        return [name for name in copies_in(out) if moment_of(name) in free]

    make_one(program, file, out, 9)
    found = seen_in(out)
    expect("what was there", {name: found.get(name) for name in before}, before)
    expect("one copy, of the next free second", len(made()), 1)
    want_whole("a copy of the next free second", program, out, made()[0], place)


def try_two_at_once(program, folder):
    """Two that copy to one folder at once both go on, each copy under a name of its own."""
    place = folder_in(folder, "two")
    file, out = os.path.join(place, "desk.db"), folder_in(place, "out")
    make_killed_desk(program, file)
    with copying(words_of(program, file, out, 1)), copying(words_of(program, file, out, 1)):
        wait_until("five copies", lambda: len(copies_in(out)) >= 5)
    for name in copies_in(out)[:3]:
        want_whole("two at once", program, out, name, place)


def remove_parts(out):
    """Removes the folders that a killed backup leaves."""
    for name in os.listdir(out):
        if ".part-" in name:
            shutil.rmtree(os.path.join(out, name))


def want_whole_copies(row, program, out, place):
    """Each copy has its log, and opens once the folder of a killed backup is removed."""
    remove_parts(out)
    for name in copies_in(out):
        expect(f"{row}: the log of {name}", os.path.exists(os.path.join(out, name) + "-wal"), True)
        want_whole(row, program, out, name, place)


def try_killed(program, folder):
    """Kills at many moments, of a copy and of the removal of old ones: under the names of copies
    there are whole ones alone, never fewer than are kept, and the next copies remove the rest."""
    place = folder_in(folder, "killed-series")
    file, out = os.path.join(place, "desk.db"), folder_in(place, "out")
    make_killed_desk(program, file)
    for name in OLD:
        copy(file, os.path.join(out, name))
    began = time.monotonic()
    expect("a backup", told([program, "backup", "--db", file, os.path.join(place, "copy")]), DONE)
    takes = time.monotonic() - began
    for times in range(40):
        for name in OLD[times % 3:3]:
            copy(file, os.path.join(out, name))
        process = subprocess.Popen(words_of(program, file, out, 1, 3), stdin=subprocess.DEVNULL,
                                   stdout=subprocess.DEVNULL, stderr=subprocess.PIPE)
        time.sleep(takes * times / 30)
        process.send_signal(signal.SIGKILL)
        errors = process.communicate(timeout=SECONDS)[1]
        expect(f"killed, {times}", (process.returncode, errors), (-signal.SIGKILL, b""))
        want_whole_copies(f"killed, {times}", program, out, place)
        if len(copies_in(out)) < 3:
            raise Wrong(f"killed, {times}: {copies_in(out)}")
    make_one(program, file, out, 3)
    expect("after kills: copies", len(copies_in(out)), 3)


# ---- at single calls

def at_call(call, fault, when, log):
    """The words before those of a program, so that strace injects a fault at a call."""
    return ["strace", "-f", "-o", log, "-e", f"trace={call}",
            "-e", f"inject={call}:{fault}:when={when}"]


def with_old(program, file, place, name):
    """A folder with three old copies."""
    out = folder_in(place, name)
    for old in OLD[:3]:
        copy(file, os.path.join(out, old))
    return out


def try_killed_at_calls(program, folder):
    """Killed at each call that syncs, names or removes something: no database is left without its
    log, and the next copy removes what is left."""
    place = folder_in(folder, "killed-at-calls")
    file, log = os.path.join(place, "desk.db"), os.path.join(place, "log")
    make_killed_desk(program, file)
    calls = [("fsync", 5), ("mkdir", 1), ("link", 2), ("rmdir", 1), ("unlink", 8)]
    for call, when in [(call, 1 + at) for call, most in calls for at in range(most)]:
        row = f"killed at {call} {when}"
        out = with_old(program, file, place, f"out-{call}-{when}")
        words = at_call(call, "signal=KILL", when, log) + words_of(program, file, out, 1000, 1)
        status, _, _ = told(words)
        expect(f"{row}: is killed", status not in (0, 1), True)
        want_whole_copies(row, program, out, place)
        if not copies_in(out):
            raise Wrong(f"{row}: no copy is left")
        make_one(program, file, out, 1)
        wanted = copies_in(out)[-1:]
        expect(f"{row}: after the next", sorted(os.listdir(out)), [*wanted, wanted[0] + "-wal"])


def try_failing_removals(program, folder):
    """A removal that fails: all others are done, and the program ends with its line, with the new
    copy made. One that finds nothing is no fault."""
    place = folder_in(folder, "failing-removals")
    file, log = os.path.join(place, "desk.db"), os.path.join(place, "log")
    make_killed_desk(program, file)
    for when, left in ((3, [OLD[0], OLD[0] + "-wal"]), (4, [OLD[1], OLD[1] + "-wal"])):
        row = f"removal {when} fails"
        out = with_old(program, file, place, f"out-{when}")
        words = at_call("unlink", "error=EACCES", when, log)
        expect(row, told(words + words_of(program, file, out, 1000, 1)), FILE_FAULT)
        found = [name for name in sorted(os.listdir(out)) if name[:9] == "desk-2020"]
        expect(f"{row}: what is left", found, left)
        expect(f"{row}: the new copy", len(os.listdir(out)), len(left) + 2)
    out = with_old(program, file, place, "out-log")
    words = at_call("unlink", "error=EACCES", 6, log) + words_of(program, file, out, 1000, 1)
    expect("the removal of a log fails", told(words), FILE_FAULT)
    expect("the removal of a log fails: what is left", len(os.listdir(out)), 3)
    make_one(program, file, out, 1)
    expect("the removal of a log, again", len(os.listdir(out)), 2)


PARTS = (try_while_served, try_kept, try_one_kept, try_strangers, try_own_files, try_places,
         try_taken_names, try_two_at_once, try_killed)
AT_CALLS = (try_killed_at_calls, try_failing_removals)


def main():
    words = sys.argv[1:]
    parts = AT_CALLS if words[0] == "--at-calls" else PARTS
    program, folder, *names = words[words[0] == "--at-calls":]
    try:
        for part in chosen("files", parts, names):
            part(os.path.realpath(program), folder)
    except (Wrong, subprocess.TimeoutExpired) as fault:
        sys.exit(f"files: {fault}")


main()
