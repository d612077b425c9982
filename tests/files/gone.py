"""Files of a desk that are gone, or replaced: gone.py PROGRAM FOLDER [PART..]. A log whose file is
missing or empty; FIFOs, devices, folders and sockets under the names of both; and a file that is
moved, removed, replaced or linked while a desk serves it. No clause says what stands under a
name."""
import os
import re
import shutil
import signal
import socket
import subprocess
import sys
import time
from concurrent.futures import ThreadPoolExecutor

from chosen import chosen
from conversation import STILL_AT_B, reply_of, without_progress
from story_words import Wrong, answer, command, expect, put

# Seconds in which a program that refuses a name has ended; a desk looks once a second.
SECONDS, LOOKED = 20, 2.5
# For a second it answers 503. A test whose clients come so far apart may miss that.
APART = .5
STORAGE, MISSING = b"canary: storage\n", b"canary: file\n"
NOBODY = 65534
HEADER = "caller,number,service,run,metric,ordinal,taken,result,failure\n"
STORY = (
    ("ops", 1, "template errs m,interval=60", "[errs 1]"),
    ("ops", 2, "service v1 setWeight:20 pause background:errs", "[web Healthy 2 100]"),
    ("ops", 3, "start v2", "[web Paused 1 20]"),
)
REFUSED = answer("503 storage")
# The bytes with which SQLite's log begins, in the header of one with pages of 512 bytes.
BEGUN = bytes.fromhex("377f0682002de21800000200ffffffff")


class Place:
    """A new folder, with a desk's file to be in it."""

    def __init__(self, program, folder):
        self.program, self.folder = program, os.path.join(folder, "gone")
        shutil.rmtree(self.folder, ignore_errors=True)
        os.mkdir(self.folder)
        self.file = os.path.join(self.folder, "desk.db")
        self.log = self.file + "-wal"
        self.rows = os.path.join(folder, "gone.csv")
        with open(self.rows, "w", encoding="ascii") as rows:
            rows.write(HEADER)

    def make(self):
        """Makes a file whose log has frames: its desk is killed."""
        with subprocess.Popen([self.program, *STILL_AT_B, "--db", self.file],
                              stdin=subprocess.PIPE, stdout=subprocess.PIPE) as desk:
            for caller, number, asked, wanted in STORY:
                found = reply_of(desk, put(caller, number, command(asked)))
                expect(f"the desk that is killed: {asked}", found, answer(wanted))
            desk.kill()

    def contents(self):
        """What stands in the folder and below: each name with its bytes, or with its kind."""
        return {path: read(path) for above, folders, names in os.walk(self.folder)
                for path in (os.path.join(above, name) for name in folders + names)}

    def makers(self):
        """The commands that make a file that is not there."""
        listen = "127.0.0.1:0"
        return (["serve", "--listen", listen, "--db", self.file],
                ["pipe", "--at", "0", "--step", "0", "--db", self.file],
                ["import", "--db", self.file, self.rows], ["history", "--db", self.file, "web"],
                ["export", "--db", self.file, "--caller", "a", "web"])

    def finders(self):
        """The commands that make none."""
        out = os.path.join(self.folder, "out")
        return (["status", "--db", self.file], ["page", "--db", self.file, out],
                ["backup", "--db", self.file, out], ["migrate", "--db", self.file],
                ["migrate", "--db", self.file, "--dry-run"])

    def run(self, words):
        """How a command ends; it waits for nothing."""
        try:
            done = subprocess.run([self.program, *words], stdin=subprocess.DEVNULL, timeout=SECONDS,
                                  capture_output=True)
        except subprocess.TimeoutExpired:
            raise Wrong(f"{words}: no end after {SECONDS} seconds") from None
        return done.returncode, done.stdout, without_progress(done.stderr)


def read(path):
    if not os.path.isfile(path) or os.path.islink(path):
        return os.lstat(path).st_mode
    with open(path, "rb") as found:
        return found.read()


def write(path, text):
    with open(path, "wb") as made:
        made.write(text)


def expect_advice(row, file, found, words):
    """The line of the fault, and a second one that names the file and says what to do."""
    status, output, errors = found
    expect(f"{row}: the status and the output", (status, output), (1, b""))
    first, _, second = errors.partition(b"\n")
    expect(f"{row}: the fault", first + b"\n", STORAGE)
    if not second.startswith(file.encode() + b": ") or second.count(b"\n") != 1:
        raise Wrong(f"{row}: no second line about the file: {errors!r}")
    for word in words:
        if word not in second:
            raise Wrong(f"{row}: the second line does not say {word!r}: {second!r}")


def remove(place):
    os.remove(place.file)


def empty(place):
    os.truncate(place.file, 0)


def empty_by_link(place):
    empty(place)
    real = os.path.join(place.folder, "real")
    os.mkdir(real)
    for name in (place.file, place.log):
        shutil.move(name, real)
    os.symlink("real/desk.db", place.file)


def try_log_alone(program, folder):
    """A log with frames, and no file, or one without bytes: nothing is made or written."""
    for row, begin in (("no file", remove), ("an empty file", empty),
                       ("an empty file, by a link", empty_by_link)):
        place = Place(program, folder)
        place.make()
        begin(place)
        is_missing, before = begin is remove, place.contents()
        for words in place.makers() + (() if is_missing else place.finders()):
            expect_advice(f"a log, and {row}: {words[0]}", place.file, place.run(words),
                          (b"-wal", b"backup"))
            expect(f"a log, and {row}: {words[0]}: what is there", place.contents(), before)
        for words in place.finders() if is_missing else ():
            expect(f"a log, and {row}: {words[0]}", place.run(words), (1, b"", MISSING))
            expect(f"a log, and {row}: {words[0]}: what is there", place.contents(), before)


def try_begun(program, folder):
    """A log that a desk leaves that fails as it makes its file, of 41 bytes at most: the next desk
    makes it."""
    for log in (b"", b"\0", BEGUN + bytes(16), b"\0" + BEGUN[1:] + bytes(25), BEGUN + bytes(25)):
        for has_file in (True, False):
            place = Place(program, folder)
            write(place.log, log)
            if has_file:
                write(place.file, b"")
            expect(f"a log of {len(log)} bytes, file: {has_file}",
                   place.run(["history", "--db", place.file, "web"]),
                   (1, b"", b"canary: unknown-service\n"))


def try_frames(program, folder):
    """A log without a file has a frame from 568 bytes on, those of its header, the frame's and the
    smallest page: the next desk makes a file beside a shorter one, and none beside it."""
    for size in (567, 568):
        for has_file in (True, False):
            place = Place(program, folder)
            write(place.log, BEGUN + bytes(size - len(BEGUN)))
            if has_file:
                write(place.file, b"")
            row, before = f"a log of {size} bytes, file: {has_file}", place.contents()
            found = place.run(["history", "--db", place.file, "web"])
            if size == 567:
                expect(row, found, (1, b"", b"canary: unknown-service\n"))
                continue
            expect_advice(row, place.file, found, (b"-wal", b"backup"))
            expect(f"{row}: what is there", place.contents(), before)


def put_kind(kind, path):
    """Puts something else than a file under a name; what it is has to be kept open meanwhile."""
    if kind == "a FIFO":
        os.mkfifo(path)
    elif kind == "a device":
        os.symlink("/dev/tty" if os.path.exists("/dev/tty") else "/dev/null", path)
    elif kind == "a folder":
        os.mkdir(path)
    else:
        with socket.socket(socket.AF_UNIX) as made:
            here = os.getcwd()
            os.chdir(os.path.dirname(path))
            made.bind(os.path.basename(path))
            os.chdir(here)


def try_kinds(program, folder):
    """Something else than a file under the name of the file, or of its log: refused at once."""
    for of_log in (False, True):
        for kind in ("a FIFO", "a device", "a folder", "a socket"):
            place = Place(program, folder)
            if of_log:
                place.make()
                os.remove(place.log)
            put_kind(kind, place.log if of_log else place.file)
            before = place.contents()
            for words in place.makers() + place.finders():
                row = f"{kind} as the {'log' if of_log else 'file'}: {words}"
                expect(row, place.run(words), (1, b"", STORAGE))
                expect(f"{row}: what is there", place.contents(), before)


class Desk:
    """A desk that listens, on a file that is there."""

    def __init__(self, place, path=None, first=None):
        words = [place.program, "serve", "--listen", "127.0.0.1:0", "--db", path or place.file]
        self.process = subprocess.Popen(words, stdin=subprocess.DEVNULL, stdout=subprocess.PIPE,
                                        stderr=subprocess.PIPE, preexec_fn=first)
        line = self.process.stdout.readline()
        if not line.startswith(b"listening "):
            raise Wrong(f"no desk: {line!r}, {self.process.stderr.read()!r}")
        self.port = int(line.split(b":")[1])

    def __enter__(self):
        return self

    def __exit__(self, *_):
        self.process.kill()
        self.process.communicate()

    def status(self, message=b"GET /services/web HTTP/1.1\r\nConnection: close\r\n\r\n"):
        """The status of the reply to a client that comes now; none if it gets no reply."""
        try:
            with socket.create_connection(("127.0.0.1", self.port), SECONDS) as client:
                client.sendall(message)
                found = client.recv(65536)
        except OSError:
            return None
        return int(found.split(b" ")[1]) if found else None

    def want_served(self, row):
        """It answers for longer than it takes to look twice."""
        end = time.monotonic() + LOOKED
        while time.monotonic() < end:
            expect(row, self.status(), 200)
            time.sleep(0.1)
        expect(f"{row}: the end", self.process.poll(), None)

    def statuses(self):
        """Those of clients that come one after another until the desk ends, each new one once; and
        the longest time between two of them."""
        found, last, apart, end = [], time.monotonic(), 0, time.monotonic() + SECONDS
        while self.process.poll() is None:
            if time.monotonic() > end:
                raise Wrong(f"the desk goes on: {found}")
            status = self.status()
            if status is not None and found[-1:] != [status]:
                found.append(status)
            time.sleep(0.02)
            apart, last = max(apart, time.monotonic() - last), time.monotonic()
        return found, apart

    def ended(self):
        output, errors = self.process.communicate(timeout=SECONDS)
        return self.process.returncode, output, errors


def move(place):
    os.rename(place.file, place.file + ".moved")


def replace(place):
    shutil.copy(place.file, place.file + ".copy")
    os.rename(place.file + ".copy", place.file)


def link(place):
    os.link(place.file, place.file + ".link")


def move_folder(place):
    os.rename(place.folder, place.folder + ".moved")
    os.mkdir(place.folder)


def cover_folder(place):
    move_folder(place)
    os.rmdir(place.folder)
    write(place.folder, b"")


def turn_link(place):
    write(os.path.join(place.folder, "other"), b"")
    os.symlink("other", os.path.join(place.folder, "turned"))
    os.rename(os.path.join(place.folder, "turned"), os.path.join(place.folder, "link"))


CHANGES = (move, remove, replace, link, move_folder, cover_folder, turn_link)


def try_change(program, folder, change):
    """One such change. Where the machine lets no client come for so long that the 503 may have been
    missed, the file of another desk is changed, of five at most."""
    for left in reversed(range(5)):
        if has_seen_change(program, folder, change, left > 0):
            return


def has_seen_change(program, folder, change, may_miss):
    """A desk whose file is changed so, in a folder of its own, is seen to answer 503 and to end.
    It may be that it is not, if so much time is between two clients."""
    row, folder = f"a desk's file, {change.__name__}", os.path.join(folder, change.__name__)
    shutil.rmtree(folder, ignore_errors=True)
    os.mkdir(folder)
    place = Place(program, folder)
    place.make()
    path = place.file
    if change is turn_link:
        path = os.path.join(place.folder, "link")
        os.symlink("desk.db", path)
    with Desk(place, path) as desk:
        expect(f"{row}: a request", desk.status(put("ops", 4, command("promote"))), 200)
        begun = time.monotonic()
        change(place)
        is_moved = change in (move_folder, cover_folder)
        log = os.path.join(place.folder + (".moved" if is_moved else ""), "desk.db-wal")
        before = read(log)
        found, apart = desk.statuses()
        spent = time.monotonic() - begun
        has_seen = found in ([200, 503], [503]) and spent <= 2 * LOOKED
        if not has_seen and not (may_miss and apart > APART):
            raise Wrong(f"{row}: the replies until it ends after {spent:.1f} seconds: {found}")
        expect_advice(row, path, desk.ended(), (b"link", b"start the desk again"))
    expect(f"{row}: its log", read(log), before)
    return has_seen


def try_replaced(program, folder):
    """The path of a desk's file does not lead to it any more: the desk answers 503 for a while, and
    ends. What was answered before is in its file and log, which get nothing more."""
    with ThreadPoolExecutor(len(CHANGES)) as pool:
        for tried in [pool.submit(try_change, program, folder, change) for change in CHANGES]:
            tried.result()


def try_back(program, folder):
    """A file that is moved, and comes back at once: from the first 503 on the desk answers nothing
    else, and ends."""
    place = Place(program, folder)
    place.make()
    with Desk(place) as desk:
        move(place)
        end = time.monotonic() + SECONDS
        while desk.status() == 200:
            if time.monotonic() > end:
                raise Wrong("a file that is moved: the desk goes on")
            time.sleep(0.02)
        os.rename(place.file + ".moved", place.file)
        found, _ = desk.statuses()
        if found not in ([], [503]):
            raise Wrong(f"a file that comes back: the replies until it ends: {found}")
        expect("a file that comes back: the end", desk.ended()[0], 1)


def try_restored(program, folder):
    """A copy is given the names of a file that a desk serves, and another desk is started there.
    The first one answers 503 alone from then on, and has ended soon; the second one goes on."""
    place = Place(program, folder)
    place.make()
    copy = os.path.join(folder, "gone-copy")
    for name in (copy, copy + "-wal"):
        if os.path.exists(name):
            os.remove(name)
    with Desk(place) as first:
        expect("a backup", place.run(["backup", "--db", place.file, copy]), (0, b"", b""))
        os.rename(copy + "-wal", place.log)
        os.rename(copy, place.file)
        restored = time.monotonic()
        with Desk(place) as second:
            time.sleep(max(0, restored + LOOKED / 2 - time.monotonic()))
            if (found := first.status(put("ops", 4, command("abort")))) not in (503, None):
                raise Wrong(f"a restored path: the desk of before answers {found}")
            found = second.status(put("ops", 4, command("promote")))
            expect("a restored path: its desk", found, 200)
            first.statuses()
            expect("a restored path: the desk of before", first.ended()[0], 1)
            time.sleep(1.5)
            expect("a restored path: its desk goes on", second.status(), 200)


def try_kept(program, folder):
    """What does not move the file: a backup, a status, other files beside it, another mode. So the
    desk goes on."""
    place = Place(program, folder)
    place.make()
    with Desk(place) as desk:
        for words in (["backup", "--db", place.file, place.file + ".copy"],
                      ["status", "--db", place.file]):
            expect(words[0], place.run(words)[0], 0)
        write(place.file + ".other", b"")
        os.chmod(place.file, 0o600)
        os.utime(place.file)
        desk.want_served("a file that stays in its place")
        os.kill(desk.process.pid, signal.SIGTERM)
        expect("its standard error", desk.process.communicate()[1], b"")


def try_unsearched(program, folder):
    """A folder that may not be searched any more: the system does not say where the path leads, and
    the desk goes on. Once it may be again, and the file is moved, it ends."""
    place = Place(program, folder)
    place.make()
    outside = os.path.join(folder, "outside")
    shutil.rmtree(outside, ignore_errors=True)
    os.mkdir(outside)
    place.program = os.path.join(outside, "canary")
    shutil.copy(program, place.program)
    for path in (folder, outside, place.folder, place.file, place.log, place.program):
        os.chmod(path, 0o755)
        os.chown(path, NOBODY, NOBODY)
    nobody = (lambda: os.setuid(NOBODY)) if os.getuid() == 0 else None
    with Desk(place, first=nobody) as desk:
        os.chmod(place.folder, 0)
        desk.want_served("a folder that may not be searched")
        os.chmod(place.folder, 0o755)
        move(place)
        desk.statuses()
        expect("a folder that may be searched again", desk.ended()[0], 1)


PARTS = (try_log_alone, try_begun, try_frames, try_kinds, try_replaced, try_back, try_restored,
         try_kept, try_unsearched)


def main():
    program, folder, *wanted = sys.argv[1:]
    for part in chosen("files", PARTS, wanted):
        try:
            part(program, folder)
        except (Wrong, subprocess.TimeoutExpired) as fault:
            sys.exit(f"files: {re.sub('^try_', '', part.__name__)}: {fault}")


main()
