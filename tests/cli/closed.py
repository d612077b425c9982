"""Programs some of whose standard streams are closed, each set of the three in turn: parts of
cli.py, each of which returns how many rows it had. No file that such a program opens takes the
place of a stream, so each file has what it has if all streams are open. An output that is full, a
folder, or without a reader is reported as a closed one is."""
import concurrent.futures
import contextlib
import fcntl
import os
import re
import shutil
import sqlite3
import subprocess
import tempfile

from book_files import copy
from closing import SUBSETS, closing
from conversation import STILL_AT_B, without_progress
from files import FILE, HEADER, LINES, RELEASE, ROWS
from story_words import B, command, expect, put

FIRST_VERSION = os.path.join(os.path.dirname(os.path.realpath(__file__)), "../migrate/story.sql")
# Outputs that are open, and take nothing.
BAD_OUTPUTS = ("/dev/full", "a folder", "no reader")
# How many programs run beside one another.
BESIDE = 4
# SQLite's pending, reserved and shared locks.
LOCKS = (512, 1 << 30)

MANIFEST = (b'{"kind":"Rollout","metadata":{"name":"web"},"spec":{"strategy":{"canary":'
            b'{"steps":[{"pause":{}}]}}}}')
ASKED = [put("ops", at, command(asked)) for at, (asked, _) in enumerate(RELEASE, 1)]
# Every file that is there at first, but for the desks' files.
FILES = {"rows.csv": FILE, "one-row.csv": HEADER + ROWS[0][0], "none": b"", "web.json": MANIFEST,
         "asked": b"".join(ASKED), "asked-once": ASKED[0], "desk.html": b"a page\n"}


class Row:
    """A program, by its words. `whole` names the file that it reads as its input, `once` a file of
    what it has done before it first writes; None if it reads no input, or has done all."""

    def __init__(self, *words, whole=None, once=None, is_held=False):
        self.words, self.whole, self.once, self.is_held = words, whole, once, is_held

    def with_once(self):
        """The words and the input of what it has done before it first writes."""
        words = [self.once if word == "rows.csv" and self.once else word for word in self.words]
        return words, self.once if self.whole else None


PROGRAMS = (
    Row("--help"), Row("--version"), Row("help", "do"),
    Row("check", "web.json"),
    Row(*STILL_AT_B, whole="asked", once="asked-once"),
    Row(*STILL_AT_B, "--db", "desk.db", whole="asked", once="asked-once"),
    Row(*STILL_AT_B, "--db", "new.db", whole="asked", once="asked-once"),
    Row("import", "--db", "desk.db", "rows.csv", once="one-row.csv"),
    Row("import", "--db", "desk.db", "-", whole="rows.csv", once="one-row.csv"),
    Row("export", "--db", "desk.db", "--caller", "copy", "web"),
    Row("history", "--db", "desk.db", "web"),
    Row("status", "--db", "desk.db"),
    Row("status", "--db", "desk.db", "--json", is_held=True),
    Row("status", "--db", "desk.db", "--prometheus"),
    Row("page", "--db", "desk.db", "-"),
    Row("page", "--db", "desk.db", "desk.html"),
    Row("page", "--db", "desk.db", "new.html", is_held=True),
    Row("backup", "--db", "desk.db", "copy.db", is_held=True),
    Row("migrate", "--db", "first.db"),
    Row("migrate", "--db", "first.db", "--dry-run"),
    Row("succeed", "--db", "done.db", "new.db"),
)


def make_places(program, folder):
    """A folder with the files that the programs work on."""
    os.mkdir(folder)
    for name, content in FILES.items():
        with open(os.path.join(folder, name), "wb") as file:
            file.write(content)
    # no release goes on in the second
    for name, asked in (("desk.db", ASKED), ("done.db", ASKED[:2])):
        words = [*STILL_AT_B, "--db", name]
        done = subprocess.run([program, *words], cwd=folder, input=b"".join(asked),
                              capture_output=True, timeout=60)
        found = (done.returncode, done.stdout.count(b"HTTP/1.1 200 OK\r\n"))
        expect(f"the desk {name}", found, (0, len(asked)))
    first = sqlite3.connect(os.path.join(folder, "first.db"))
    with open(FIRST_VERSION, encoding="utf-8") as story:
        first.executescript(story.read())
    first.close()
    return folder


@contextlib.contextmanager
def held(place, is_held):
    """The desk's file is locked as a desk that serves it locks it."""
    if not is_held:
        yield
        return
    with open(os.path.join(place, "desk.db"), "r+b") as file:
        fcntl.lockf(file, fcntl.LOCK_EX, *LOCKS)
        yield


@contextlib.contextmanager
def output_of(kind, place):
    """What stands for standard output: a pipe that is read, or what takes nothing."""
    if kind is None:
        yield subprocess.PIPE
        return
    if kind == "no reader":
        reader, output = os.pipe()
        os.close(reader)
    elif kind == "a folder":
        output = os.open(place, os.O_RDONLY)
    else:
        output = os.open(kind, os.O_WRONLY)
    try:
        yield output
    finally:
        os.close(output)


def masked(told):
    """What does not depend on when it was written: moments of the clock are left out, and for how
    long a measurement has been due."""
    told = re.sub(rb"(late_seconds\{.*\}) \d+", rb"\1 LATE", told)
    return re.sub(rb"\d\d:\d\d:\d\d", b"TIME", re.sub(rb"\d{4}-\d\d-\d\dT", b"DAY ", told))


def rows_in(path):
    """All tables of a database and its log, and that SQLite finds both sound."""
    with tempfile.TemporaryDirectory() as folder:
        seen = os.path.join(folder, "copy")
        copy(path, seen)
        with contextlib.closing(sqlite3.connect(seen)) as opened:
            expect(path, opened.execute("PRAGMA integrity_check").fetchall(), [("ok",)])
            # a desk that runs has its moments from the clock
            return re.sub(r"\b17[6-9]\d{7}\b|\b1[89]\d{8}\b", lambda found: "NOW" if int(
                found[0]) > B + 86400 else found[0], "\n".join(opened.iterdump()))


def state_of(place):
    """What each file of a folder has: of a database its rows, of any other its bytes."""
    found = {}
    for name in sorted(os.listdir(place)):
        path = os.path.join(place, name)
        if os.path.isdir(path):
            found[name] = "a folder"
        elif name.endswith(".db"):
            found[name] = rows_in(path)
        elif not name.endswith("-wal"):
            with open(path, "rb") as file:
                found[name] = masked(file.read())
    return found


class Trial:
    """The program, and a folder of which each run has a copy."""

    def __init__(self, program, folder):
        self.program, self.folder = program, folder
        self.made = make_places(program, os.path.join(folder, "closed"))

    def run(self, words, source=None, closed=(), kind=None, is_held=False):
        """The status, output and errors of a program, and what each file has after it."""
        with tempfile.TemporaryDirectory(dir=self.folder) as above:
            place = shutil.copytree(self.made, os.path.join(above, "place"))
            name = os.path.join(place, source) if source else os.devnull
            with open(name, "rb") as stdin, held(place, is_held), output_of(kind, place) as output:
                done = subprocess.run(closing(closed, [self.program, *words]), cwd=place,
                                      stdin=stdin, stdout=output, stderr=subprocess.PIPE,
                                      timeout=60)
            told = masked(done.stdout or b""), without_progress(done.stderr)
            return (done.returncode, *told), state_of(place)


class Expected:
    """What a row comes to with all streams open, and what it has done if a stream fails."""

    def __init__(self, trial, row):
        self.row = row
        self.whole = trial.run(row.words, row.whole, is_held=row.is_held)
        (status, self.output, errors), self.done = self.whole
        expect(f"{row.words}: all is open", (status, errors), (0, b""))
        words, source = row.with_once()
        self.once = trial.run(words, source)[1] if row.once else self.done
        self.none = trial.run(row.words, "none")[1] if row.whole else self.done

    def of(self, closed, is_bad):
        """What it comes to with these streams closed, or an output that takes nothing."""
        told = (lambda line: b"" if 2 in closed else line)
        if 0 in closed and self.row.whole:
            return (1, b"", told(b"canary: read\n")), self.none
        if (1 in closed or is_bad) and self.output:
            return (1, b"", told(b"canary: write\n")), self.once
        return (0, b"" if 1 in closed or is_bad else self.output, b""), self.done


def try_row(trial, row):
    """A program with each set of its streams closed, and each output that takes nothing."""
    expected = Expected(trial, row)
    runs = [(closed, None) for closed in SUBSETS] + [((), kind) for kind in BAD_OUTPUTS]
    for closed, kind in runs:
        name = f"{' '.join(row.words)}: closed {closed}, output {kind or 'a pipe'}"
        (ended, files), (want_ended, want_files) = (
            trial.run(row.words, row.whole, closed, kind, row.is_held),
            expected.of(closed, kind is not None))
        expect(name, ended, want_ended)
        expect(f"{name}: the names", list(files), list(want_files))
        for file, content in want_files.items():
            expect(f"{name}: {file}", files[file], content)
    return len(runs)


def try_closed_streams(program, folder):
    """Each program that is no client, and does not listen."""
    expect("the rows of the measurement file", len(LINES), len(ROWS))
    trial = Trial(program, folder)
    with concurrent.futures.ThreadPoolExecutor(BESIDE) as pool:
        return sum(pool.map(lambda row: try_row(trial, row), PROGRAMS))


def without_root(program, folder, words, closed):
    """A program that cannot open the root folder (with strace)."""
    front = ["strace", "-f", "-o", os.path.join(folder, "calls"), "-P", "/", "-e", "trace=openat",
             "-e", "inject=openat:error=EACCES"]
    done = subprocess.run([*front, *closing(closed, [program, *words])], cwd=folder, timeout=60,
                          stdin=subprocess.DEVNULL, capture_output=True)
    with open(os.path.join(folder, "calls"), encoding="utf-8") as calls:
        asked = calls.read().count("(INJECTED)")
    return (done.returncode, done.stdout, done.stderr), asked


def try_no_root(program, folder):
    """If a stream is closed and the root folder cannot be opened in its place, no file is opened;
    if none is closed, the root folder is not needed."""
    place = os.path.join(folder, "no-root")
    os.mkdir(place)
    client = ["do", "--as", "ops", "--journal", "ops.journal", "--tries", "1", "tick", "web"]
    told = b"canary: a standard stream is closed, and the root folder cannot be opened in its place"
    agent = ["agent", "--once", "--journals", "journals", "web.yaml"]
    rows = ((client, 5, told + b"\n"), (["get", "--tries", "1", "web"], 5, told + b"\n"),
            (agent, 5, told + b"\n"),
            (["history", "--db", "desk.db", "web"], 1, b"canary: file\n"),
            ([*STILL_AT_B, "--db", "desk.db"], 1, b"canary: file\n"),
            (["page", "--db", "desk.db", "desk.html"], 1, b"canary: file\n"))
    for words, status, line in rows:
        for closed in SUBSETS[1:]:
            found = without_root(program, place, words, closed)
            wanted = (status, b"", b"" if 2 in closed else line)
            expect(f"{words}: closed {closed}", found, (wanted, 1))
            expect(f"{words}: closed {closed}: files", os.listdir(place), ["calls"])
    for words, status in ((["--help"], 0), (["--nothing"], 2), (STILL_AT_B, 0)):
        found, asked = without_root(program, place, words, ())
        expect(f"{words}: nothing is closed", (found[0], asked), (status, 0))
    for words, status in ((["--help"], 0), (["--nothing"], 2)):
        found, asked = without_root(program, place, words, (0,))
        expect(f"{words}: the input is closed", (found[0], asked), (status, 1))
    return len(rows) * len(SUBSETS[1:]) + 5


CLOSED_PARTS = (try_closed_streams,)
CLOSED_CALL_PARTS = (try_no_root,)
