"""What standard error has of a program that is slow, if it is no terminal: progress.py PROGRAM
LIBRARY FOLDER. The library, clock.c, gives the program a clock that goes on each time that it is
read, so that a small file takes long by it, and says when each line was written."""
import contextlib
import json
import os
import re
import shutil
import socket
import subprocess
import sys
from concurrent.futures import ThreadPoolExecutor

from conversation import STILL_AT_B
from story_words import Wrong, command, expect, put

# So many requests of each of so many callers, and so many services, with a line of a history each.
CALLERS, EACH, SERVICES = 20, 3, 20
# A log of so many bytes, none of which is a frame, so that there are megabytes to be judged.
LOG, MEGABYTE = 4_900_000, 1_000_000
# The same of a large file, of which the first line comes before the clock goes on, and its
# megabytes.
LARGE_LOG, LARGE = 17_900_000, ("MB judged", 18)
# A file of more than 4 MB, which SQLite reads several times to check it: so many templates, each of
# so many metrics with a condition of 1,010 bytes. A log makes it one of 22 MB.
TEMPLATES, METRICS, CHECKED_LOG, CHECKED = 60, 30, 17_000_000, 22
# The milliseconds before a line that is the first, or comes after another one.
BETWEEN = 1_000
# The milliseconds from one reading of the clock to the next: rows are judged in 41 parts, and of a
# measurement file the clock is read once for a megabyte.
STEP, STEP_OF_BYTES, QUICK = 400, 1_100, 10
# Seconds in which a program has ended.
LIMIT = 120
# A measurement file of almost 4 MB, whose rows are too long to be read.
LONG_ROWS = 39
HEADER = b"caller,number,service,run,metric,ordinal,taken,result,failure\n"
JUDGED, READ, DRAWN = ("MB judged", 5), ("MB read", 4), ("services drawn", SERVICES)
WRITTEN = re.compile(r"([12]) (\d+)\n((?:(?![12] \d+\n).*\n)*)")
LINE = re.compile(r"canary: (\d+) of (\d+) (MB judged|MB read|services drawn)\n")
READ_LINE = re.compile(r"canary: (\d+) MB read to check (\d+) MB\n")
SERVE = ["serve", "--listen", "127.0.0.1:0", "--connections", "1", "--db", "desk.db"]


def make_desk(program, folder):
    """A desk's file and a measurement file."""
    asked = [put(f"c{caller}", number, command("template errs m,interval=60"))
             for caller in range(CALLERS) for number in range(1, EACH + 1)]
    asked += [put("ops", number, command("service v1 setWeight:20 pause", f"s{number}"))
              for number in range(1, SERVICES + 1)]
    words = [program, *STILL_AT_B, "--db", os.path.join(folder, "desk.db")]
    done = subprocess.run(words, input=b"".join(asked), timeout=LIMIT, capture_output=True)
    expect("a desk", done.stdout.count(b"HTTP/1.1 200 OK"), len(asked))
    size = os.path.getsize(os.path.join(folder, "desk.db")) + LOG
    expect("megabytes, the last one begun", -(-size // MEGABYTE), JUDGED[1])
    with open(os.path.join(folder, "rows.csv"), "wb") as rows:
        rows.write(HEADER + LONG_ROWS * (100_000 * b"x" + b"\n"))


def make_checked_desk(program, folder):
    """A desk's file of some megabytes."""
    metrics = [{"name": f"m{number}", "interval": "60s",
                "successCondition": "result >= 0" + 999 * " "} for number in range(METRICS)]
    asked = []
    for number in range(1, TEMPLATES + 1):
        made = {"metadata": {"name": f"t{number}"}, "spec": {"metrics": metrics}}
        asked.append(put("ops", number, json.dumps({"template": made}).encode()))
    words = [program, *STILL_AT_B, "--db", os.path.join(folder, "checked.db")]
    done = subprocess.run(words, input=b"".join(asked), timeout=LIMIT, capture_output=True)
    expect("a desk to be checked", done.stdout.count(b"HTTP/1.1 200 OK"), len(asked))
    size = os.path.getsize(os.path.join(folder, "checked.db")) + CHECKED_LOG
    expect("megabytes, the last one begun", -(-size // MEGABYTE), CHECKED)


class Case:
    """A program by its words, in a new folder with a desk's file and a measurement file."""

    def __init__(self, program, library, above, row):
        self.row, self.place = row, os.path.join(above, row.replace(" ", "-"))
        self.program, self.library = program, library
        os.mkdir(self.place)
        self.above = above
        for name in ("desk.db", "rows.csv"):
            shutil.copy(os.path.join(above, name), self.place)
        with open(os.path.join(self.place, "desk.db-wal"), "wb") as log:
            log.truncate(LOG)
        self.log = os.path.join(self.place, "written")

    def run(self, words, errors=subprocess.PIPE, step=STEP, closed=False):
        """Waits for the end of a program, and lets a client of `serve` come and go."""
        environment = {**os.environ, "LD_PRELOAD": self.library, "STEP": str(step),
                       "WRITTEN": self.log}
        running = subprocess.Popen([self.program, *words], cwd=self.place, env=environment,
                                   stdin=subprocess.DEVNULL, stdout=subprocess.PIPE, stderr=errors,
                                   preexec_fn=(lambda: os.close(2)) if closed else None)
        try:
            self.wait(running, words)
        except subprocess.TimeoutExpired:
            raise Wrong(f"{self.row}: it does not end") from None
        finally:
            running.kill()
            running.wait()

    def wait(self, running, words):
        with ThreadPoolExecutor(1) as reading:
            if words[0] == "serve":
                told = reading.submit(running.stdout.readline)
                self.connect(running, told)
            running.communicate(timeout=LIMIT)
        expect(f"{self.row}: its status", running.returncode, 0)

    def connect(self, running, told):
        try:
            line = re.fullmatch(rb"listening 127\.0\.0\.1:(\d+)\n", told.result(timeout=LIMIT))
        except TimeoutError:
            running.kill()
            raise Wrong(f"{self.row}: it does not listen in {LIMIT} seconds") from None
        if line is None:
            raise Wrong(f"{self.row}: it does not listen")
        socket.create_connection(("127.0.0.1", int(line[1])), timeout=LIMIT).close()

    def calls(self):
        """What was written: the stream, the moment, and the text."""
        with open(self.log, encoding="latin-1") as written:
            return [(int(stream), int(moment), text)
                    for stream, moment, text in WRITTEN.findall(written.read())]

    def enlarge(self):
        """Makes the log longer, so that the file is a large one."""
        os.truncate(os.path.join(self.place, "desk.db-wal"), LARGE_LOG)

    def with_check(self):
        """Has the file in its place that takes long to be checked."""
        desk = os.path.join(self.place, "desk.db")
        shutil.copy(os.path.join(self.above, "checked.db"), desk)
        os.truncate(desk + "-wal", CHECKED_LOG)
        return self

    def check(self, wanted, begin, calls=None):
        """The lines on standard error, or these, count what is wanted, one after the other, and no
        two of them, nor the first one and the begin, are within a second."""
        parts, due = [], begin + BETWEEN
        if calls is None:
            calls = [call for call in self.calls() if call[0] == 2]
        for moment, text in [call[1:] for call in calls]:
            line = LINE.fullmatch(text)
            if line is None or moment < due:
                raise Wrong(f"{self.row}: {text!r} at {moment}, and not before {due}")
            due = moment + BETWEEN
            part = line[3], int(line[2])
            if not parts or parts[-1][0] != part:
                parts.append((part, []))
            parts[-1][1].append(int(line[1]))
        expect(f"{self.row}: what is counted", [part for part, _ in parts], list(wanted))
        for (what, whole), counts in parts:
            if counts != sorted(set(counts)) or counts[-1] > whole or len(counts) < 2:
                raise Wrong(f"{self.row}: {what}: {counts} of {whole}")

    def try_slow(self, *words, wanted=(JUDGED,), step=STEP):
        """Lines, all before the desk listens."""
        self.run(words, step=step)
        self.check(wanted, step)
        streams = [stream for stream, _, _ in self.calls()]
        if words[0] == "serve" and streams != sorted(streams, reverse=True):
            raise Wrong(f"{self.row}: a line comes when the desk listens")

    def try_large(self, *words):
        """The first line comes at once, and says that nothing is read."""
        self.enlarge()
        self.run(words)
        (_, moment, text), *later = [call for call in self.calls() if call[0] == 2]
        expect(f"{self.row}: its first line", text, "canary: 0 MB read to check 18 MB\n")
        if moment > 2 * STEP:
            raise Wrong(f"{self.row}: the first line comes at {moment}")
        self.check((LARGE,), moment, later)

    def try_checked(self, *words):
        """Lines that count what is read, the first at once and one each second until rows are
        judged, and none later."""
        self.run(words)
        lines = [call[1:] for call in self.calls() if call[0] == 2]
        found = [READ_LINE.fullmatch(text) for _, text in lines]
        count = next((place for place, line in enumerate(found) if line is None), len(found))
        expect(f"{self.row}: lines that count what is read, among the judged",
               [line for line in found[count:] if line], [])
        self.look_at_read([int(line[1]) for line in found[:count]],
                          {int(line[2]) for line in found[:count]})
        self.look_at_moments([moment for moment, _ in lines], count)
        streams = [stream for stream, _, _ in self.calls()]
        if words[0] == "serve" and streams != sorted(streams, reverse=True):
            raise Wrong(f"{self.row}: a line comes when the desk listens")

    def look_at_read(self, counts, wholes):
        """The megabytes rise from 0, to more than the file has and to no more than a check
        reads."""
        expect(f"{self.row}: the megabytes of the file", wholes, {CHECKED})
        size = os.path.getsize(os.path.join(self.above, "checked.db")) / MEGABYTE
        if (counts[0] != 0 or counts != sorted(set(counts)) or len(counts) < 4
                or not size < counts[-1] < 10 * size):
            raise Wrong(f"{self.row}: {counts} MB read of {size}")

    def look_at_moments(self, moments, count):
        """No two lines come within a second, and while a file is checked none comes late."""
        gaps = [after - before for before, after in zip(moments, moments[1:])]
        if moments[0] > 2 * STEP or min(gaps) < BETWEEN or max(gaps[:count - 1]) > 2 * BETWEEN:
            raise Wrong(f"{self.row}: lines at {moments}, of which {count} count what is read")

    def try_quick(self, *words):
        """No line in the first second."""
        self.run(words, step=QUICK)
        early = [call for call in self.calls() if call[0] == 2 and call[1] < BETWEEN]
        expect(f"{self.row}: its lines", early, [])

    def try_closed(self):
        """With standard error closed."""
        self.run(SERVE, errors=None, closed=True)

    def try_unread(self):
        """With a pipe for standard error that is full, and that nobody reads."""
        reader, writer = os.pipe()
        os.set_blocking(writer, False)
        with contextlib.suppress(BlockingIOError):
            while os.write(writer, bytes(4096)):
                pass
        os.set_blocking(writer, True)
        self.run(SERVE, errors=writer)
        os.close(writer)
        os.close(reader)

    def try_left(self):
        """With a pipe for standard error that has no reader any more."""
        reader, writer = os.pipe()
        os.close(reader)
        self.run(SERVE, errors=writer)
        os.close(writer)


def try_all(case):
    """Each of these in a new folder."""
    db = ["--db", "desk.db"]
    case("serve").try_slow(*SERVE)
    case("pipe").try_slow(*STILL_AT_B, *db)
    case("import").try_slow("import", *db, "rows.csv", wanted=(JUDGED, READ), step=STEP_OF_BYTES)
    case("history").try_slow("history", *db, "s1")
    case("export").try_slow("export", *db, "--caller", "a", "s1")
    case("status").try_slow("status", *db)
    case("page").try_slow("page", *db, "out.html", wanted=(JUDGED, DRAWN))
    case("a large desk").try_large(*SERVE)
    case("status of a large desk").try_large("status", *db)
    for words in (SERVE, ["status", *db], ["migrate", *db]):
        case(f"{words[0]} of a desk that is checked").with_check().try_checked(*words)
    case("a quick desk").try_quick(*SERVE)
    case("a quick import").try_quick("import", *db, "rows.csv")
    case("a quick page").try_quick("page", *db, "out.html")
    for at in ("", " as a file is checked"):
        for row, trial in (("closed", Case.try_closed), ("full", Case.try_unread),
                           ("left", Case.try_left)):
            made = case(f"a standard error that is {row}{at}")
            trial(made.with_check() if at else made)


def main():
    program, library, above = map(os.path.abspath, sys.argv[1:])
    folder = os.path.join(above, "progress")
    os.mkdir(folder)
    try:
        make_desk(program, folder)
        make_checked_desk(program, folder)
        try_all(lambda row: Case(program, library, folder, row))
    except (Wrong, subprocess.TimeoutExpired) as fault:
        sys.exit(f"files: {fault}")


main()
