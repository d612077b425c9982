"""A story that is sent to the program over a file whose disk fails, and what has to be there after
the fault. disk.py and power_cuts.py have the faults."""
import os
import resource
import signal
import sqlite3
import subprocess
import sys
from contextlib import closing, contextmanager

from book_files import remove, size
from conversation import limits_writes, reply_of, without_progress
from story_tables import expect_tables
from story_words import STORY, B, Wrong, answer, command, get, messages_of_story, put, query

CALLERS = ("ops", "agent")
REFUSED = answer("503 storage")
# How long a program may take for a reply, or to end.
SECONDS = 60
MESSAGES = messages_of_story()
# They change nothing: a number far ahead of each caller's turn gets its next one.
QUESTIONS = [put(caller, 1_000_000_000, command("tick")) for caller in CALLERS]
QUESTIONS.append(get(query("history web")))


def fail(text):
    sys.exit(f"disk: {text}")


@contextmanager
def in_time(row, process):
    """If this takes too long, kills the process and those that it started, and fails."""
    def is_late(*_):
        os.killpg(process.pid, signal.SIGKILL)
        fail(f"{row}: the desk neither answers nor ends within {SECONDS} seconds")

    signal.signal(signal.SIGALRM, is_late)
    signal.alarm(SECONDS)
    try:
        yield
    finally:
        signal.alarm(0)


class Desk:
    """A program that answers messages over a file, one after another; in memory, if there is no
    file. The log, if there is one, is that of strace, which makes some of its calls fail. The
    messages are those that it is sent, with their replies."""

    def __init__(self, program, file, row, most=None, front=(), log=None, messages=MESSAGES):
        words = [*front, program, "pipe", "--at", str(B), "--step", "0"]
        if file is not None:
            words += ["--db", file]
        first = None if most is None else lambda: limits_writes(most)
        self.row, self.log, self.messages, self.replies = row, log, messages, []
        self.process = subprocess.Popen(
            words, stdin=subprocess.PIPE, stdout=subprocess.PIPE, stderr=subprocess.PIPE,
            preexec_fn=first, start_new_session=True)

    def ask(self, message):
        """The bytes of its reply; none if it has ended."""
        with in_time(self.row, self.process):
            self.replies.append(reply_of(self.process, message))
        return self.replies[-1]

    def fill(self, most):
        """From now on the disk takes so many bytes of a file."""
        limits = (most, resource.RLIM_INFINITY)
        resource.prlimit(self.process.pid, resource.RLIMIT_FSIZE, limits)

    def lift(self):
        """The disk is not full any more."""
        self.fill(resource.RLIM_INFINITY)

    def failed_calls(self):
        """How many of its calls failed so far."""
        if self.log is None:
            return 0
        with open(self.log) as told:
            return told.read().count("(INJECTED)")

    def want(self, at, when):
        """The desk answers this message of the story as it must."""
        message, wanted = self.messages[at]
        found = self.ask(message)
        if found != wanted:
            fail(f"{self.row}: {when} the reply to message {at + 1} is {found}")

    def want_end(self):
        """It is done; or it says that the file failed, if the last message got no reply or 503, or
        if a call failed as the file was closed."""
        failed, last = self.failed_calls(), self.replies[-1]
        with in_time(self.row, self.process):
            told = without_progress(self.process.communicate()[1]).decode()
        is_done = last not in (b"", REFUSED) and self.failed_calls() == failed
        found, wanted = (self.process.returncode, told), (1, "canary: storage\n")
        if found != ((0, "") if is_done else wanted):
            fail(f"{self.row}: it ended with {found}, after {len(self.replies)} replies, the last"
                 f" of which is {last}")


def begin_large(file):
    """Makes the file anew, an empty database with pages of 4,096 bytes, which a desk keeps."""
    remove(file)
    with closing(sqlite3.connect(file)) as made:
        made.executescript("PRAGMA page_size = 4096; PRAGMA journal_mode = WAL;"
                           "CREATE TABLE t (a); DROP TABLE t;")


def told_by(row, *words, first=None):
    """The exit status of a program, its standard output, and its standard error but for how far it
    was."""
    try:
        done = subprocess.run(words, capture_output=True, preexec_fn=first, timeout=SECONDS)
    except subprocess.TimeoutExpired:
        fail(f"{row}: {words[1]} does not end within {SECONDS} seconds")
    return done.returncode, done.stdout.decode(), without_progress(done.stderr).decode()


def history(program, file, row):
    return told_by(row, program, "history", "--db", file, "web")


def standing(desk):
    """Its replies to the questions, which depend on what is settled."""
    return [desk.ask(question) for question in QUESTIONS]


def next_number(caller, count):
    """The reply with a caller's next number when so many messages of the story are settled."""
    settled = sum(told.startswith(f"{caller} ") for told, _ in STORY[:count])
    return answer(f'409 {{"code":"ahead","expected":{settled + 1}}}')


class Well:
    """What the story comes to on a disk that is well: how the desk stands when so many messages
    are settled, how long its files become, and the history."""

    def __init__(self, program, file, begin=remove):
        begin(file)
        desk = Desk(program, file, "a well disk")
        self.standings = [standing(desk)]
        for at in range(len(MESSAGES)):
            desk.want(at, "alone,")
            self.standings.append(standing(desk))
        for count, (*numbers, _) in enumerate(self.standings):
            if numbers != [next_number(caller, count) for caller in CALLERS]:
                fail(f"a well disk: after {count} messages the next numbers are {numbers}")
        self.most = max(size(file), size(file + "-wal"))
        desk.want_end()
        self.history = history(program, file, desk.row)
        want_tables(desk.row, file)


def tell_whole(desk):
    """Tells the whole story on a disk that is well: each reply is as it must be."""
    for at in range(len(MESSAGES)):
        desk.want(at, "on a well disk")
    desk.want_end()


def tell_until_fault(desk, first=0):
    """Tells the story from this message on until one gets 503, or the desk has ended and answers
    nothing. Returns the message that did not get its reply, and whether it got 503."""
    for at in range(first, len(desk.messages)):
        message, wanted = desk.messages[at]
        found = desk.ask(message)
        if found == REFUSED or desk.replies == [b""]:
            return at, found == REFUSED
        if found != wanted:
            fail(f"{desk.row}: the reply to message {at + 1} is {found}")
    return len(desk.messages), False


def standing_after_503(desk, wanted):
    """The replies after a 503: they say that its message did nothing, or are 503 again."""
    found = standing(desk)
    if any(reply not in (REFUSED, told) for reply, told in zip(found, wanted)):
        fail(f"{desk.row}: after a 503 the replies to the questions are {found}")
    return found


def tell_failing(desk, well, is_full=False, first=0):
    """Tells the story from this message on while the disk fails, and goes on after the first 503; a
    disk that was full has room then. Returns how many messages may be settled: those that were
    answered, and one more if the desk gives up the book, and so ends with 503 alone."""
    at, is_refused = tell_until_fault(desk, first)
    if is_refused:
        if is_full:
            desk.lift()
        standing_after_503(desk, well.standings[at])
        at, is_refused = tell_until_fault(desk, at)
    if not is_refused:
        return [at]
    found = standing_after_503(desk, well.standings[at])
    is_given_up = all(reply == REFUSED for reply in found)
    return [at, at + 1] if is_given_up else [at]


def went_on(desk, counts):
    """It answered 503, and then the rest of the story."""
    return REFUSED in desk.replies and counts == [len(desk.messages)]


def tell_after(program, file, row, well, counts):
    """After the fault the disk is well: what was answered is there, with its reply, and the rest
    can be sent again; then the tables are those of the story. Returns how many messages were
    settled, which is one of these counts."""
    desk = Desk(program, file, row)
    for at in reversed(range(min(counts))):
        desk.want(at, "sent again after the fault, from the last one back,")
    found = standing(desk)
    settled = [count for count in counts if well.standings[count] == found]
    if not settled:
        fail(f"{row}: {counts} messages may be settled, and the replies are {found}")
    tell_whole(desk)
    lines = history(program, file, row)
    if lines != well.history:
        fail(f"{row}: the history is {lines}")
    want_tables(row, file)
    return settled[0]


def want_tables(row, file):
    """The tables of the file have the rows of the story, as sqlite3 reads them."""
    try:
        expect_tables(row, file)
    except (Wrong, sqlite3.Error) as fault:
        fail(f"{row}: the tables: {fault}")
