"""The story over a file, with one read of its input or one write of its output that fails, each in
turn (with strace): parts of cli.py, each of which returns how many rows it had."""
import os
import subprocess
import tempfile

from conversation import STILL_AT_B, without_progress
from story_tables import KEPT, expect_tables, tables_of
from story_words import Wrong, expect, messages_of_story
from streams import read_some, wait_until_taken

MESSAGES = messages_of_story()


class Streams:
    """An input and an output with names, so that strace knows a program's calls on them."""

    def __init__(self, folder):
        place = tempfile.mkdtemp(dir=folder)
        self.input, self.output = os.path.join(place, "input"), os.path.join(place, "output")
        self.log = os.path.join(place, "calls")
        for name in (self.input, self.output):
            os.mkfifo(name)

    def begin(self, words, failing):
        """A process that answers over them, and the ends that are ours: one of its calls fails."""
        theirs, ours = self.both_ends(self.input)
        ours_read, theirs_write = self.both_ends(self.output)
        front = ["strace", "-f", "-o", self.log, "-P", self.input, "-P", self.output,
                 "-e", "trace=read,write", "-e", f"inject={failing}"]
        running = subprocess.Popen([*front, *words], stdin=theirs, stdout=theirs_write,
                                   stderr=subprocess.PIPE, bufsize=0)
        os.close(theirs)
        os.close(theirs_write)
        return running, ours, ours_read

    @staticmethod
    def both_ends(name):
        """The reading and the writing end of a pipe with a name; they block."""
        reading = os.open(name, os.O_RDONLY | os.O_NONBLOCK)
        writing = os.open(name, os.O_WRONLY)
        os.set_blocking(reading, True)
        return reading, writing

    def has_failed(self):
        """Whether the call that was to fail was made."""
        with open(self.log, encoding="utf-8") as told:
            return "(INJECTED)" in told.read()


def pieces():
    """The messages in two pieces each, with what is answered once a piece is read."""
    for sent, told in MESSAGES:
        middle = len(sent) // 2
        yield sent[:middle], b""
        yield sent[middle:], told


def tell(streams, program, file, failing, most):
    """Sends so many pieces of the story to a desk on a new file, one of whose calls fails. What it
    wrote, its exit status, and its standard error."""
    for name in (file, file + "-wal"):
        if os.path.exists(name):
            os.remove(name)
    running, ours, replies = streams.begin([program, *STILL_AT_B, "--db", file], failing)
    found = b""
    for piece, told in list(pieces())[:most]:
        os.write(ours, piece)
        wait_until_taken(ours)
        some = read_some(replies, len(told))
        found += some
        if len(some) < len(told):
            break
    os.close(ours)
    _, errors = running.communicate(timeout=60)
    found += read_some(replies, 1 << 16)
    os.close(replies)
    return found, running.returncode, errors


def expect_kept(row, file, count):
    """So many messages of the story are settled, each with its reply."""
    expect(f"{row}: what is kept", tables_of(file)["kept"], sorted(KEPT[:count]))


def try_again(program, row, file):
    """The story sent again gets its replies, and its tables stand in the file."""
    stream, want = map(b"".join, zip(*MESSAGES))
    done = subprocess.run([program, *STILL_AT_B, "--db", file], input=stream, capture_output=True,
                          timeout=60)
    found = (done.stdout, done.returncode, without_progress(done.stderr))
    expect(f"{row}, and all of it again", found, (want, 0, b""))
    expect_tables(f"{row}, and all of it again", file)


def try_failing_reads(program, folder):
    """Each read of the input fails, alone: whole messages are answered and settled, and no other;
    the last read is that of the end."""
    streams, file, sent = Streams(folder), os.path.join(folder, "read-book"), list(pieces())
    for at in range(len(sent) + 1):
        row = f"read {at + 1} of the input fails"
        found = tell(streams, program, file, f"read:error=EIO:when={at + 1}", at)
        if not streams.has_failed():
            raise Wrong(f"{row}: it was not made")
        expect(row, found, (b"".join(told for _, told in sent[:at]), 1, b"canary: read\n"))
        expect_kept(row, file, at // 2)
        try_again(program, row, file)
    return len(sent) + 1


def try_failing_writes(program, folder):
    """Each write of a reply fails, alone, or takes no byte: the messages up to that one are
    settled, and the replies before it went out."""
    streams, file = Streams(folder), os.path.join(folder, "write-book")
    for how in ("error=EIO", "retval=0"):
        for at in range(len(MESSAGES)):
            row = f"write {at + 1} of the output fails ({how})"
            found = tell(streams, program, file, f"write:{how}:when={at + 1}", None)
            if not streams.has_failed():
                raise Wrong(f"{row}: it was not made")
            want = b"".join(told for _, told in MESSAGES[:at])
            expect(row, found, (want, 1, b"canary: write\n"))
            expect_kept(row, file, at + 1)
            try_again(program, row, file)
    return 2 * len(MESSAGES)


CALL_PARTS = (try_failing_reads, try_failing_writes)
