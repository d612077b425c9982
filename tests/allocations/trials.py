"""A program of which one allocation is refused, again and again: what refused.py and its parts
share."""
import os
import struct
import subprocess
import sys

from conversation import reply_of, without_progress
from story_words import Wrong, answer, expect

OUT_OF_MEMORY = b"canary: memory"
NO_MEMORY = answer("503 no-memory")


class Trial:
    """A program, the library that refuses one of its allocations, and the names of its files."""

    def __init__(self, program, folder, library):
        self.program, self.library, self.counted = program, library, library + ".counted"
        self.file, self.begun = os.path.join(folder, "book"), os.path.join(folder, "begun")
        self.rows, self.copy = os.path.join(folder, "rows"), os.path.join(folder, "copy")

    def refusing(self, number):
        """The environment of a process whose allocation of that number is refused."""
        return {**os.environ, "LD_PRELOAD": self.library, "REFUSED": str(number),
                "COUNTED": self.counted, "TMPDIR": os.path.dirname(self.file)}

    def asked(self):
        """How many allocations the last such process asked for."""
        with open(self.counted, "rb") as told:
            return struct.unpack("L", told.read())[0]

    def run(self, words, number=0, **variables):
        """What a command line comes to, with these variables besides: its exit status, the output,
        and the first line of standard error."""
        done = subprocess.run([self.program, *words], capture_output=True, timeout=60,
                              stdin=subprocess.DEVNULL, env={**self.refusing(number), **variables})
        return done.returncode, done.stdout, without_progress(done.stderr).split(b"\n")[0]

    def converse(self, words, messages, number=0):
        """Tells messages one after another, of which one may be answered 503 and is sent again. The
        replies, as far as they come, and how the program ends."""
        process = subprocess.Popen(
            [self.program, *words], stdin=subprocess.PIPE, stdout=subprocess.PIPE,
            stderr=subprocess.PIPE, env=self.refusing(number))
        replies, may_be_refused = [], number > 0
        for message in messages:
            found = reply_of(process, message)
            if found == NO_MEMORY and may_be_refused:
                may_be_refused = False
                found = reply_of(process, message)
            if found == b"":
                break
            replies.append(found)
        output, errors = process.communicate(timeout=60)
        return replies, (process.returncode, output, errors.split(b"\n")[0])


class Share:
    """Which allocations are refused: each STEP-th from the FIRST on."""

    def __init__(self, step, first):
        self.step, self.first = step, first

    def each_from(self, first):
        """Each one from this on."""
        return Share(1, first)

    def first_of(self, asked):
        """The first one, where a run asks for so many: it may ask for fewer than FIRST."""
        return self.first if asked == 0 else 1 + (self.first - 1) % asked

    def refuse_each(self, row, refuse):
        """Refuses them in turn, until a run asks for fewer."""
        tried, number = 0, self.first_of(refuse(self.first))
        while refuse(number) >= number:
            tried += 1
            number += self.step
        if tried == 0:
            raise Wrong(f"{row}: the program asks for no memory that could be refused")
        print(f"refused: {row}: {tried} allocations", file=sys.stderr)


EACH = Share(1, 1)


def read(file):
    with open(file, "rb") as found:
        return found.read()


def is_cut_short(found, wanted):
    """Whether memory ran out after the first lines of what a command line has to write."""
    status, output, told = found
    is_part = wanted.startswith(output) and (output == b"" or output.endswith(b"\n"))
    return is_part and (status, told) == (1, OUT_OF_MEMORY)


def try_line(trial, row, words, wanted, share=EACH, on_file=False):
    """A command line does as it must, or memory runs out on the way, if an allocation was refused;
    and one on a file does as it must after that, with nothing refused."""
    def refuse(number):
        found = trial.run(words, number)
        asked = trial.asked()
        if number > asked or not is_cut_short(found, wanted[1]):
            expect(f"{row}: when allocation {number} is refused", found, wanted)
        if on_file:
            expect(f"{row}: after a refusal of allocation {number}", trial.run(words), wanted)
        return asked

    share.refuse_each(row, refuse)


def expect_told(row, found, wanted, is_refused=False):
    """A conversation goes as it has to. If an allocation was refused, it may end for memory before
    its first reply."""
    if not is_refused or found != ([], (1, b"", OUT_OF_MEMORY)):
        expect(row, found, (wanted, (0, b"", b"")))


def expect_refused(row, found, is_refused):
    """A program says that it has no memory, since an allocation was refused."""
    expect(row, (found, is_refused), ((1, b"", OUT_OF_MEMORY), True))
