"""Power cuts: what the disk may hold when the power fails, at each call that changes a desk's file
or its log. What was synced is there; of what was written since, all, nothing, or any part. A part
of disk.py."""
import os
import random
import re
import sys

from book_files import remove
from disk_story import MESSAGES, Desk, Well, fail, standing, tell_after, tell_whole

# A disk writes a sector of so many bytes whole, or not at all.
SECTOR = 512
# How many parts of what was not synced are tried at each call, beside all of it and nothing.
PARTS = 6
TRACED = ("openat", "pwrite64", "write", "fsync", "fdatasync", "ftruncate", "unlink")
CALL = re.compile(r'^\d+ +(\w+)\((.*)\) += +(-?\d+)')
BYTES = re.compile(r'"((?:\\x[0-9a-f]{2})*)"')


class File:
    """What a disk holds of a file: what was synced, and what was changed since, each change a place
    with the bytes that stand there then, or a length to which it was cut."""

    def __init__(self):
        self.synced, self.changes = None, []

    def sync(self):
        self.synced, self.changes = self.with_changes(self.changes), []

    def with_changes(self, changes):
        """Its bytes with these changes; none if there is no such file."""
        if self.synced is None and not changes:
            return None
        found = bytearray(self.synced or b"")
        for place, written in changes:
            if written is None:
                found[:] = found[:place].ljust(place, b"\0")
            else:
                found.extend(bytes(max(0, place - len(found))))
                found[place:place + len(written)] = written
        return bytes(found)


def sectors(change):
    """The parts of a change of which each may be on the disk without the others."""
    place, written = change
    if written is None:
        return [change]
    ends = [*range(SECTOR - place % SECTOR, len(written), SECTOR), len(written)]
    return [(place + begin, written[begin:end]) for begin, end in zip([0, *ends], ends)]


def some_of(changes, chance):
    """A part of these changes, in order, each sector by chance."""
    each = [sector for change in changes for sector in sectors(change)]
    share = chance.choice((0.1, 0.5, 0.9))
    return [sector for sector in each if chance.random() < share]


def unescaped(told):
    return bytes.fromhex(told.replace("\\x", ""))


class Trace:
    """The files of a desk as the calls of a log of strace change them, one after another, and how
    many bytes of replies went out."""

    def __init__(self, file):
        self.files = {file.encode(): File(), file.encode() + b"-wal": File()}
        self.open, self.told = {}, 0

    def take(self, name, words, result):
        """Takes one call; whether it changed what the disk holds, or may hold."""
        if name == "openat":
            path = unescaped(BYTES.search(words)[1])
            self.open[result] = self.files.get(path)
            return False
        if name == "unlink":
            path = unescaped(BYTES.search(words)[1])
            if path in self.files:
                fail("a power cut: the desk removes a file")
            return False
        number, rest = words.split(",", 1) if "," in words else (words, "")
        if name == "write" and number == "1":
            self.told += result
            return False
        return self.change(name, self.open.get(int(number)), rest, result)

    def change(self, name, file, rest, result):
        if file is None:
            return False
        if name in ("fsync", "fdatasync"):
            file.sync()
        elif name == "ftruncate":
            file.changes.append((int(rest), None))
        elif name == "pwrite64":
            place = int(rest.rsplit(",", 1)[1])
            file.changes.append((place, unescaped(BYTES.search(rest)[1])[:result]))
        else:
            fail(f"a power cut: the desk changes its file by {name}")
        return True

    def images(self, chance):
        """What the disk may hold now of the file and its log."""
        files = [*self.files.values()]
        yield [file.with_changes(file.changes) for file in files]
        yield [file.synced for file in files]
        for _ in range(PARTS):
            yield [file.with_changes(some_of(file.changes, chance)) for file in files]


def trace_story(program, file, log):
    """Tells the story to a desk whose calls strace writes to a log, with all bytes."""
    remove(file)
    front = ["strace", "-f", "-o", log, "-xx", "-s", "1000000", "-e", "trace=" + ",".join(TRACED)]
    tell_whole(Desk(program, file, "a traced desk", front=front))


def settled_at(told, messages=MESSAGES, answered=0):
    """How many messages may be settled when so many bytes of replies went out, after those to the
    messages that were answered before: those that are answered, and the next one."""
    while answered < len(messages) and told >= len(messages[answered][1]):
        told -= len(messages[answered][1])
        answered += 1
    return list(range(answered, min(answered + 1, len(messages)) + 1))


def write_image(file, image):
    remove(file)
    for suffix, found in zip(("", "-wal"), image):
        if found is not None:
            with open(file + suffix, "wb") as made:
                made.write(found)


def try_image(program, file, row, well, counts):
    """What was answered is in the file that the power cut left, and the desk goes on."""
    desk = Desk(program, file, row)
    found = standing(desk)
    desk.want_end()
    if found not in [well.standings[count] for count in counts]:
        fail(f"{row}: {counts} messages may be settled, and the replies are {found}")
    tell_after(program, file, row, well, counts)


def try_power_cuts(program, folder):
    """At each call that changes the file or its log, and with each part of what was not synced."""
    file, log = os.path.join(folder, "cut-off"), os.path.join(folder, "calls")
    well = Well(program, os.path.join(folder, "powered"))
    trace_story(program, file, log)
    trace, chance, seen, calls = Trace(file), random.Random(1), set(), 0
    with open(log) as told:
        made = [call for call in map(CALL.match, told) if call]
    for call in made:
        if not trace.take(call[1], call[2], int(call[3])):
            continue
        calls += 1
        counts = settled_at(trace.told)
        for image in trace.images(chance):
            if (key := (*image, counts[0])) not in seen:
                seen.add(key)
                write_image(file, image)
                try_image(program, file, f"a power cut after call {calls}", well, counts)
    if trace.told != sum(len(wanted) for _, wanted in MESSAGES):
        fail("a power cut: the log lacks replies")
    print(f"disk: the power was cut at {calls} calls, with {len(seen)} files left", file=sys.stderr)
