"""What the disk may hold of a journal, by the calls that strace saw."""
import re

# How many parts of what was not synced are tried at each call, beside all of it and nothing.
PARTS = 8
# A call of a program by `strace -xx`, and the first bytes among its words.
CALL = re.compile(r'^(?:\d+ +)?(\w+)\((.*)\) += +(-?\d+)', re.MULTILINE)
BYTES = re.compile(r'"((?:\\x[0-9a-f]{2})*)"')


class Disk:
    """What a disk may hold of a journal's file: what was synced, and any part of what was changed
    since."""

    def __init__(self):
        self.synced, self.changes = b"", []

    def with_changes(self, changes):
        found = bytearray(self.synced)
        for place, written in changes:
            if written is None:
                found[:] = found[:place].ljust(place, b"\0")
            else:
                found.extend(bytes(max(0, place - len(found))))
                found[place:place + len(written)] = written
        return bytes(found)

    def note(self, call, told, result):
        """A call on the file, with its words and its result."""
        if call == "pwrite64":
            place = int(told.rsplit(",", 1)[1])
            self.changes.append((place, unescaped(BYTES.search(told)[1])[:int(result)]))
        elif call == "ftruncate":
            self.changes.append((int(told.split(",")[1]), None))
        elif call in ("fsync", "fdatasync"):
            self.synced, self.changes = self.with_changes(self.changes), []

    def images(self):
        """All of it, nothing of it, and each beginning and each end of a write alone."""
        yield self.synced
        yield self.with_changes(self.changes)
        for at, (place, written) in enumerate(self.changes):
            before = self.changes[:at]
            if written is None:
                continue
            step = max(1, len(written) // PARTS)
            for end in range(1, len(written), step):
                yield self.with_changes([*before, (place, written[:end])])
                yield self.with_changes([*before, (place + end, written[end:])])


def unescaped(told):
    return bytes.fromhex(told.replace("\\x", ""))
