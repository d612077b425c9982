"""The rule by which a file is read as a journal (docs/CLIENT.md, "The journal's file"), and where a
wish stands in one. The tests hold the client to this."""
import dataclasses
import json
import re

LAST = 1_000_000_000
# The most bytes of a file of which no line counts yet: a gate, the longest first line, LF, a gate.
MOST_NEW = 110
NAME = re.compile(r"[a-z0-9](?:[a-z0-9-]{0,61}[a-z0-9])?")


@dataclasses.dataclass
class Kept:
    """A number that is settled, or the one that is pending (of status none)."""
    intent: str
    key: str | None
    body_asked: str
    instead: str | None = None
    status: int | None = None
    body: str | None = None
    is_late: bool = False


@dataclasses.dataclass
class Journal:
    caller: str
    before: int
    kept: list = dataclasses.field(default_factory=list)
    pending: Kept | None = None

    def number(self):
        """The number that is pending, or the next one."""
        return self.before + len(self.kept) + 1


def line_of(entry):
    """The one line of an entry: no spaces, keys in ascending order, nothing escaped that need not
    be."""
    return json.dumps(entry, ensure_ascii=False, separators=(",", ":"), sort_keys=True)


def lines_in(data):
    """The lines of a file's bytes, each after an open gate, and how many bytes stand before the
    closed gate; none if there is no closed gate, or if the first one is closed and more stands
    after it than a crash leaves of a new journal."""
    if len(data) <= 1:
        return [], 0
    if data[:1] != b"+" and len(data) > MOST_NEW:
        return None
    lines, at = [], 0
    while data[at:at + 1] == b"+":
        end = data.find(b"\n", at)
        if end < 0:
            return None
        try:
            lines.append(data[at + 1:end].decode("utf-8"))
        except UnicodeDecodeError:
            return None
        at = end + 1
    return (lines, at) if data[at:at + 1] == b"-" else None


def is_number(value, most=2 ** 32 - 1):
    return type(value) is int and 0 <= value <= most


def has(value, **kinds):
    """The value is an object of exactly these members, each as its function says."""
    return isinstance(value, dict) and set(value) == set(kinds) \
        and all(is_so(value[name]) for name, is_so in kinds.items())


def is_text(value):
    return isinstance(value, str)


def is_text_or_null(value):
    return value is None or is_text(value)


def entry_of(line):
    """The kind of the entry whose line this is, and its members; none if it is no entry's."""
    try:
        entry = json.loads(line)
    except ValueError:
        return None
    if not isinstance(entry, dict) or len(entry) != 1 or is_surrogate(line) \
            or line_of(entry) != line:
        return None
    (kind, value), = entry.items()
    is_entry = {
        "begun": lambda: has(value, caller=is_text, settled=is_number)
        and NAME.fullmatch(value["caller"]) is not None,
        "asked": lambda: has(value, body=is_text, intent=is_text, key=is_text_or_null,
                             number=is_number),
        "instead": lambda: has(value, body=is_text, number=is_number),
        "settled": lambda: has(value, body=is_text, late=lambda late: type(late) is bool,
                               number=is_number,
                               status=lambda status: is_number(status, 65535)),
    }.get(kind, lambda: False)
    return (kind, value) if is_entry() else None


def is_surrogate(line):
    return any("\ud800" <= letter <= "\udfff" for letter in str(json.loads(line)))


def journal_of(data):
    """The journal that a file with these bytes is; None if it is no journal."""
    found = lines_in(data)
    if found is None or not found[0]:
        return None
    entries = [entry_of(line) for line in found[0]]
    if None in entries or entries[0][0] != "begun" or entries[0][1]["settled"] > LAST:
        return None
    journal = Journal(entries[0][1]["caller"], entries[0][1]["settled"])
    for kind, value in entries[1:]:
        if not takes(journal, kind, value):
            return None
    return journal


def takes(journal, kind, value):
    """Adds an entry to a journal, if it may stand next."""
    pending = journal.pending
    if kind == "begun" or value["number"] != journal.number():
        return False
    if kind == "asked":
        is_used = value["key"] is not None and value["key"] in [each.key for each in journal.kept]
        if pending is not None or is_used or value["number"] > LAST:
            return False
        journal.pending = Kept(value["intent"], value["key"], value["body"])
        return True
    if pending is None:
        return False
    if kind == "instead":
        if pending.instead is not None:
            return False
        pending.instead = value["body"]
        return True
    if value["late"] and pending.instead is None:
        return False
    pending.status, pending.body, pending.is_late = value["status"], value["body"], value["late"]
    journal.kept.append(pending)
    journal.pending = None
    return True


def is_new(data):
    """The file has no line: a journal has yet to begin there."""
    found = lines_in(data)
    return found is not None and not found[0]


def is_in_doubt(data):
    """The file may have been a journal that was cut to nothing."""
    return len(data) <= 1 and data != b"-"


def at_rest(data):
    """The file's bytes once the client has opened it: what stands after the closed gate is cut
    off."""
    if len(data) <= 1:
        return b"-"
    return data[:lines_in(data)[1] + 1]
