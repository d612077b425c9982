"""Checks the table of states on the listener's page, a part of documents.py.

It has a row for each variant of these enums, and no row of another; each row of tests/listener that
it names is there."""
import re

PAGE = "crates/canary_listen/README.md"
ENUMS = {
    "Awaited": "crates/canary_listen/src/wait.rt",
    "AfterTurn": "crates/canary_listen/src/client.rt",
    "TurnKind": "crates/canary_listen/src/client.rt",
    "ConversationState": "crates/canary_wire/src/conversation.rt",
    "Wants": "crates/canary_wire/src/conversation.rt",
}
HEAD = "| State | Set by |"
TESTS = "tests/listener/run"


def variants_of(root, enum):
    """The variants of an enum of the source, as `Enum::Variant`."""
    text = (root / ENUMS[enum]).read_text(encoding="utf-8")
    body = re.search(rf"^(?:pub(?:\(crate\))? )?enum {enum} {{\n(.*?)^}}", text, re.M | re.S)
    return {f"{enum}::{name}" for name in re.findall(r"^    (\w+)", body[1], re.M)}


def rows_of(text):
    """The rows of the table, each with its line."""
    lines = text.split("\n")
    begin = next(at for at, line in enumerate(lines) if line.startswith(HEAD)) + 2
    for number, line in enumerate(lines[begin:], begin + 1):
        if not line.startswith("|"):
            return
        yield number, [cell.strip() for cell in line.strip("|").split("|")]


def faults_of(root):
    """Each fault as a page, a line and what is wrong."""
    text = (root / PAGE).read_text(encoding="utf-8")
    if HEAD not in text:
        yield PAGE, 1, f"it has no table {HEAD}"
        return
    wanted = {name for enum in ENUMS for name in variants_of(root, enum)}
    tests = set(re.findall(r"^row (\w+)", (root / TESTS).read_text(encoding="utf-8"), re.M))
    found = set()
    for number, cells in rows_of(text):
        state = re.match(r"`(\w+::\w+)`", cells[0])
        if state:
            found.add(state[1])
            if state[1] not in wanted:
                yield PAGE, number, f"there is no {state[1]}"
        for test in re.sub(r"`[^`]*`", "", cells[-1]).replace(",", " ").split():
            if test not in tests:
                yield PAGE, number, f"{TESTS} has no row {test}"
    for name in sorted(wanted - found):
        yield PAGE, 1, f"its table of states has no row for {name}"
