"""Which of the planted bugs a landing tries.

Each landing that changes the crates has a number, one above that of the landing before it. The file
`turn` has that number. For each crate it also has the number of the landing that last changed the
crate, and a sum of the crate as that landing left it. So it says which crates this landing changes,
and which stand on one of these. If a crate has another sum, the turn has to be taken for this
landing.

Each crate also has a share, from 0 to 11, by its name alone, and the number of the landing says
whose turn it is. So any twelve landings one after another have the twelve shares, and a crate or a
bug that comes moves no other."""
import collections
import hashlib
import pathlib
import re
import subprocess

SHARES = 12
# A number by which the twelve shares take about as long. Another one moves nearly all crates, so
# that a bug may wait for 23 landings: whoever writes one tries all bugs (tests/edits/run --all).
DEAL = 13556
TURN, NAMED, LIST = "tests/edits/turn", "tests/edits/named", "crates.txt"
NUMBER = re.compile(r"landing ([1-9]\d*)\n")
LINE = re.compile(r"(\w+) ([1-9]\d*) ([0-9a-f]{64})\n")
# What the verdict on a bug rests on; and the bugs.
PARTS = ("src", "specs", "proofs", "planted", "must-fail")
# Why the bugs of a crate are tried by a landing; the least first. It changes the crate, it is the
# crate's turn, or it changes one below it.
CHANGED, IN_TURN, ABOVE = 1, 2, 3

# A landing: its number, and what its file says of each crate.
Turn = collections.namedtuple("Turn", "number crates")
# The landing that last changed a crate, and the crate's sum then.
Noted = collections.namedtuple("Noted", "number sum")


def share_of(crate):
    """The share of the bugs of the crate of this name."""
    return int(hashlib.sha256(f"{DEAL} {crate}".encode()).hexdigest(), 16) % SHARES


def named_in(root):
    """The bugs that each landing tries, as CRATE/EDIT."""
    lines = (pathlib.Path(root) / NAMED).read_text(encoding="utf-8").splitlines()
    return [it for it in lines if it and not it.startswith("#")]


def listed_in(root):
    """What each crate uses, by its name, as the list of crates has it."""
    text = (pathlib.Path(root) / LIST).read_text(encoding="utf-8")
    lines = (it.partition(":") for it in text.splitlines() if it and not it.startswith("#"))
    return {name.strip(): used.split() for name, _, used in lines}


def below_in(root):
    """The crates below each crate, by its name."""
    listed, found = listed_in(root), {}

    def below(crate):
        if crate not in found:
            used = [it for it in listed[crate] if it in listed]
            found[crate] = set(used).union(*map(below, used))
        return found[crate]

    return {it: below(it) for it in listed}


def sums_in(root):
    """A sum of each crate: of its line in the list, of all its own that the verdicts on its planted
    bugs rest on, and of the bugs."""
    root = pathlib.Path(root)
    return {crate: sum_of(root / "crates" / crate, used) for crate, used in listed_in(root).items()}


def sum_of(folder, used):
    """A sum of the crate in this folder, which uses these libraries."""
    made = hashlib.sha256(f"{' '.join(used)}\n".encode())
    files = (it for part in PARTS for it in folder.glob(f"{part}/**/*"))
    for file in sorted(it for it in files if it.is_file()):
        text = file.read_bytes()
        made.update(f"{file.relative_to(folder).as_posix()} {len(text)}\n".encode() + text)
    return made.hexdigest()


def turn_in(text):
    """The landing that the text of the file `turn` has, or none."""
    number = NUMBER.match(text)
    lines = (LINE.fullmatch(it) for it in text.splitlines(keepends=True))
    crates = {it[1]: Noted(int(it[2]), it[3]) for it in lines if it}
    return Turn(int(number[1]), crates) if number else None


def text_of(turn):
    """The text of the file `turn` for a landing."""
    lines = (f"{name} {it.number} {it.sum}\n" for name, it in sorted(turn.crates.items()))
    return f"landing {turn.number}\n{''.join(lines)}"


def turn_of(root):
    """The landing that the file `turn` has, or none."""
    file = pathlib.Path(root) / TURN
    return turn_in(file.read_text(encoding="utf-8")) if file.is_file() else None


def fault_of_turn(root):
    """Why this tree has no turn, or none."""
    turn = turn_of(root)
    if not turn:
        return f"{TURN} has no number"
    noted = {name: it.sum for name, it in turn.crates.items()}
    return None if noted == sums_in(root) else f"the crates are not those of {TURN}"


def told_by_git(root, *words):
    """What git prints, or none if it fails."""
    try:
        ran = subprocess.run(["git", "-C", str(root), *words], capture_output=True, text=True,
                             check=False)
    except OSError:
        return None
    return ran.stdout if ran.returncode == 0 else None


def turn_of_main(root):
    """The last landing, if git knows the branch main of `origin`."""
    if told_by_git(root, "rev-parse", "--verify", "origin/main") is None:
        return None
    return turn_in(told_by_git(root, "show", f"origin/main:{TURN}") or "") or Turn(0, {})


def next_turn(last, sums):
    """The landing after the last one, with crates of these sums; or the last one once more, if they
    are as they were then. A crate of which no sum is known counts as changed."""
    same = {name: it for name, it in last.crates.items() if sums.get(name) == it.sum}
    number = last.number + (same.keys() != sums.keys() or same.keys() != last.crates.keys())
    return Turn(number, {it: same.get(it, Noted(number, sums[it])) for it in sums})


def take_turn(root):
    """Writes the turn of the landing that this tree is to be, and gives its number."""
    last = turn_of_main(root) or turn_of(root) or Turn(0, {})
    turn = next_turn(last, sums_in(root))
    (pathlib.Path(root) / TURN).write_text(text_of(turn), encoding="utf-8")
    return turn.number


class Landing:
    """The landing that this tree is, and which crates' planted bugs it tries."""

    def __init__(self, root):
        self.turn, self.below = turn_of(root), below_in(root)
        self.number = self.turn.number

    def changes(self, crate):
        """Whether this landing changes the crate itself."""
        noted = self.turn.crates.get(crate)
        return noted is None or noted.number == self.number

    def since_turn(self, crate):
        """How many landings ago it was the crate's turn."""
        return (self.number - share_of(crate)) % SHARES

    def why(self, crate):
        """Why the bugs of the crate are tried, or none if they are not."""
        if self.changes(crate):
            return CHANGED
        if self.since_turn(crate) == 0:
            return IN_TURN
        return ABOVE if any(map(self.changes, self.below[crate])) else None
