"""The refusals of planted bugs that earlier runs on this machine kept, outside of each clone.

The name of an entry is a sum of all that the refusal rests on, so it never goes stale. It is that
of `rt` (`Kept.key`) of the crate and of the libraries below it as they are built, which has the
kit's; of the bug; of the programs that try bugs; and of their limits. Only a clear refusal is kept.
An entry that is not whole, or that has another name, counts for nothing."""
import contextlib
import hashlib
import json
import os
import pathlib
import stat
import tempfile
import threading
import time
import types

import verdicts

# The programs whose bytes a refusal rests on.
PROGRAMS = ("tests/edits/*.py", "tests/lib/kit.py")
# An entry that no run has used for so many days is removed.
DAYS = 90


def sum_of(*parts):
    return hashlib.sha256(repr(parts).encode()).hexdigest()


def place(rt):
    """The folder of the entries: beside what rt keeps, or else in the home of who runs this. None
    if there is no folder that is this user's own."""
    cache = os.environ.get("XDG_CACHE_HOME") or os.path.expanduser("~/.cache")
    for folder in (f"{rt.STORE}/planted", f"{cache}/canary-planted"):
        with contextlib.suppress(OSError):
            os.makedirs(folder, 0o700, exist_ok=True)
            found = os.lstat(folder)
            is_own = stat.S_ISDIR(found.st_mode) and found.st_uid == os.geteuid()
            if is_own and os.access(folder, os.W_OK | os.X_OK):
                os.chmod(folder, 0o700)
                return folder
    return None


class Keys:
    """The names of the entries of a crate's planted bugs, as all is now that they rest on."""

    def __init__(self, rt, root, limits):
        self.kit_rt, self.root, self.limits = rt, pathlib.Path(root), limits
        self.libraries = {}

    def library(self, crate):
        """A sum of the library of a crate, made again if a file of it is another one."""
        files = sorted(f"{at}/{it}" for at, _, names in os.walk(crate.rlib) for it in names)
        if not files:
            raise FileNotFoundError(f"there is no library {crate.rlib}")
        mark = [(it, made.st_ino, made.st_size, made.st_mtime_ns) for it in files
                for made in [os.stat(it)]]
        if self.libraries.get(crate.name, ((), ""))[0] != mark:
            sums = [(os.path.relpath(it, crate.rlib), self.kit_rt.rtlib.sum_of(it)) for it in files]
            self.libraries[crate.name] = mark, sum_of(sums)
        return self.libraries[crate.name][1]

    def programs(self):
        """A sum of the programs that try bugs."""
        files = sorted(it for form in PROGRAMS for it in self.root.glob(form))
        return sum_of([(it.name, it.read_bytes()) for it in files])

    def of(self, crate, edits):
        """The names of the entries of these planted bugs of a crate, by the bugs' names."""
        below = types.SimpleNamespace(rlibs={it.name: self.library(it) for it in crate.below()})
        common = self.kit_rt.Kept.key(below, crate), self.programs(), self.limits
        folder = pathlib.Path(crate.folder, "planted")
        return {it: sum_of(*common, it, (folder / f"{it}.edit").read_bytes()) for it in edits}

    def touched(self, crate):
        """What differs if a file of the crate was changed meanwhile, also if it was changed back.
        """
        return self.kit_rt.touched(crate)


class Store:
    """The entries in a folder, or none if there is no folder. If it is `blind`, it finds none. It
    writes nothing before the trials of this run are known to be sound."""

    def __init__(self, folder, blind=False):
        self.folder, self.blind = folder, blind
        self.is_trusted, self.waiting, self.lock = False, {}, threading.Lock()

    def found(self, key):
        """The refusal that is kept under this name, and the line that says so, or none."""
        if not self.folder or self.blind:
            return None
        try:
            with open(f"{self.folder}/{key}", encoding="utf-8") as file:
                own, _, text = file.read().partition("\n")
            entry = json.loads(text)
            if own != sum_of(text) or entry["key"] != key or entry["verdict"] not in verdicts.GOOD:
                return None
            os.utime(f"{self.folder}/{key}")
            return entry["verdict"], str(entry["said"])
        except (OSError, ValueError, KeyError, TypeError):
            return None

    def keep(self, key, verdict, said):
        """Keeps a refusal, once the trials can be trusted."""
        if verdict in verdicts.GOOD and self.folder:
            with self.lock:
                self.waiting[key] = {"key": key, "verdict": verdict, "said": said}
                self.write()

    def trust(self):
        """The trials of this run have come to what they must."""
        with self.lock:
            self.is_trusted = True
            self.write()

    def write(self):
        """Writes what waits, each entry apart and then under its name."""
        while self.is_trusted and self.waiting:
            key, entry = self.waiting.popitem()
            text = json.dumps(entry)
            with contextlib.suppress(OSError):
                with tempfile.NamedTemporaryFile("w", prefix="new-", dir=self.folder, delete=False,
                                                 encoding="utf-8") as file:
                    file.write(f"{sum_of(text)}\n{text}")
                os.replace(file.name, f"{self.folder}/{key}")

    def forget(self):
        """Removes what no run has used for long."""
        for it in os.scandir(self.folder) if self.folder else ():
            with contextlib.suppress(OSError):
                if it.is_file() and it.stat().st_mtime < time.time() - DAYS * 24 * 3600:
                    os.unlink(it.path)
