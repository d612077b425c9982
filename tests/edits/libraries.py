"""The libraries over which planted bugs are tried: those that are built of these sources, or those
that a `rt ci` builds beside the trials."""
import contextlib
import glob
import os
import re
import shutil
import subprocess
import tempfile

import kit

# How `rt ci` says that it has proved a crate, which it does once its library is whole.
PROVED = re.compile(r"^rt: (\w+) proved$", re.MULTILINE)


class Built:
    """The libraries that are built of these sources."""

    def __init__(self, crates):
        self.there = {it.name for it in crates if not it.is_program and it.is_built()}

    def look(self):
        """Whether no more of them are to come."""
        return True

    def lacking(self, crate):
        """Which libraries below a crate are not there."""
        return [it.name for it in crate.below() if it.name not in self.there]


class BuiltBeside(Built):
    """The libraries that a `rt ci` builds, of which `tests/proofs/watched --told FOLDER` tells. If
    it works in a copy, they are taken to the folder `room`, since the copy ends with it."""

    def __init__(self, crates, folder, room):
        super().__init__(())
        self.crates = {it.name: it for it in crates if not it.is_program}
        self.folder, self.room, self.is_over = folder, room, False

    def look(self):
        """Takes those that have come. Whether `rt ci` has ended, so that no more are to come."""
        self.is_over = os.path.exists(f"{self.folder}/status")
        # In the end each counts that is there: a kit may say it in other words, or build elsewhere.
        told = self.crates if self.is_over else PROVED.findall(text_of(f"{self.folder}/lines"))
        for name in told:
            if name in self.crates and name not in self.there:
                self.take(self.crates[name])
        return self.is_over

    def lacking(self, crate):
        """Which libraries below a crate are not there. Before the first one nothing is tried, since
        `rt ci` plans with the memory that is free as it begins."""
        if not self.there and not self.is_over:
            return list(self.crates)
        return super().lacking(crate)

    def begun(self):
        """When `rt ci` began."""
        return os.stat(f"{self.folder}/process").st_mtime

    def take(self, crate):
        """Takes the library of a crate, if this `rt ci` has built it."""
        for folder in self.places(crate):
            library = f"{folder}/{crate.name}.rlib"
            with contextlib.suppress(OSError):
                if os.stat(library).st_mtime < self.begun():
                    continue
                if folder != f"{crate.folder}/out/rlib":
                    library = f"{copied(folder, f'{self.room}/{crate.name}')}/{crate.name}.rlib"
                crate.rlib = library
                self.there.add(crate.name)
                return

    def places(self, crate):
        """The folders in which the library may be: in the crate, or in the copy of `rt ci`."""
        yield f"{crate.folder}/out/rlib"
        number = text_of(f"{self.folder}/process").strip()
        for above in sorted({tempfile.gettempdir(), "/tmp"}):
            yield from glob.glob(f"{above}/rt-copy-{number}-*/crates/{crate.name}/out/rlib")


def copied(folder, target):
    """A copy of a folder, by hard links if both are on one disk."""
    try:
        kit.link(folder, target)
    except subprocess.CalledProcessError:
        shutil.rmtree(target, ignore_errors=True)
        shutil.copytree(folder, target)
    return target


def text_of(file):
    """The text of a file, or nothing if there is none yet."""
    try:
        with open(file, encoding="utf-8", errors="replace") as it:
            return it.read()
    except FileNotFoundError:
        return ""
