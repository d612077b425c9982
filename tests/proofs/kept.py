"""Keeps for `rt check` what the checks of a command make. `rt ci` proves each crate from nothing,
and its checks remove what they made as they end; so its files are linked while they are there."""
import contextlib
import os
import shutil
import subprocess
import tempfile
import time

import kit

# Where a check with this number, that keeps nothing itself, has the modules that it has checked.
MADE = "rattle-logic-built-locked-{}-0"
ENDING = ".oantt"
# The crate of an empty library.
PROBE = "probe"


def name_of_kept():
    """The name of the folder, below a crate's out/incremental, in which a check keeps its work: it
    is that of this version of the prover. A check of an empty library makes such a folder."""
    with tempfile.TemporaryDirectory() as folder:
        with open(f"{folder}/crates.txt", "w", encoding="utf-8"):
            pass
        probe = f"{folder}/crates/{PROBE}"
        subprocess.run(["rt", "new", probe, "start_lib"], cwd=folder, check=True,
                       stdout=subprocess.DEVNULL)
        # Some kits name the crate there, too.
        with contextlib.suppress(FileNotFoundError):
            os.remove(f"{probe}/BUILD.bazel")
        with open(f"{folder}/crates.txt", "w", encoding="utf-8") as crates:
            crates.write(f"{PROBE}:\n")
        subprocess.run(["rt", "check"], cwd=probe, check=True, stdout=subprocess.DEVNULL)
        return os.listdir(f"{probe}/out/incremental")[0]


class Keeper:
    """Collects what checks make, by crates, in a folder on the file system of their own files."""

    def __init__(self):
        self.above = os.environ.get("TMPDIR") or "/tmp"
        self.folder = tempfile.mkdtemp(prefix="kept-", dir=self.above)
        self.since = time.time()
        self.linked = {}

    def look(self, number, crate):
        """Links what the check with this number has made by now."""
        linked = self.linked.setdefault((number, crate), set())
        there, here = f"{self.above}/{MADE.format(number)}", f"{self.folder}/{crate}"
        with contextlib.suppress(OSError):
            new = [it for it in os.listdir(there) if it.endswith(ENDING) and it not in linked]
            os.makedirs(here, exist_ok=True)
            for name in new:
                with contextlib.suppress(FileExistsError):
                    os.link(f"{there}/{name}", f"{here}/{name}")
                linked.add(name)

    def hand_over(self, root):
        """Gives each crate below `root` what was collected of its check, and says of the libraries
        that the command has built there of which sources they are."""
        rtlib, name = kit.load_rtlib(), name_of_kept()
        kit.share_stamps(rtlib)
        crates = {it.name: it for it in rtlib.crates_below(root)}
        for crate in set(os.listdir(self.folder)) & set(crates):
            target = f"{root}/crates/{crate}/out/incremental"
            shutil.rmtree(target, ignore_errors=True)
            os.makedirs(target)
            shutil.move(f"{self.folder}/{crate}", f"{target}/{name}")
        kit.stamp_libraries(crates.values(), self.since)
        shutil.rmtree(self.folder, ignore_errors=True)
