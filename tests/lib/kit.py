"""What Python programs here take of the kit: its library and its command, which know a crate's
files, libraries and stamps, and the work that checks kept in another clone."""
import importlib.machinery
import importlib.util
import os
import shutil
import subprocess
import sys
import threading

KIT = os.path.dirname(os.path.dirname(os.path.realpath(shutil.which("rt"))))


def load(name, suffix=""):
    """The Python program of this name in the kit's folder `bin` as a module."""
    loader = importlib.machinery.SourceFileLoader(name, f"{KIT}/bin/{name}{suffix}")
    spec = importlib.util.spec_from_loader(name, loader)
    made = importlib.util.module_from_spec(spec)
    sys.modules[name] = made
    loader.exec_module(made)
    return made


def load_rtlib():
    """The library of `rt`."""
    return load("rtlib", ".py")


def load_rt():
    """`rt` itself, which has the library as `rtlib`, and tries must-fail edits."""
    return load("rt")


def share_stamps(rtlib):
    """Makes the stamp of each crate once for each question, not once for each way down to it."""
    make, known = rtlib.Crate.stamp, threading.local()

    def stamp(crate):
        if (found := getattr(known, "stamps", None)) is not None:
            if crate.folder not in found:
                found[crate.folder] = make(crate)
            return found[crate.folder]
        known.stamps = {}
        try:
            return make(crate)
        finally:
            known.stamps = None

    rtlib.Crate.stamp = stamp


def link(source, target):
    """Gives `target` the files of the folder `source`, by hard links.

    A check replaces such files, and writes none in place.
    """
    shutil.rmtree(target, ignore_errors=True)
    os.makedirs(os.path.dirname(target), exist_ok=True)
    subprocess.run(["cp", "-al", source, target], check=True)


def stamp_in(clone, crate):
    """The stamp of what the library of a crate is built of in another clone, or none."""
    try:
        with open(f"{clone}/crates/{crate.name}/out/rlib/stamp", encoding="utf-8") as file:
            return file.read()
    except OSError:
        return None


def take_library(crate, clone):
    """Takes the library of a crate from another clone, where it is built of the same sources."""
    if not crate.is_program and not crate.is_built() and stamp_in(clone, crate) == crate.stamp():
        link(f"{clone}/crates/{crate.name}/out/rlib", f"{crate.folder}/out/rlib")


def take(crates, clone):
    """Takes from another clone what its checks kept, and each library of the same sources."""
    for crate in sorted(crates, key=lambda it: len(it.below())):
        there = f"{clone}/crates/{crate.name}/out/incremental"
        kept = f"{crate.folder}/out/incremental"
        if os.path.isdir(there) and not os.path.isdir(kept):
            link(there, kept)
        take_library(crate, clone)


def stamp_libraries(crates, since):
    """Says of each library that `rt ci` has built of these sources since that second that it is
    built of them: `rt ci` leaves it with no stamp, so other commands would not take it."""
    for crate in crates:
        folder = f"{crate.folder}/out/rlib"
        library = f"{folder}/{crate.name}.rlib"
        if os.path.isdir(library) and os.stat(library).st_mtime >= since:
            with open(f"{folder}/stamp", "w", encoding="utf-8") as file:
                file.write(crate.stamp())
