"""A desk's file and its log, as other files."""
import contextlib
import os
import shutil

ENDS = ("", "-wal")


def remove(file):
    """Removes a file, its log and what SQLite had in memory of it, as far as they are there."""
    for end in (*ENDS, "-shm"):
        with contextlib.suppress(FileNotFoundError):
            os.remove(f"{file}{end}")


def copy(file, to):
    """Copies a file and its log, as far as they are there, in the place of those of that name."""
    remove(to)
    for end in ENDS:
        if os.path.exists(f"{file}{end}"):
            shutil.copyfile(f"{file}{end}", f"{to}{end}")


def size(file):
    """The bytes of a file; none has 0."""
    return os.path.getsize(file) if os.path.exists(file) else 0
