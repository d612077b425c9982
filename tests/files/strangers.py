"""Files and links of a stranger under the names that the program writes: strangers.py PROGRAM
FOLDER. `page`, `backup` and `status` write no file that was there but OUT, whatever stands beside
the file, and nothing that they write is open to others before it is whole."""
import os
import shutil
import sqlite3
import subprocess
import sys
from contextlib import closing

from chosen import chosen
from conversation import without_progress
from places import (
    DONE, FILE_FAULT, bytes_of, folder_in, make_desk, make_killed_desk, mode_of, pair, serving,
    told, want_names, want_started, write)
from story_words import Wrong, expect

OTHER_USER = 65534
AT_ONCE, TIMES = 4, 10


def names_of_desk(place):
    """Names of the files of the desk in this folder, and of links to them."""
    inside = folder_in(place, "inside")
    os.symlink(".", os.path.join(place, "around"))
    os.symlink("desk.db", os.path.join(place, "link"))
    os.symlink("desk.db-wal", os.path.join(place, "link-of-log"))
    return ["desk.db", "desk.db-wal", "desk.db-journal", "around/desk.db-wal",
            "inside/../desk.db-journal", os.path.join(".", "desk.db"),
            os.path.join(place, "desk.db"), os.path.join(inside, "../around/desk.db"), "link",
            "link-of-log"]


def try_names_of_desk(program, folder):
    """`page` refuses the desk's file, its log and the name of a rollback journal as OUT, by
    whatever name, and the file and the log of another desk, before it writes anything."""
    place = folder_in(folder, "names")
    file = os.path.join(place, "desk.db")
    make_desk(program, file)
    names = names_of_desk(place)
    before = pair(file)

    def want_refused(words):
        there = sorted(os.listdir(place))
        expect(str(words), told([program, *words], cwd=place), FILE_FAULT)
        expect(f"{words}: the desk's file", pair(file), before)
        expect(f"{words}: what is there", sorted(os.listdir(place)), there)

    for out in names:
        want_refused(["page", "--db", "desk.db", out])
    want_refused(["page", "--db", "link", "link"])
    for of in ("desk.db", "desk.db-wal"):
        os.link(os.path.join(place, of), os.path.join(place, "hard"))
        want_refused(["page", "--db", "desk.db", "hard"])
        os.remove(os.path.join(place, "hard"))
    other = os.path.join(place, "other.db")
    make_killed_desk(program, other)
    there = pair(other)
    for out in ("other.db", "other.db-wal", "around/other.db"):
        want_refused(["page", "--db", "desk.db", out])
        expect(f"page on {out}: another desk", pair(other), there)
    os.remove(file + "-wal")
    before = pair(file)
    for out in ("desk.db-wal", "around/desk.db-wal"):
        want_refused(["page", "--db", "desk.db", out])
        want_refused(["backup", "--db", "desk.db", out])


def try_planted(program, folder):
    """What a stranger puts where a page was written stays as it is."""
    place = folder_in(folder, "planted")
    make_desk(program, os.path.join(place, "desk.db"))
    victim = os.path.join(place, "victim")
    plants = {"a link": lambda part: os.symlink("victim", part),
              "a hard link": lambda part: os.link(victim, part),
              "a FIFO": os.mkfifo, "a folder": os.mkdir,
              "a file": lambda part: write(part, "kept")}
    for kind, plant in plants.items():
        write(victim, "kept")
        part, out = (os.path.join(place, name) for name in ("out.part", "out"))
        plant(part)
        before = os.lstat(part)
        words = ["timeout", "50", program, "page", "--db", "desk.db", "out"]
        expect(f"page beside {kind}", told(words, cwd=place), DONE)
        expect(f"page beside {kind}: a page", bytes_of(out)[-8:], b"</html>\n")
        expect(f"page beside {kind}: the victim", bytes_of(victim), b"kept")
        expect(f"page beside {kind}: it", os.lstat(part).st_ino, before.st_ino)
        os.rmdir(part) if kind == "a folder" else os.remove(part)
        os.remove(out)
    os.remove(victim)
    want_names("pages: what is left", place, ["desk[.]db", "desk[.]db-wal"])


def try_kinds(program, folder):
    """OUT that is something other than a file is refused, and stays; a link to a file, or to
    nothing, is replaced, and what it leads to stays."""
    place = folder_in(folder, "kinds")
    make_desk(program, os.path.join(place, "desk.db"))
    target = os.path.join(place, "target")
    write(target, "kept")
    page = [program, "page", "--db", "desk.db"]
    odd = {"folder": os.mkdir, "fifo": os.mkfifo,
           "device": lambda name: os.symlink("/dev/null", name),
           "linked-folder": lambda name: os.symlink("folder", name),
           "output": lambda name: os.symlink("/proc/self/fd/1", name)}
    for name, make in odd.items():
        made = os.path.join(place, name)
        make(made)
        before = os.lstat(made)
        with open(target, "r+b") as output:
            found = subprocess.run([*page, name], cwd=place, stdout=output, timeout=60,
                                   stdin=subprocess.DEVNULL, stderr=subprocess.PIPE, check=False)
        expect(f"page on a {name}", (found.returncode, without_progress(found.stderr)),
               (1, b"canary: file\n"))
        expect(f"page on a {name}: it", (os.lstat(made).st_ino, os.lstat(made).st_mode),
               (before.st_ino, before.st_mode))
    for name, of in (("link", "target"), ("nowhere", "none")):
        os.symlink(of, os.path.join(place, name))
        expect(f"page on a link to {of}", told([*page, name], cwd=place), DONE)
        expect(f"page on a link to {of}: a file", os.path.islink(os.path.join(place, name)), False)
    expect("page on a link: what it leads to", bytes_of(target), b"kept")
    want_names("pages: what is left", place, [
        *odd, "desk[.]db", "desk[.]db-wal", "target", "link", "nowhere"])


def try_modes(program, folder):
    """A page has the mode of a new file, or that of its user's own file that it replaces."""
    place = folder_in(folder, "modes")
    make_desk(program, os.path.join(place, "desk.db"))
    out = os.path.join(place, "out")
    page = [program, "page", "--db", "desk.db", "out"]
    for mask in (0o022, 0o077, 0o027, 0o000):
        expect("page", told(page, cwd=place, umask=mask), DONE)
        expect(f"page with umask {mask:o}", mode_of(out), oct(0o666 & ~mask))
        os.remove(out)
    for mode in (0o640, 0o600, 0o444):
        write(out, "")
        os.chmod(out, mode)
        expect("page", told(page, cwd=place, umask=0o022), DONE)
        expect(f"page on a file of mode {mode:o}", mode_of(out), oct(mode))
        os.remove(out)
    if os.geteuid() == 0:
        write(out, "")
        os.chmod(out, 0o666)
        os.chown(out, OTHER_USER, OTHER_USER)
        expect("page", told(page, cwd=place, umask=0o022), DONE)
        expect("page on a stranger's file", (mode_of(out), os.stat(out).st_uid), (oct(0o644), 0))


def try_modes_of_backups(program, folder):
    """A copy may be read by those who may read the desk's file, and so may its log. Its owner may
    write both."""
    place = folder_in(folder, "backup-modes")
    file, copy = os.path.join(place, "desk.db"), os.path.join(place, "copy")
    make_desk(program, file)
    for mode in (0o600, 0o640, 0o644, 0o400, 0o444):
        for name in (file, file + "-wal"):
            os.chmod(name, mode)
        expect("backup", told([program, "backup", "--db", file, copy], umask=0o022), DONE)
        expect(f"backup of files of mode {mode:o}", [mode_of(copy), mode_of(copy + "-wal")],
               [oct(mode | 0o600)] * 2)
        os.remove(copy)
        os.remove(copy + "-wal")


def try_links_to_desks(program, folder):
    """A backup, a status and a page by a link to a desk's file have the log beside that file, and
    not one beside the link."""
    place, other = folder_in(folder, "linked-desk"), folder_in(folder, "links")
    file, link = os.path.join(place, "desk.db"), os.path.join(other, "link")
    make_killed_desk(program, file)
    os.symlink(file, link)
    for log in (None, "none of a desk"):
        if log:
            write(link + "-wal", log)
        copy, page = (os.path.join(folder, f"{name} {log}") for name in ("copy", "page"))
        expect("backup by a link", told([program, "backup", "--db", link, copy]), DONE)
        want_started("backup by a link", program, copy)
        status, output, errors = told([program, "status", "--db", link])
        expect("status by a link", (status, errors, output.count(b"\nweb ")), (0, b"", 1))
        expect("page by a link", told([program, "page", "--db", link, page]), DONE)
        expect("page by a link: a service", b"web" in bytes_of(page), True)


def try_at_once(program, folder):
    """Of backups that are made at once under one name one is done, and the others are refused;
    the copy is that of one desk, and nothing else is left."""
    place = folder_in(folder, "at-once")
    files = [os.path.join(place, f"desk-{number}") for number in range(AT_ONCE)]
    for number, file in enumerate(files):
        make_desk(program, file, 1 + number % 3, ["--cache", "1"])
    for turn in range(TIMES):
        copy = os.path.join(folder_in(place, f"turn-{turn}"), "copy")
        processes = [subprocess.Popen([program, "backup", "--db", file, copy],
                                      stdin=subprocess.DEVNULL, stdout=subprocess.DEVNULL,
                                      stderr=subprocess.PIPE) for file in files]
        ends = [(process.communicate(timeout=60)[1], process.returncode) for process in processes]
        expect("backups at once", sorted(ends),
               [(b"", 0), *[(b"canary: file\n", 1)] * (AT_ONCE - 1)])
        expect("backups at once: the copy", bytes_of(copy), bytes_of(files[ends.index((b"", 0))]))
        want_names("backups at once: what is left", os.path.dirname(copy), ["copy", "copy-wal"])
        expect("backups at once: links", os.stat(copy).st_nlink, 1)


def try_odd_logs(program, folder):
    """A log that is a link or a FIFO is no log of a desk: nothing of what it leads to is copied."""
    place = folder_in(folder, "odd-logs")
    file = os.path.join(place, "desk.db")
    make_desk(program, file)
    os.remove(file + "-wal")
    write(os.path.join(place, "secret"), "secret")
    for kind, make, fault in (
            ("a link", lambda name: os.symlink("secret", name), FILE_FAULT),
            ("a FIFO", os.mkfifo, (1, b"", b"canary: storage\n"))):
        make(file + "-wal")
        words = ["timeout", "50", program, "backup", "--db", "desk.db", "copy"]
        expect(f"backup, the log is {kind}", told(words, cwd=place), fault)
        os.remove(file + "-wal")
    want_names("backup, an odd log: what is left", place, ["desk[.]db", "secret"])


def try_folder_that_is_shut(program, folder):
    """`status` of a desk that runs needs no folder in which it may write, if TMPDIR is one; a
    backup and a page say that there is none."""
    place, other = folder_in(folder, "shut"), folder_in(folder, "tmp", 0o1777)
    program = shutil.copy(program, folder)
    file = os.path.join(place, "desk.db")
    user = OTHER_USER if os.geteuid() == 0 else os.geteuid()
    with serving(program, file, 3):
        for name in (file, file + "-wal"):
            os.chown(name, user, -1)
        os.chmod(folder, 0o755)
        os.chmod(place, 0o555)
        there = dict(os.environ, TMPDIR=other, XDG_RUNTIME_DIR="")
        try:
            status, output, errors = told([program, "status", "--db", file], env=there, user=user)
            expect("status in a shut folder", (status, errors, output[:4]), (0, b"", b"NAME"))
            for words in (["page", "--db", file, os.path.join(place, "out")],
                          ["backup", "--db", file, os.path.join(place, "copy")]):
                expect(f"{words[0]} in a shut folder",
                       told([program, *words], env=there, user=user), FILE_FAULT)
        finally:
            os.chmod(place, 0o700)
    want_names("status: what is left in TMPDIR", other, [])
    want_names("status: what is left", place, ["desk[.]db", "desk[.]db-wal"])


def make_read_only(place, kind):
    """Makes the desk of this folder one that may be read and not written, in this way."""
    file, log = (os.path.join(place, name) for name in ("desk.db", "desk.db-wal"))
    if kind in ("both files", "a folder, too"):
        os.chmod(file, 0o444)
        os.chmod(log, 0o444)
    if kind == "the log":
        os.chmod(log, 0o444)
    if kind == "no log, and none can be made":
        with closing(sqlite3.connect(file)) as desk, closing(sqlite3.connect(file + "-1")) as one:
            desk.backup(one)
        os.replace(file + "-1", file)
        for name in set(os.listdir(place)) - {"desk.db"}:
            os.remove(os.path.join(place, name))
    if kind in ("a folder, too", "no log, and none can be made"):
        os.chmod(place, 0o555)


# The ways in which a desk may be read and not written, and those in which a copy of it may be
# wrong, or cannot be made.
READ_ONLY = ("both files", "the log", "a folder, too", "no log, and none can be made")
UNREADABLE = {
    "a journal": lambda file: write(file + "-journal", "1"),
    "a second name": lambda file: os.link(file, file + "-too"),
    "a file of others": lambda file: os.chmod(file, 0o200),
    "a log of others": lambda file: os.chmod(file + "-wal", 0o200)}


def looks(file, out, copy):
    """The programs that read a desk's file, also one that may not be written."""
    return (["status", "--db", file], ["status", "--json", "--db", file],
            ["page", "--db", file, out], ["backup", "--db", file, copy])


def want_read_only(program, place, other, kind, user):
    """What `status`, `page` and `backup` make of such a desk, and that they leave it as it is."""
    file = os.path.join(place, "desk.db")
    there = dict(os.environ, TMPDIR=other, XDG_RUNTIME_DIR="")
    out, copy = os.path.join(other, "out"), os.path.join(other, "copy")
    before = (pair(file), sorted(os.listdir(place)))
    for words in looks(file, out, copy):
        status, output, errors = told([program, *words], env=there, user=user)
        expect(f"{words}: {kind}", (status, errors, b"web" in output),
               (0, b"", words[0] == "status"))
    expect(f"a page: {kind}", b"web" in bytes_of(out), True)
    want_names(f"what is left: {kind}", other, ["copy", "copy-wal", "out"])
    expect(f"history: {kind}", told([program, "history", "--db", file, "web"], user=user),
           (1, b"", b"canary: storage\n"))
    expect(f"the desk: {kind}", (pair(file), sorted(os.listdir(place))), before)
    want_started(f"the copy: {kind}", program, copy)


def try_read_only(program, folder):
    """`status`, `page` and `backup` of a desk that may be read and not written; and desks of which
    no copy is read."""
    user = OTHER_USER if os.geteuid() == 0 else os.geteuid()
    program = shutil.copy(program, os.path.join(folder, "read-only-program"))
    os.chmod(program, 0o755)
    os.chmod(folder, 0o755)
    for number, kind in enumerate((*READ_ONLY, *UNREADABLE)):
        place = folder_in(folder, f"read-only-{number}", 0o755)
        other = folder_in(folder, f"read-only-out-{number}", 0o1777)
        file = os.path.join(place, "desk.db")
        make_desk(program, file)
        make_read_only(place, kind)
        for name in (place, *(os.path.join(place, name) for name in os.listdir(place))):
            os.chown(name, user, -1)
        if kind in READ_ONLY:
            want_read_only(program, place, other, kind, user)
            os.chmod(place, 0o755)
            continue
        for name in (file, file + "-wal"):
            os.chmod(name, 0o444)
        UNREADABLE[kind](file)
        there = dict(os.environ, TMPDIR=other, XDG_RUNTIME_DIR="")
        for words in (["status", "--db", file], ["page", "--db", file, os.path.join(other, "out")]):
            expect(f"{words}: {kind}", told([program, *words], env=there, user=user),
                   (1, b"", b"canary: storage\n"))
        want_names(f"what is left: {kind}", other, [])


PARTS = (try_names_of_desk, try_planted, try_kinds, try_modes, try_modes_of_backups,
         try_links_to_desks, try_at_once, try_odd_logs, try_folder_that_is_shut, try_read_only)


def main():
    program, folder, *names = sys.argv[1:]
    try:
        for part in chosen("files", PARTS, names):
            part(os.path.realpath(program), folder)
    except (Wrong, subprocess.TimeoutExpired) as fault:
        sys.exit(f"files: {fault}")


main()
