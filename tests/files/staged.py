"""Programs that strace stops, ends or fails at a call while others go on: staged.py PROGRAM FOLDER.
What they write is whole or not there, whoever writes beside them meanwhile."""
import os
import re
import signal
import subprocess
import sys

from chosen import chosen
from places import (
    DONE, FILE_FAULT, RANDOM, SECONDS, bytes_of, folder_in, make_desk, make_killed_desk, mode_of,
    pair, serving, told, wait_until, want_names, want_started, write)
from story_words import Wrong, expect

WRITING = ("pwrite64", "fsync", "fdatasync", "ftruncate")
NAMING = ("rename", "renameat", "renameat2", "link", "linkat")
NO_PLACES = {"TMPDIR": "/nowhere", "XDG_RUNTIME_DIR": ""}


def traced(log, calls, *injected):
    """The words before those of a program, so that strace writes these calls to a log, and does
    what is injected."""
    words = ["strace", "-f", "-s", "512", "-o", log, "-e", "trace=" + ",".join(calls)]
    for call in injected:
        words += ["-e", f"inject={call}"]
    return words


def calls_in(log):
    """The calls of such a log with their words."""
    with open(log, encoding="utf-8") as told_calls:
        return re.findall(r"^\d+ +(\w+)\((.*)\) += (-?\w+)", told_calls.read(), re.MULTILINE)


def stopped_in(log):
    """The process of which a log says that it is stopped."""
    def found():
        if not os.path.exists(log):
            return None
        with open(log, encoding="utf-8") as written:
            return re.search(r"^(\d+) +--- stopped by SIGSTOP", written.read(), re.MULTILINE)
    wait_until(f"{log}: a process that is stopped", found)
    return int(found()[1])


def begin(words, **more):
    return subprocess.Popen(words, stdin=subprocess.DEVNULL, stdout=subprocess.PIPE,
                            stderr=subprocess.PIPE, **more)


def end_of(process):
    output, errors = process.communicate(timeout=SECONDS)
    return process.returncode, output, errors


def try_mixed_pair(program, folder):
    """A backup that is stopped between its two names, and another under the same name that goes on
    meanwhile: one is done, and the copy has the file and the log of that one."""
    place = folder_in(folder, "mixed")
    files = [os.path.join(place, name) for name in ("one", "two")]
    for count, file in enumerate(files, 2):
        with serving(program, file, count):
            pass
    copy, logs = os.path.join(place, "copy"), [os.path.join(place, f"log-{at}") for at in (0, 1)]
    words = [[program, "backup", "--db", file, copy] for file in files]
    stops = ["fsync:signal=STOP:when=1"], [f"{call}:signal=STOP:when=1" for call in NAMING]
    late = begin(traced(logs[0], ["fsync"], *stops[0]) + words[0])
    late_process = stopped_in(logs[0])
    first = begin(traced(logs[1], NAMING, *stops[1]) + words[1])
    first_process = stopped_in(logs[1])
    os.kill(late_process, signal.SIGCONT)
    ends = [end_of(late)]
    os.kill(first_process, signal.SIGCONT)
    ends.append(end_of(first))
    expect("backups in turn", ends, [FILE_FAULT, DONE])
    expect("backups in turn: the copy", bytes_of(copy), bytes_of(files[1]))
    want_names("backups in turn: what is left", place,
               ["one", "one-wal", "two", "two-wal", "copy", "copy-wal", "log-0", "log-1"])


def try_killed_backups(program, folder):
    """A backup that is killed at each call that names or removes something: what it leaves is what
    docs/OPERATIONS.md says, and once that is removed a backup is done."""
    place = folder_in(folder, "killed")
    file, copy = os.path.join(place, "desk.db"), os.path.join(place, "copy")
    make_desk(program, file)
    log = os.path.join(folder, "killed-log")
    backup = [program, "backup", "--db", file, copy]
    part, own = f"copy[.]part-[0-9]+-{RANDOM}", ["desk[.]db", "desk[.]db-wal"]
    for call, when, left in (("mkdir", 1, []), ("link", 1, [part]), ("link", 2, [part, "copy-wal"]),
                             ("unlink", 1, [part, "copy", "copy-wal"]),
                             ("rmdir", 1, [part, "copy", "copy-wal"])):
        row = f"backup, killed at {call} {when}"
        ended = told(traced(log, [call], f"{call}:signal=KILL:when={when}") + backup)
        expect(row, ended[0] != 0, True)
        want_names(row, place, own + left)
        if "copy-wal" in left:
            expect(f"{row}: again", told(backup), FILE_FAULT)
        for name in set(os.listdir(place)) - {"desk.db", "desk.db-wal", "copy", "copy-wal"}:
            subprocess.run(["rm", "-r", os.path.join(place, name)], check=True)
        if "copy" in left:
            expect(f"{row}: the copy", told([program, "status", "--db", copy])[::2], (0, b""))
        for name in ("copy", "copy-wal"):
            if name in left:
                os.remove(os.path.join(place, name))
        expect(f"{row}: once more", told(backup), DONE)
        os.remove(copy)
        os.remove(copy + "-wal")


def try_log_begun_anew(program, folder):
    """A desk begins its log anew while a backup is about to read the log: for the first time, once
    it has copied the file, and once it has copied both. It copies both once more where it has to,
    and has what was settled before it began."""
    for when in 1, 2, 3:
        row = f"backup, the log is begun anew as it is opened for time {when}"
        place = folder_in(folder, f"anew-{when}")
        file, copy = os.path.join(place, "desk.db"), os.path.join(place, "copy")
        log = os.path.join(folder, f"anew-{when}-log")
        make_killed_desk(program, file)
        before = bytes_of(file + "-wal")[:32]
        words = traced(log, ["openat"], f"openat:signal=STOP:when={when}") + ["-P", file + "-wal"]
        copying = begin(words + [program, "backup", "--db", file, copy])
        stopped = stopped_in(log)
        make_desk(program, file)
        expect(f"{row}: its first bytes", bytes_of(file + "-wal")[:32] == before, False)
        os.kill(stopped, signal.SIGCONT)
        expect(row, end_of(copying), DONE)
        want_started(row, program, copy)
        want_names(row, place, ["desk[.]db", "desk[.]db-wal", "copy", "copy-wal"])


def try_failing_backups(program, folder):
    """A backup of which a call fails leaves nothing: the second name that it takes, the folder that
    it syncs, or the first name, as on a file system without hard links."""
    place = folder_in(folder, "failing")
    file, log = os.path.join(place, "desk.db"), os.path.join(folder, "failing-log")
    make_desk(program, file)
    calls = ("fsync", "link")
    backup = [program, "backup", "--db", file, os.path.join(place, "copy")]
    expect("backup", told(traced(log, calls) + ["-y"] + backup), DONE)
    names = [name for name, _, _ in calls_in(log)]
    expect("backup: the order of its calls", names[-6:],
           ["fsync", "fsync", "link", "fsync", "link", "fsync"])
    synced = [re.sub(r"[0-9a-f]{16}", "X", re.search("([^/]*)>", words)[1])
              for name, words, _ in calls_in(log) if name == "fsync"]
    expect("backup: what is synced before it is named", synced[-4:],
           ["X", "X-wal", "failing", "failing"])
    for name in ("copy", "copy-wal"):
        os.remove(os.path.join(place, name))
    count = names.count("fsync")
    for injected in ("link:error=EPERM:when=1", "link:error=EEXIST:when=2",
                     f"fsync:error=EIO:when={count - 1}", f"fsync:error=EIO:when={count}"):
        expect(f"backup, {injected}", told(traced(log, calls, injected) + backup), FILE_FAULT)
        want_names(f"backup, {injected}", place, ["desk[.]db", "desk[.]db-wal"])


def want_succeeded(row, program, file):
    """A new file is whole: its desk has the service that the requests made, done."""
    status, output, errors = told([program, "status", "--db", file])
    expect(row, (status, errors, b"\nweb   Healthy  2/2" in output), (0, b"", True))


def try_killed_successions(program, folder):
    """`succeed` is killed at each call that names or removes something, and at calls that write or
    sync: the new file is whole then or not there, and the old one as it was. Once what is left is
    removed, it is done."""
    place = folder_in(folder, "killed-succession")
    old, new = os.path.join(place, "old.db"), os.path.join(place, "new.db")
    make_desk(program, old, 2)
    log, before = os.path.join(folder, "succession-log"), bytes_of(old)
    words = [program, "succeed", "--db", old, new]
    calls = ("mkdir", "link", "unlink", "rmdir") + WRITING
    expect("succeed", told(traced(log, calls) + words), (0, b"succeeded\n", b""))
    names = [name for name, _, _ in calls_in(log)]
    expect("succeed: the order of its calls", [name for name in names if name not in WRITING],
           ["mkdir", "link", "link", "unlink", "unlink", "rmdir"])
    expect("succeed: what it does between the two names", names[names.index("link"):][:3],
           ["link", "fsync", "link"])
    kept = 0
    for at in sorted({*range(0, len(names), max(1, len(names) // 20)), len(names) - 1,
                      *(at for at, name in enumerate(names) if name not in WRITING)}):
        for name in ("new.db", "new.db-wal"):
            if name in os.listdir(place):
                os.remove(os.path.join(place, name))
        when = names[:at + 1].count(names[at])
        row = f"succeed, killed at {names[at]} {when}"
        ended = told(traced(log, [names[at]], f"{names[at]}:signal=KILL:when={when}") + words)
        expect(row, ended[0] != 0, True)
        expect(f"{row}: the old file", bytes_of(old) == before, True)
        left = set(os.listdir(place)) - {"old.db", "old.db-wal", "new.db", "new.db-wal"}
        for name in left:
            expect(f"{row}: {name}", bool(re.fullmatch(f"new[.]db[.]part-[0-9]+-{RANDOM}", name)),
                   True)
            subprocess.run(["rm", "-r", os.path.join(place, name)], check=True)
        if os.path.exists(new):
            kept += 1
            expect(f"{row}: its log", os.path.exists(new + "-wal"), True)
            want_succeeded(row, program, new)
    expect("succeed, killed: both kinds of end", 0 < kept < len(names), True)


def try_failing_successions(program, folder):
    """`succeed` of which a call fails leaves nothing: a name that it takes, a folder that it syncs,
    what it writes."""
    place = folder_in(folder, "failing-succession")
    old, new = os.path.join(place, "old.db"), os.path.join(place, "new.db")
    make_desk(program, old, 2)
    log = os.path.join(folder, "failing-succession-log")
    words = [program, "succeed", "--db", old, new]
    calls = ("link",) + WRITING
    expect("succeed", told(traced(log, calls) + words), (0, b"succeeded\n", b""))
    names = [name for name, _, _ in calls_in(log)]
    for name in (new, new + "-wal"):
        os.remove(name)
    syncs = names.count("fsync")
    for injected, word in (("link:error=EPERM:when=1", "file"),
                           ("link:error=EEXIST:when=2", "file"),
                           (f"fsync:error=EIO:when={syncs}", "file"),
                           (f"fsync:error=EIO:when={syncs - 1}", "file"),
                           ("mkdir:error=EACCES:when=1", "file"),
                           ("pwrite64:error=ENOSPC:when=5", "storage")):
        call = injected.partition(":")[0]
        expect(f"succeed, {injected}", told(traced(log, [call], injected) + words),
               (1, b"", f"canary: {word}\n".encode()))
        want_names(f"succeed, {injected}", place, ["old[.]db", "old[.]db-wal"])


def try_held(program, folder):
    """While `succeed` gives the new file its names, nobody else opens the old one; another one
    under the same name is refused."""
    place = folder_in(folder, "held")
    old, new = os.path.join(place, "old.db"), os.path.join(place, "new.db")
    make_desk(program, old, 2)
    log = os.path.join(folder, "held-log")
    words = [program, "succeed", "--db", old, new]
    making = begin(traced(log, ["link"], "link:signal=STOP:when=2") + words)
    stopped = stopped_in(log)
    in_use = (1, b"", b"canary: in-use\n")
    expect("held: history", told([program, "history", "--db", old, "web"]), in_use)
    expect("held: another", told([*words[:-1], os.path.join(place, "other")]), in_use)
    expect("held: the same", told(words), FILE_FAULT)
    os.kill(stopped, signal.SIGCONT)
    expect("held", end_of(making), (0, b"succeeded\n", b""))
    want_succeeded("held", program, new)
    want_names("held", place, ["old[.]db", "old[.]db-wal", "new[.]db", "new[.]db-wal"])


def try_linked_log(program, folder):
    """Somebody gives the log of a copy another name before the copy has its own: the copy is not
    made, since another may write its log."""
    place, log = folder_in(folder, "linked-log"), os.path.join(folder, "linked-log-calls")
    file, copy = os.path.join(place, "desk.db"), os.path.join(place, "copy")
    make_desk(program, file)
    words = [program, "backup", "--db", file, copy]
    making = begin(traced(log, ["link"], "link:signal=STOP:when=1") + words)
    stopped = stopped_in(log)
    os.link(copy + "-wal", os.path.join(place, "mine"))
    os.kill(stopped, signal.SIGCONT)
    expect("a linked log", end_of(making), FILE_FAULT)
    want_names("a linked log: what is left", place, ["desk[.]db", "desk[.]db-wal", "mine"])


def try_page_in_turn(program, folder):
    """A page is made under a name that nobody knows before, is its owner's alone until it is whole,
    and is synced before and after it is named; killed or failing it leaves OUT as it was."""
    place, log = folder_in(folder, "page"), os.path.join(folder, "page-log")
    make_desk(program, os.path.join(place, "desk.db"))
    out = os.path.join(place, "out")
    page = [program, "page", "--db", os.path.join(place, "desk.db"), out]
    calls = ("open", "openat", "write", "fchmod", "fsync", "rename")
    expect("page", told(traced(log, calls) + page, umask=0o022), DONE)
    found = calls_in(log)
    made = next(at for at, (_, words, _) in enumerate(found) if ".part-" in words)
    name, words, number = found[made]
    how = rf'AT_FDCWD, "{re.escape(out)}[.]part-[0-9]+-{RANDOM}", .*O_CREAT[|]O_EXCL.*, 0600'
    expect("page: how it is made", bool(re.fullmatch(how, words)), True)
    after = [(call, words) for call, words, _ in found[made + 1:]
             if call == "rename" or re.match(rf"{number}\b", words) or call == "fsync"]
    kinds = [call for call, _ in after if call != "write"]
    expect("page: the order of its calls", kinds[-4:], ["fchmod", "fsync", "rename", "fsync"])
    last_write = max(at for at, (call, _) in enumerate(after) if call == "write")
    expect("page: its mode once it is whole", after[last_write + 1],
           ("fchmod", f"{number}, 0644"))
    opened = [words for call, words, _ in found if call == "openat"]
    mask = 1 + next(at for at, words in enumerate(opened) if "/proc/self/status" in words)
    os.remove(out)
    unknown = traced(log, calls, f"openat:error=ENOENT:when={mask}")
    expect("page, no mask is known", told(unknown + page, umask=0o027), DONE)
    expect("page, no mask is known: its mode", mode_of(out), oct(0o640))
    before = bytes_of(out)
    for injected, left in (("rename:signal=KILL:when=1", 1), ("rename:error=EIO:when=1", 0),
                           ("fchmod:error=EPERM:when=1", 0)):
        ended = told(traced(log, calls, injected) + page)
        expect(f"page, {injected}", ended[0] != 0, True)
        expect(f"page, {injected}: OUT", bytes_of(out), before)
        parts = [name for name in os.listdir(place) if ".part" in name]
        expect(f"page, {injected}: what is left", len(parts), left)
        for name in parts:
            expect(f"page, {injected}: its name",
                   bool(re.fullmatch(f"out[.]part-[0-9]+-{RANDOM}", name)), True)
            os.remove(os.path.join(place, name))


def try_places(program, folder):
    """Where the copy of a desk's file that runs stands: in the first folder in which nobody else
    may rename or remove it, and that has room, or else beside the file."""
    place, log = folder_in(folder, "places"), os.path.join(folder, "places-log")
    modes = {"own": 0o700, "open": 0o777, "group": 0o770, "sticky": 0o1777, "plain": 0o755}
    places = {name: folder_in(folder, name, mode) for name, mode in modes.items()}
    places.update({"none": "/nowhere", "unset": "", "linked": os.path.join(folder, "linked")})
    os.symlink("own", places["linked"])
    if os.geteuid() == 0:
        places["stranger's"] = folder_in(folder, "strangers")
        os.chown(places["stranger's"], 65534, 65534)
    if os.stat("/tmp").st_uid == 0 and os.stat("/tmp").st_mode & 0o1000:
        places["tmp"] = "/tmp"
    file = os.path.join(place, "desk.db")
    with serving(program, file, 3):
        for runtime, temporary, wanted in (
                ("own", "plain", ["own"]), ("linked", "none", ["own"]),
                ("open", "plain", ["plain"]), ("group", "own", ["own"]),
                ("unset", "sticky", ["sticky"]), ("none", "open", ["beside"]),
                ("unset", "none", ["beside"]), ("stranger's", "sticky", ["sticky"]),
                ("unset", "stranger's", ["beside"]), ("unset", "unset", ["tmp"])):
            if {runtime, temporary, *wanted} - {"beside"} <= set(places):
                there = dict(os.environ, XDG_RUNTIME_DIR=places[runtime], TMPDIR=places[temporary])
                want_places(program, file, log, there, [places.get(name) for name in wanted])
        there = dict(os.environ, XDG_RUNTIME_DIR=places["own"], TMPDIR=places["plain"])
        want_places(program, file, log, there, [places["own"], places["plain"]],
                    "write:error=ENOSPC:when=1")
    for name in modes:
        want_names(f"status: what is left in a folder {name}", places[name], [])
    want_names("status: what is left", place, ["desk[.]db", "desk[.]db-wal"])


def want_places(program, file, log, there, wanted, *injected):
    """`status` of a desk that runs makes a folder in each of these places; None is beside it."""
    status, output, errors = told(
        traced(log, ["mkdir", "write"], *injected) + [program, "status", "--db", file], env=there)
    expect(f"status, copied to {wanted}", (status, errors, output[:4]), (0, b"", b"NAME"))
    made = [words for call, words, _ in calls_in(log) if call == "mkdir"]
    patterns = [f"{re.escape(file)}[.]status-copy" if place is None else
                f"{re.escape(os.path.realpath(place))}/canary-status-copy" for place in wanted]
    for words, pattern in zip(made, patterns):
        if not re.fullmatch(rf'"{pattern}-[0-9]+-{RANDOM}", 0700', words):
            raise Wrong(f"status: a folder {words} in place of {pattern}")
    expect("status: how many folders it makes", len(made), len(wanted))


def stops_of_copying(program, file, log):
    """What has strace stop `status` of a desk that runs, each time at another moment: once it has
    made its folder, the copy of the file in it, and that of the log."""
    calls = traced(log, ["mkdir", "openat"])
    done = told([*calls, program, "status", "--db", file], env=dict(os.environ, **NO_PLACES))
    expect("status, traced", (done[0], done[2]), (0, b""))
    opened = [words for call, words, _ in calls_in(log) if call == "openat"]
    made = [at for at, words in enumerate(opened, 1)
            if ".status-copy-" in words and "O_EXCL" in words]
    return ["mkdir:signal=STOP:when=1", *(f"openat:signal=STOP:when={at}" for at in made[:2])]


def try_folder_taken(program, folder):
    """Somebody who may write beside the file puts a link in the place of the folder that `status`
    made there: where it leads nothing is changed, and `status` ends."""
    for at, row in enumerate(("at once", "once it has a file", "once it has a log")):
        place = folder_in(folder, f"taken {row}".replace(" ", "-"), 0o777)
        file, log = os.path.join(place, "desk.db"), os.path.join(folder, f"taken-log-{at}")
        victim = folder_in(folder, f"victim {row}".replace(" ", "-"))
        for name in ("desk.db", "desk.db-wal"):
            write(os.path.join(victim, name), "kept")
        with serving(program, file, 3):
            stop = stops_of_copying(program, file, os.path.join(folder, "copying-log"))[at]
            looking = begin(traced(log, ["mkdir", "openat"], stop)
                            + [program, "status", "--db", file],
                            env=dict(os.environ, **NO_PLACES))
            stopped = stopped_in(log)
            made, = [name for name in os.listdir(place) if ".status-copy-" in name]
            taken = os.path.join(place, made)
            os.rename(taken, os.path.join(place, "moved"))
            os.symlink(victim, taken)
            os.kill(stopped, signal.SIGCONT)
            expect(f"status, its folder is taken {row}", end_of(looking), FILE_FAULT)
            left = sorted(os.listdir(os.path.join(place, "moved")))
            expect(f"its folder is taken {row}: what it had made there", len(left), at)
        want_names(f"its folder is taken {row}", victim, ["desk[.]db", "desk[.]db-wal"])
        expect(f"its folder is taken {row}: a victim", pair(os.path.join(victim, "desk.db")),
               [b"kept", b"kept"])
        expect(f"its folder is taken {row}: the link", os.readlink(taken), victim)


def try_no_memory(program, folder):
    """The system has no memory as a program opens a desk's file, at each time that it opens it:
    that is refused memory."""
    place = folder_in(folder, "no-memory")
    file, log = os.path.join(place, "desk.db"), os.path.join(folder, "no-memory-log")
    make_desk(program, file)
    asked = ["-P", file, program, "history", "--db", file, "web"]
    expect("history, traced", told(traced(log, ["openat"]) + asked)[::2], (0, b""))
    opened = len(calls_in(log))
    expect("how often history opens the file: at least twice", opened >= 2, True)
    before = pair(file)
    for at in range(1, opened + 1):
        injected = f"openat:error=ENOMEM:when={at}"
        expect(f"history, no memory to open the file, {at}",
               told(traced(log, ["openat"], injected) + asked), (1, b"", b"canary: memory\n"))
    expect("no memory to open the file: what is left", pair(file), before)


def try_replaced(program, folder):
    """Another desk's file takes the place of the one that a program is about to open: it
    shows nothing of that file."""
    place = folder_in(folder, "replaced")
    file, other = os.path.join(place, "desk.db"), os.path.join(place, "other.db")
    log = os.path.join(folder, "replaced-log")
    make_desk(program, file)
    make_desk(program, other, 2)
    reading = begin(traced(log, ["openat"], "openat:signal=STOP:when=1")
                    + ["-P", file, program, "history", "--db", file, "web"])
    stopped = stopped_in(log)
    os.rename(other, file)
    os.kill(stopped, signal.SIGCONT)
    expect("history, another file in the place of its own", end_of(reading),
           (1, b"", b"canary: storage\n"))


def try_making(program, folder):
    """Each call that writes or syncs fails as a desk's file is made: the program says so. The file
    that is made then has pages of 512 bytes."""
    place = folder_in(folder, "making")
    file, log = os.path.join(place, "desk.db"), os.path.join(folder, "making-log")
    asked = ["-P", file, "-P", file + "-wal", program, "pipe", "--at", "0", "--step", "0",
             "--db", file]
    expect("a desk that is made", told(traced(log, WRITING) + asked), (0, b"", b""))
    names = [name for name, _, _ in calls_in(log)]
    expect("a call writes to the file that is made", "pwrite64" in names, True)
    for at, name in enumerate(names):
        row = f"a desk that is made, {name} {at + 1} fails"
        for left in (file, file + "-wal"):
            os.remove(left)
        injected = f"{name}:error=EIO:when={names[:at + 1].count(name)}"
        expect(row, told(traced(log, WRITING, injected) + asked), (1, b"", b"canary: storage\n"))
        expect(f"{row}, and then made", told(asked[4:]), (0, b"", b""))
        expect(f"{row}: the size of its pages", bytes_of(file)[16:18], b"\x02\x00")


PARTS = (try_no_memory, try_replaced, try_making, try_mixed_pair, try_killed_backups,
         try_log_begun_anew, try_failing_backups, try_killed_successions, try_failing_successions,
         try_held, try_linked_log, try_page_in_turn, try_places, try_folder_taken)


def main():
    program, folder, *names = sys.argv[1:]
    try:
        for part in chosen("files", PARTS, names):
            part(os.path.realpath(program), folder)
    except (Wrong, subprocess.TimeoutExpired) as fault:
        sys.exit(f"files: {fault}")


main()
