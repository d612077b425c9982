"""A new file that succeeds an old one: succeeded.py PROGRAM FOLDER [PART..]. What `canary succeed`
makes of a desk, when it refuses to, and that the old file stays as it was."""
import json
import os
import re
import shutil
import sqlite3
import subprocess
import sys
import tempfile
import time
from contextlib import closing

from chosen import chosen
from conversation import limits_writes, without_progress
from places import (
    FILE_FAULT, bytes_of, folder_in, make_desk, mode_of, serving, told, want_names, write)
from story_words import B, Wrong, answer, command, expect, put, replies

SUCCEEDED = (0, b"succeeded\n", b"")
HEADER = b"NAME  STATUS  STEP  WEIGHT  VERSION  STABLE  LATE\n"
# What changes of a page as time passes.
MOMENTS = rb'as it stood at <time .*?</time>|\(\d+ days\)|<text class="tick end".*?</text>'
# Three templates, of which one has three revisions and one no service; and six services: one that
# is done, one that was aborted, one of which nobody released anything, one whose pause has ended by
# now, one that waits for a measurement, and one that waits for somebody.
TEMPLATES = ("errs m1,interval=60", "slow s1,count=3,interval=60", "errs m2,interval=60",
             "idle i1", "slow s2,count=2,interval=30,failureLimit=1",
             "errs m3,interval=90,success=result;<;5")
SERVICES = (
    ("web", "v1 setWeight:20 pause background:errs@1", "start v2", "promote"),
    ("api", "v1 setWeight:10 analysis:slow", "start v2", "abort"),
    ("shop", "v7"),
    ("mail", "v1 setWeight:30 pause:60", "start v2"),
    ("blog", "v1 setWeight:10 analysis:slow", "start v2"),
    ("news", "v1 setWeight:5 pause", "start v2"),
)
# What each service is in the new file: its stable version, and how many steps it has.
STABLE = {"api": ("v1", 2), "blog": ("v1", 2), "mail": ("v2", 2), "news": ("v2", 2),
          "shop": ("v7", 0), "web": ("v2", 2)}


def refused(word):
    return 1, b"", f"canary: {word}\n".encode()


def asks(program, file, *asked, first=1, caller="ops", at=B):
    """Settles commands of a caller in a file, and gives their replies."""
    sent = b"".join(put(caller, number, body) for number, body in enumerate(asked, first))
    done = subprocess.run([program, "pipe", "--at", str(at), "--step", "0", "--db", file],
                          input=sent, capture_output=True, check=True, timeout=60)
    return replies(done.stdout)


def make_grown(program, file):
    """The desk of TEMPLATES and SERVICES; gives how many requests of ops are settled."""
    asked = [command(f"template {words}".replace(";", " ")) if ";" not in words
             else command_of(words) for words in TEMPLATES]
    for name, made, *then in SERVICES:
        asked += [command(f"service {made}", name), *(command(each, name) for each in then)]
    found = asks(program, file, *asked)
    expect("a desk that has grown", [status for status, *_ in found], [200] * len(asked))
    return len(asked)


def command_of(words):
    """A template one of whose words has spaces, each written as a semicolon."""
    made = json.loads(command("template " + words))
    for metric in made["template"]["spec"]["metrics"]:
        for key in ("successCondition", "failureCondition"):
            if key in metric:
                metric[key] = metric[key].replace(";", " ")
    return json.dumps(made).encode()


def succeed(program, old, new, **more):
    return told([program, "succeed", "--db", old, new], **more)


def rows(file, statement):
    """What a statement finds in a copy of a file and its log."""
    with tempfile.TemporaryDirectory() as place:
        for end in ("", "-wal"):
            shutil.copy(file + end, os.path.join(place, f"copy{end}"))
        with closing(sqlite3.connect(os.path.join(place, "copy"))) as found:
            return found.execute(statement).fetchall()


def newest(file):
    """The newest revision of each template, as it is kept."""
    return rows(file, "SELECT name, spec FROM revision AS r WHERE revision ="
                      " (SELECT max(revision) FROM revision WHERE name = r.name) ORDER BY name")


def stands(program, file):
    status, output, errors = told([program, "status", "--json", "--db", file])
    expect(f"status of {file}", (status, errors), (0, b""))
    return [json.loads(line) for line in output.splitlines()]


def healthy(name):
    stable, steps = STABLE[name]
    return {"name": name, "runs": [], "stable": stable, "status": "Healthy", "step": steps,
            "steps": steps, "version": stable, "weight": 100}


def seen(program, file):
    """What the old file shows: histories, measurements, the page but for its moments, and its
    bytes. Whoever opens it may give a log without frames another header."""
    page = told([program, "page", "--db", file, "-"])
    expect(f"page of {file}", page[::2], (0, b""))
    asked = [told([program, *words, "--db", file, *more, name]) for name in STABLE
             for words, more in ((["history"], []), (["export"], ["--caller", "copy"]))]
    return asked, re.sub(MOMENTS, b"", page[1]), bytes_of(file)


def try_grown(program, folder):
    """A desk that has grown: it is refused while a release is going on. Then the new file has each
    service at its stable version, and each template at its newest revision, and the old file stays
    as it was."""
    place = folder_in(folder, "grown")
    old, new = os.path.join(place, "old.db"), os.path.join(place, "new.db")
    count = make_grown(program, old)
    for ended in ("blog: abort", "news: promoteFull"):
        before = bytes_of(old)
        expect(f"before {ended}", succeed(program, old, new), refused("in-progress"))
        want_names(f"before {ended}", place, ["old[.]db", "old[.]db-wal"])
        expect(f"before {ended}: the old file", bytes_of(old) == before, True)
        name, asked = ended.split(": ")
        count += 1
        expect(ended, asks(program, old, command(asked, name), first=count)[0][0], 200)
    before = seen(program, old)
    begun = int(time.time())
    expect("a desk that has grown", succeed(program, old, new), SUCCEEDED)
    want_names("a desk that has grown", place, ["old[.]db", "old[.]db-wal", "new[.]db",
                                                "new[.]db-wal"])
    want_new(program, old, new, begun)
    want_released(program, new)
    expect("the old file", seen(program, old), before)
    try_succeeded_again(program, new)


def want_new(program, old, new, begun):
    """What stands in the new file."""
    expect("the services", stands(program, new), [healthy(name) for name in sorted(STABLE)])
    expect("the templates", newest(new), newest(old))
    expect("their revisions", rows(new, "SELECT name, revision FROM revision ORDER BY name"),
           [("errs", 1), ("idle", 1), ("slow", 1)])
    count = len(STABLE) + 3
    expect("who asked", rows(new, "SELECT name, settled FROM caller"), [("succeed", count)])
    for table in ("run", "measurement", "binding", "tally"):
        expect(f"rows of {table}", rows(new, f"SELECT count(*) FROM {table}"), [(0,)])
    made = rows(new, "SELECT service, moment, line FROM history ORDER BY service")
    expect("the histories", [(name, line) for name, _, line in made],
           [(name, f"created {STABLE[name][0]}") for name in sorted(STABLE)])
    late = [at for _, at, _ in made if not begun <= at <= int(time.time())]
    expect("moments that are not now", late, [])
    for name, made in specs(new).items():
        expect(f"the service {name}", made, {**specs(old)[name], "version": STABLE[name][0]})


def specs(file):
    """What each service was asked for as, as it is kept."""
    return {name: json.loads(spec)["service"]
            for name, spec in rows(file, "SELECT name, spec FROM service")}


def want_released(program, new):
    """A release of a new desk: its callers begin with number 1, and it takes the newest revision
    of old."""
    at = int(time.time()) + 10
    found = asks(program, new, command("start v9"), command("start v3", "api"), at=at)
    expect("releases", b"".join(text for _, _, text in found),
           answer("[web Paused 1 20]") + answer("[api Progressing 1 10]"))
    named = {stand["name"]: stand for stand in stands(program, new)}
    for name, template, metric in (("web", "errs", "m3"), ("api", "slow", "s2")):
        run, = named[name]["runs"]
        expect(f"the run of {name}", (run["templates"], run["metrics"][0]["name"]),
               ([{"name": template, "revision": 1}], metric))
    expect("the caller of the succession", [(status, text) for status, text, _ in asks(
        program, new, command("tick", "shop"), caller="succeed", at=at)],
        [(409, b'{"code":"reused"}')])
    expect("the release ends", asks(program, new, command("abort"), command("abort", "api"),
                                    first=3, at=at)[1][0], 200)


def try_succeeded_again(program, file):
    """The new file can be succeeded, too."""
    again = file + ".again"
    expect("again", succeed(program, file, again), SUCCEEDED)
    expect("again: the services", stands(program, again),
           [healthy(name) for name in sorted(STABLE)])
    expect("again: the templates", newest(again), newest(file))


def try_small(program, folder):
    """Desks of which little is there: nothing at all, and one service; the modes of their files."""
    place = folder_in(folder, "small")
    for count, shown in ((0, HEADER), (2, b"web   Healthy  2/2")):
        old, new = (os.path.join(place, f"{name}-{count}") for name in ("old", "new"))
        make_desk(program, old, count)
        expect(f"{count} requests", succeed(program, old, new, umask=0o027), SUCCEEDED)
        status, output, errors = told([program, "status", "--db", new])
        expect(f"{count} requests: status", (status, errors, shown in output), (0, b"", True))
        expect(f"{count} requests: modes", [mode_of(new), mode_of(new + "-wal")],
               [oct(0o640), oct(0o640)])


def try_output(program, folder):
    """An output that is full: the new file is there then."""
    place = folder_in(folder, "output")
    old, new = os.path.join(place, "old.db"), os.path.join(place, "new.db")
    make_desk(program, old, 2)
    with open("/dev/full", "wb") as full:
        done = subprocess.run([program, "succeed", "--db", old, new], stdout=full,
                              stderr=subprocess.PIPE, timeout=60, check=False)
    expect("a full output", (done.returncode, without_progress(done.stderr)),
           (1, b"canary: write\n"))
    expect("a full output: the new file", [each["name"] for each in stands(program, new)], ["web"])


def try_names(program, folder):
    """Names that the new file cannot have: nothing is made or changed."""
    place = folder_in(folder, "names")
    old = os.path.join(place, "old.db")
    make_desk(program, old, 2)
    write(os.path.join(place, "file"), "kept")
    write(os.path.join(place, "log-wal"), "kept")
    os.mkdir(os.path.join(place, "folder"))
    os.mkfifo(os.path.join(place, "fifo"))
    for name, end in (("dangling", "nowhere"), ("link", "old.db"), ("other", "file")):
        os.symlink(end, os.path.join(place, name))
    left = sorted(os.listdir(place))
    before = bytes_of(old)
    for name in ("file", "log", "folder", "fifo", "dangling", "link", "other", "old.db",
                 "old.db-wal", "old.db-journal", os.path.join(".", "old.db"), "folder/../old.db",
                 "none/new", "file/new", "folder/", ""):
        expect(f"the name {name!r}", succeed(program, "old.db", name, cwd=place), FILE_FAULT)
    for name in (":memory:", "file:new"):
        expect(f"the name {name}", succeed(program, old, name, cwd=place), refused("storage"))
    expect("names: what is left", sorted(os.listdir(place)), left)
    expect("names: the old file", bytes_of(old) == before, True)
    expect("names: a file", [bytes_of(os.path.join(place, name)) for name in ("file", "log-wal")],
           [b"kept", b"kept"])


def try_olds(program, folder):
    """Files that have no successor: none, no desk's, in use, linked, changed."""
    place = folder_in(folder, "olds")
    old, new = os.path.join(place, "old.db"), os.path.join(place, "new.db")
    write(os.path.join(place, "text"), "longer than the first bytes of a database\n")
    write(os.path.join(place, "empty"), "")
    os.mkfifo(os.path.join(place, "fifo"))
    for name, word in (("none", "file"), ("fifo", "storage"), (".", "storage"),
                       ("text", "storage"), ("empty", "other-schema"), (":memory:", "file")):
        expect(f"the old file {name}", succeed(program, name, new, cwd=place), refused(word))
    expect("the old file empty: its bytes", bytes_of(os.path.join(place, "empty")), b"")
    for name in ("text", "empty", "fifo"):
        os.remove(os.path.join(place, name))
    make_desk(program, old, 2)
    os.link(old, os.path.join(place, "linked"))
    expect("another hard link", succeed(program, old, new), refused("storage"))
    os.remove(os.path.join(place, "linked"))
    with closing(sqlite3.connect(old)) as changed:
        changed.execute("UPDATE revision SET revision = 2")
        changed.commit()
    expect("a changed row", succeed(program, old, new), refused("broken-row"))
    with closing(sqlite3.connect(os.path.join(place, "other"))) as made:
        made.execute("CREATE TABLE note (title TEXT)")
        made.commit()
    expect("another's", succeed(program, os.path.join(place, "other"), new),
           refused("other-schema"))
    left = [name for name in os.listdir(place) if name.startswith("new")]
    expect("what is left", left, [])


def try_in_use(program, folder):
    """A desk that serves its file: it has to end first."""
    place = folder_in(folder, "in-use")
    old, new = os.path.join(place, "old.db"), os.path.join(place, "new.db")
    with serving(program, old, 2):
        expect("in use", succeed(program, old, new), refused("in-use"))
        want_names("in use", place, ["old[.]db", "old[.]db-wal"])
    expect("in use no more", succeed(program, old, new), SUCCEEDED)


def try_full_disk(program, folder):
    """A disk that is full as the new file is written: no file is left of it."""
    place = folder_in(folder, "full")
    old, new = os.path.join(place, "old.db"), os.path.join(place, "new.db")
    make_desk(program, old, 2)
    before = bytes_of(old)
    for most in (0, 512, 4096, 10_000):
        def first():
            limits_writes(most)
        expect(f"{most} bytes", succeed(program, old, new, preexec_fn=first), refused("storage"))
        want_names(f"{most} bytes", place, ["old[.]db", "old[.]db-wal"])
    expect("a full disk: the old file", bytes_of(old) == before, True)
    expect("a disk with room", succeed(program, old, new), SUCCEEDED)


PARTS = (try_grown, try_small, try_output, try_names, try_olds, try_in_use, try_full_disk)


def main():
    program, folder, *names = sys.argv[1:]
    try:
        for part in chosen("files", PARTS, names):
            part(os.path.realpath(program), folder)
    except (Wrong, subprocess.TimeoutExpired) as fault:
        sys.exit(f"files: {fault}")


main()
