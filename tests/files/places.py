"""What strangers.py and staged.py share: desks in folders, and what a program writes there."""
import os
import re
import subprocess
import time
from contextlib import contextmanager

from conversation import STILL_AT_B, reply_of, without_progress
from story_words import B, Wrong, command, expect, put

SECONDS = 60
DONE, FILE_FAULT = (0, b"", b""), (1, b"", b"canary: file\n")
RANDOM = r"[0-9a-f]{16}"
STREAM = [put("ops", 1, command("template errs m,interval=60")),
          put("ops", 2, command("service v1 setWeight:20 pause", "web")),
          put("ops", 3, command("start v2", "web"))]


def told(words, **more):
    """How a command ends: its status, its output and its error stream."""
    try:
        done = subprocess.run(words, stdin=subprocess.DEVNULL, capture_output=True,
                              timeout=SECONDS, check=False, **more)
    except subprocess.TimeoutExpired as late:
        raise Wrong(f"{words}: not done in {SECONDS} seconds") from late
    return done.returncode, done.stdout, without_progress(done.stderr)


def wait_until(row, is_so, seconds=SECONDS):
    """Waits until this is so."""
    end = time.monotonic() + seconds
    while not is_so():
        if time.monotonic() > end:
            raise Wrong(f"{row}: not in {seconds} seconds")
        time.sleep(0.01)


def make_desk(program, file, count=len(STREAM), options=()):
    """A desk's file that settled so many requests, and was closed."""
    words = [program, "pipe", "--at", str(B), "--step", "1", "--db", file, *options]
    done = subprocess.run(words, input=b"".join(STREAM[:count]), capture_output=True,
                          timeout=SECONDS, check=True)
    expect(f"a desk in {file}", done.stdout.count(b"HTTP/1.1 200 OK"), count)


def make_killed_desk(program, file):
    """A desk's file whose desk settled the requests and was killed: its log has the commits."""
    with subprocess.Popen([program, *STILL_AT_B, "--db", file], stdin=subprocess.PIPE,
                          stdout=subprocess.PIPE) as desk:
        for message in STREAM:
            expect(f"a desk in {file}", reply_of(desk, message)[:15], b"HTTP/1.1 200 OK")
        desk.kill()


def want_started(row, program, copy):
    """A copy has the release that the requests began."""
    status, output, errors = told([program, "history", "--db", copy, "web"])
    expect(row, (status, errors, b"start v2" in output), (0, b"", True))


@contextmanager
def serving(program, file, count=0):
    """A desk that serves a file, and has settled so many requests by pipe before."""
    make_desk(program, file, count)
    words = [program, "serve", "--listen", "127.0.0.1:0", "--db", file]
    with subprocess.Popen(words, stdout=subprocess.PIPE, stderr=subprocess.DEVNULL) as desk:
        try:
            if not re.match(rb"listening ", desk.stdout.readline()):
                raise Wrong(f"no desk on {file}")
            yield desk
        finally:
            desk.kill()


def bytes_of(file):
    with open(file, "rb") as found:
        return found.read()


def pair(file):
    """The bytes of a database and of its log; none of what is not there."""
    return [bytes_of(name) if os.path.lexists(name) else None for name in (file, file + "-wal")]


def write(file, text):
    with open(file, "w", encoding="ascii") as made:
        made.write(text)


def mode_of(file):
    return oct(os.lstat(file).st_mode & 0o7777)


def folder_in(place, name, mode=0o700):
    folder = os.path.join(place, name)
    os.mkdir(folder)
    os.chmod(folder, mode)
    return folder


def want_names(row, folder, names):
    """What stands in a folder, by patterns."""
    found = sorted(os.listdir(folder))
    if len(found) != len(names) or not all(map(re.fullmatch, sorted(names), found)):
        raise Wrong(f"{row}: {found} in place of {sorted(names)}")
