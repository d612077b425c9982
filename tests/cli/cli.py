"""Runs a program on command lines: cli.py PROGRAM FOLDER [PART..], where FOLDER is for files. The
rows of tests/cli/lines say what each line of words comes to, those of tests/cli/cases among them.
streams.py has the streams, closed.py those that are closed, files.py the measurement files,
calls.py the calls that fail, terminals.py the terminals, and building.py the scripts that build the
program. The comment at the top of tests/cli/run says what is tried."""
import fcntl
import os
import re
import shutil
import signal
import socket
import struct
import subprocess
import sys
import termios
import time

import terminals
from building import try_building
from calls import CALL_PARTS
from chosen import chosen, is_without
from closed import CLOSED_CALL_PARTS, CLOSED_PARTS
from conversation import AT_B, limits_writes, without_progress
from files import FILE_PARTS
from story_words import B, Wrong, blocks, command, expanded, expect, get, put, wire
from streams import REQUEST, STREAM_PARTS
from world import MARKS

HERE = os.path.dirname(os.path.realpath(__file__))
# What stands in desk.db of the rows' folders.
STORY = ["template errs m,interval=60", "service v1 setWeight:20 pause background:errs", "start v2"]
MANIFEST = (b'{"kind":"Rollout","metadata":{"name":"web"},"spec":{"strategy":{"canary":'
            b'{"steps":[{"pause":{}}]}}}}')
ROWS = (b"caller,number,service,run,metric,ordinal,taken,result,failure\n"
        b"agent,1,web,1,m,1,%d,5,\n" % B)
VERSIONS = (b"canary 0.1.0\n", b"canary 0.1.0 (unproved)\n")


def rows_of(name):
    """The blocks of rows of a file of tests/cli/lines, each row in its parts."""
    with open(os.path.join(HERE, "lines", name), encoding="utf-8") as opened:
        head, text = opened.read().split("\n", 1)
    found = [[re.split(" =>(?: |$)", row) for row in block] for block in blocks(text)]
    expect(f"tests/cli/lines/{name}: its rows", f"{name} {sum(map(len, found))}", head)
    return found


def only_rows_of(name):
    (rows,) = rows_of(name)
    return rows


def words_of(text):
    return expanded(text).split()


def lines_of(text):
    return expanded(text.replace("|", "\n"))


def run(program, words, folder=None, **streams):
    return subprocess.run([program, *words], cwd=folder, timeout=60, **streams)


def want(row, done, status, output, errors):
    expect(row, (done.returncode, done.stdout, done.stderr), (status, output, errors))


def run_unread(program, words):
    """What the words come to, and how much of a request the program left in its input."""
    reader, writer = os.pipe()
    os.write(writer, REQUEST)
    done = run(program, words, stdin=reader, capture_output=True)
    left, = struct.unpack("i", fcntl.ioctl(reader, termios.FIONREAD, b"0000"))
    os.close(reader)
    os.close(writer)
    return done, left


def try_cases(program, _):
    """The command lines of tests/cli/cases."""
    cases = os.path.join(HERE, "cases")
    rows = only_rows_of("cases")
    names = {name.split(".")[0] for name in os.listdir(cases)}
    expect("the cases", sorted(name for name, *_ in rows), sorted(names))
    for name, status, line in rows:
        path = os.path.join(cases, name)
        with open(f"{path}.args", encoding="utf-8") as args:
            words = args.read().splitlines()
        written = b""
        if os.path.exists(f"{path}.stdout"):
            with open(f"{path}.stdout", "rb") as stdout:
                written = stdout.read()
        with open(path, "rb") as stdin:
            done = run(program, words, stdin=stdin, capture_output=True)
        told = done.stderr.decode().split("\n")[0]
        expect(name, (done.returncode, told), (int(status), line))
        expect(name, done.stdout, written)
    return len(rows)


def try_mistakes(program, _):
    rows = only_rows_of("mistakes")
    for words, why in rows:
        done, left = run_unread(program, words_of(words))
        expect(words, (done.returncode, done.stdout, left), (2, b"", len(REQUEST)))
        if not done.stderr.startswith(b"error: ") or lines_of(why) not in done.stderr:
            raise Wrong(f"{words}: standard error: {done.stderr.decode()}")
        if {*map(ord, done.stderr.decode())} & {*MARKS} - {ord("\n")}:
            raise Wrong(f"{words}: a mark on standard error: {done.stderr}")
    return len(rows)


def try_help(program, _):
    rows = only_rows_of("help")
    for words, usage, statuses in rows:
        done, left = run_unread(program, words_of(words))
        expect(words, (done.returncode, done.stderr, left), (0, b"", len(REQUEST)))
        for part in (usage, statuses):
            if lines_of(part) not in done.stdout:
                raise Wrong(f"{words}: no {part!r} in {done.stdout.decode()}")
    return len(rows)


def try_version(program, _):
    """The version: also of the quick program, which says that it is unproved."""
    for word in ("--version", "-V"):
        done, left = run_unread(program, [word])
        expect(word, (done.returncode, done.stderr, left), (0, b"", len(REQUEST)))
        if done.stdout not in VERSIONS:
            raise Wrong(f"{word}: {done.stdout}")
    return 2


def try_ends(program, _):
    """How streams end."""
    rows = only_rows_of("ends")
    for stream, status, line in rows:
        done = run(program, AT_B, input=wire(stream), capture_output=True)
        told = f"{line}\n" if line else ""
        expect(stream, (done.returncode, done.stderr), (int(status), told.encode()))
    return len(rows)


def try_faulty_streams(program, folder):
    """An input that is a directory; outputs and error streams that are full at once or after some
    bytes."""
    with open("/dev/full", "wb") as full:
        for words in (["--help"], ["--version"], AT_B):
            done = run(program, words, input=REQUEST, stdout=full, stderr=subprocess.PIPE)
            want(words, done, 1, None, b"canary: write\n")
        done = run(program, ["--nothing"], input=b"", stdout=subprocess.PIPE, stderr=full)
        want("a mistake that cannot be told", done, 2, b"", None)
        done = run(program, AT_B, input=b"P", stdout=subprocess.PIPE, stderr=full)
        want("a fault that cannot be told", done, 1, b"", None)
    count = 5
    with open(os.path.join(folder, "cut"), "w+b") as cut:
        for most in range(8):
            for words, stream in ((AT_B, REQUEST), (["--help"], b"")):
                cut.truncate(0)
                done = run(program, words, input=stream, stdout=cut, stderr=subprocess.PIPE,
                           preexec_fn=lambda: limits_writes(most))
                row = f"{words}, cut off after {most} bytes"
                want(row, done, 1, None, b"canary: write\n")
                expect(row, cut.seek(0, os.SEEK_END), most)
                cut.seek(0)
                count += 1
        cut.truncate(0)
        done = run(program, ["--nothing"], input=b"", stdout=subprocess.PIPE, stderr=cut,
                   preexec_fn=lambda: limits_writes(3))
        want("a mistake of which 3 bytes can be told", done, 2, b"", None)
        expect("a mistake of which 3 bytes can be told", cut.seek(0, os.SEEK_END), 3)
    directory = os.open(folder, os.O_RDONLY)
    done = run(program, AT_B, stdin=directory, capture_output=True)
    os.close(directory)
    want("a directory as input", done, 1, b"", b"canary: read\n")
    return count + 2


def make_folder(program, folder):
    """A folder with the files that rows work on."""
    os.mkdir(folder)
    asked = [put("ops", at, command(text)) for at, text in enumerate(STORY, 1)]
    asked.append(put("agent", 1, command("report 1 m:1:0:5")))
    asked.append(put("ops", 4, command("service v7", "help")))
    words = ["pipe", "--db", "desk.db", "--at", str(B), "--step", "0"]
    done = run(program, words, folder, input=b"".join(asked), capture_output=True)
    expect("the desk", (done.returncode, done.stdout.count(b"HTTP/1.1 200 OK\r\n")), (0, 5))
    files = {
        "rows.csv": ROWS, "rollout.json": MANIFEST, "-a": MANIFEST,
        "asked": put("ops", 1, command("service v1")) + get("/services/web"),
    }
    for name, content in files.items():
        with open(os.path.join(folder, name), "wb") as file:
            file.write(content)


def new_place(program, folder):
    """A copy of such a folder, in the place of the last one."""
    made, place = os.path.join(folder, "made"), os.path.join(folder, "place")
    if not os.path.exists(made):
        make_folder(program, made)
    shutil.rmtree(place, ignore_errors=True)
    return shutil.copytree(made, place)


def is_like(found, text):
    """Whether these bytes are a row's text, in which `...` stands for anything."""
    parts = [re.escape(lines_of(part)) for part in text.split("...")]
    return re.fullmatch(b".*".join(parts), found, re.DOTALL) is not None


def try_programs(program, folder):
    """Which program a line of words asks for, by what it does."""
    count = 0
    for block in rows_of("programs"):
        place = new_place(program, folder)
        for asked, status, text in block:
            words, _, file = asked.partition(" < ")
            with open(os.path.join(place, file) if file else os.devnull, "rb") as stdin:
                done = run(program, words_of(words), place, stdin=stdin, capture_output=True)
            told = without_progress(done.stderr)
            found, other = (done.stdout, told) if status == "0" else (told, done.stdout)
            if (done.returncode, other) != (int(status), b"") or not is_like(found, text):
                raise Wrong(f"{asked}: {done}")
            count += 1
    return count


def try_longest(program, folder):
    """`check` reads a manifest of 16 MiB, and no longer one."""
    place = os.path.join(folder, "longest")
    os.mkdir(place)
    for more, wanted in ((0, (0, b"ok\n")), (1, (1, b""))):
        with open(os.path.join(place, "long.json"), "wb") as file:
            file.write(MANIFEST.ljust(16_777_216 + more))
        done = run(program, ["check", "long.json"], place, capture_output=True)
        expect(f"check, {more} bytes beyond 16 MiB", (done.returncode, done.stdout), wanted)
    return 2


def try_warnings(program, folder):
    """What `check` warns of stands on standard error, and with --strict among the findings."""
    place = os.path.join(folder, "checks")
    os.mkdir(place)
    timed = MANIFEST.replace(b'{"pause":{}}', b'{"setWeight":20},{"pause":{"duration":"5m"}}')
    wrong = timed.replace(b'"5m"', b'"5d"')
    for name, content in (("held.json", MANIFEST), ("timed.json", timed),
                          ("body.json", b'{"service":{"version":"v1","manifest":%s}}' % timed),
                          ("wrong.json", wrong),
                          ("two.yaml", b"---\n" + MANIFEST + b"\n---\n" + wrong),
                          ("both.yaml", b"---\n" + timed + b"\n---\n" + timed)):
        with open(os.path.join(place, name), "wb") as file:
            file.write(content)
    warned = (b"spec.strategy.canary.steps: no step after weight 20 waits for anybody: a version "
              b"reaches 100 % even if nothing is measured: put an analysis step, or pause: {}, "
              b"at the end\n")
    found = (b"spec.strategy.canary.steps[1].pause.duration: expected 90s or 1h30m, or seconds as "
             b"a number or a text of digits, 31,536,000 at most\n")
    of_body = b"service.manifest." + warned
    rows = (
        ("held.json", 0, b"ok\n", b""),
        ("--strict held.json", 0, b"ok\n", b""),
        ("timed.json", 0, b"ok\n", b"canary: warning: " + warned),
        ("--strict timed.json", 1, warned, b""),
        ("timed.json --strict", 1, warned, b""),
        ("--request body.json", 0, b"ok\n", b"canary: warning: " + of_body),
        ("--request body.json --strict", 1, of_body, b""),
        ("wrong.json", 1, found, b""),
        ("--strict wrong.json", 1, found, b""),
        ("two.yaml", 1, b"document of line 3: " + found, b""),
        ("both.yaml", 0, b"ok\n", b"".join(
            b"canary: warning: document of line %d: %s" % (line, warned) for line in (1, 3))),
    )
    for words, status, output, errors in rows:
        done = run(program, ["check", *words.split()], place, capture_output=True)
        want(f"check {words}", done, status, output, errors)
    with open("/dev/full", "wb") as full:
        done = run(program, ["check", "timed.json"], place, stdout=subprocess.PIPE, stderr=full)
    want("check timed.json, to a full error stream", done, 0, b"ok\n", None)
    return len(rows) + 1


def first_line(row, running):
    """The first line that a program writes, within a minute."""
    signal.signal(signal.SIGALRM, lambda *_: running.kill())
    signal.alarm(60)
    line = running.stdout.readline()
    signal.alarm(0)
    if not line.endswith(b"\n"):
        raise Wrong(f"{row}: no line at first: {line!r}")
    return line[:-1]


def asked_for_web(line):
    """The status with which the desk that listens there answers for web."""
    host, port = re.fullmatch(rb"listening \[?(.*?)\]?:(\d+)", line).groups()
    with socket.create_connection((host.decode(), int(port)), timeout=10) as client:
        client.sendall(get("/services/web"))
        return int(client.recv(12)[9:12])


def has_ipv6():
    try:
        with socket.socket(socket.AF_INET6) as tried:
            tried.bind(("::1", 0))
        return True
    except OSError:
        return False


def try_row_that_goes_on(program, place, words, line, status):
    running = subprocess.Popen([program, *words_of(words)], cwd=place, stdin=subprocess.DEVNULL,
                               stdout=subprocess.PIPE, stderr=subprocess.DEVNULL)
    try:
        found = first_line(words, running)
        if not is_like(found, line):
            raise Wrong(f"{words}: its first line is {found!r}")
        if status:
            expect(words, asked_for_web(found), int(status))
        else:
            time.sleep(4)
        expect(f"{words}: its status, while it is to go on", running.poll(), None)
    finally:
        running.kill()
        running.wait()
    if not status:
        again = running.stdout.read().count(line.encode())
        expect(f"{words}: how often it was drawn again", again, 0)


def try_serving(program, folder):
    """Programs that go on until they are ended."""
    tried = 0
    for words, line, status in only_rows_of("serving"):
        if "::1" in words and not has_ipv6():
            print(f"cli: left out: this machine has no IPv6: {words}", file=sys.stderr)
            continue
        try_row_that_goes_on(program, new_place(program, folder), words, line, status)
        tried += 1
    return tried


def try_name(program, folder):
    """The folder of the program need not have a name in UTF-8."""
    place = os.path.join(folder.encode(), b"caf\xe9")
    os.mkdir(place)
    copied = os.path.join(place, b"canary")
    shutil.copy(program, copied)
    with open(os.path.join(HERE, "cases/help.stdout"), "rb") as shown:
        want("a folder whose name is not UTF-8",
             run(copied, ["--help"], input=b"", capture_output=True), 0, shown.read(), b"")
    return 1


def try_terminals(program, folder):
    """What is shown if a stream is a terminal."""
    return terminals.try_terminals(program, lambda: new_place(program, folder))


PARTS = (try_cases, try_mistakes, try_help, try_version, try_ends, try_faulty_streams,
         try_programs, try_longest, try_warnings, try_serving, try_name, try_building, try_terminals,
         *STREAM_PARTS, *FILE_PARTS, *CLOSED_PARTS, *CALL_PARTS, *CLOSED_CALL_PARTS)


def main():
    program, folder, *wanted = sys.argv[1:]
    left_out = (*CALL_PARTS, *CLOSED_CALL_PARTS) if is_without("strace") else ()
    rows = wrong = 0
    for part in chosen("cli", PARTS, wanted, left_out):
        try:
            rows += part(os.path.realpath(program), folder)
        except (Wrong, subprocess.TimeoutExpired) as fault:
            print(f"cli: {part.__name__}: {fault}", file=sys.stderr)
            wrong += 1
    print(f"cli: {rows} rows did as they must, {wrong} parts did not", file=sys.stderr)
    sys.exit(1 if wrong or not rows else 0)


main()
