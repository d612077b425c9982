"""Measurement files of a program whose input breaks, or whose output is full: parts of cli.py, each
of which returns how many rows it had."""
import os
import subprocess

from book_files import copy
from conversation import limits_writes, without_progress
from story_words import B, Wrong, answer, command, expect, put
from streams import FAR, connection, joined, read_some, reset

HEADER = b"caller,number,service,run,metric,ordinal,taken,result,failure\n"
# What begins a release of web that waits at a pause, whose background is measured every minute.
RELEASE = [
    ("template errs m,interval=60", "[errs 1]"),
    ("service v1 setWeight:20 pause background:errs", "[web Healthy 2 100]"),
    ("start v2", "[web Paused 1 20]"),
]
# Measurements, each with its phase: the last row has a failure in quotes.
ROWS = [
    (b"agent,1,web,1,m,1,%d,5,\n" % B, "Successful"),
    (b"agent,2,web,1,m,2,%d,[1;-2],\n" % (B + 60), "Successful"),
    (b'agent,3,web,1,m,3,%d,,"time, out"\n' % (B + 120), "Error"),
]
FILE = HEADER + b"".join(row for row, _ in ROWS)


def line(number, phase):
    """The line that answers a row: its number, the status, and the body of the reply."""
    body = answer(f"[web Paused 1 20 | 1 {phase} | Running]").partition(b"\r\n\r\n")[2]
    return b"%d 200 %s\n" % (number, body)


LINES = [line(at + 1, phase) for at, (_, phase) in enumerate(ROWS)]


def copy_to(book, other):
    """A copy of a desk's file under another name."""
    copy(book, other)
    return other


def begun(program, folder):
    """A desk's file with the release."""
    book = os.path.join(folder, "begun")
    stream, want = joined(
        [(put("ops", at + 1, command(asked)), answer(told))
         for at, (asked, told) in enumerate(RELEASE)])
    done = subprocess.run([program, "pipe", "--at", str(B), "--step", "0", "--db", book],
                          input=stream, capture_output=True, timeout=60)
    expect("the release", (done.returncode, done.stdout, done.stderr), (0, want, b""))
    return book


def want_imported(program, book, row):
    """The whole file, imported as it is, is answered as if it came once."""
    done = subprocess.run([program, "import", "--db", book, "-"], input=FILE, capture_output=True,
                          timeout=60)
    found = (done.returncode, done.stdout, without_progress(done.stderr))
    expect(f"{row}, and all of it again", found, (0, b"".join(LINES), b""))


def lines_of(count):
    """The lines of the rows that are whole in the first bytes of the file, up to the end of
    each."""
    whole = FILE[:count].count(b"\n") - 1
    return b"".join(LINES[:max(whole, 0)])


def import_until_reset(program, book, count):
    """So many bytes of the file come, and then the input fails: whole rows are answered, and the
    fault is printed."""
    row = f"an import whose input fails after {count} bytes"
    want = lines_of(count)
    client, ours = connection()
    running = subprocess.Popen([program, "import", "--db", book, "-"], stdin=ours,
                               stdout=subprocess.PIPE, stderr=subprocess.PIPE)
    ours.close()
    client.sendall(FILE[:count])
    expect(row, read_some(running.stdout.fileno(), len(want)), want)
    reset(client)
    try:
        rest, told = running.communicate(timeout=60)
    except subprocess.TimeoutExpired:
        running.kill()
        raise Wrong(f"{row}: it does not end") from None
    expect(row, (running.returncode, rest, without_progress(told)), (1, b"", b"canary: read\n"))
    want_imported(program, book, row)


def try_failing_imports(program, folder):
    """The input fails after each number of bytes but the last: no row that came whole is missing,
    and none that did not is answered."""
    book, other = begun(program, folder), os.path.join(folder, "importing")
    for count in range(len(FILE)):
        import_until_reset(program, copy_to(book, other), count)
    return len(FILE)


def written_to_full(program, words, output, most, given=None):
    """What words come to whose output is full after so many bytes: the output, the exit status and
    the standard error."""
    with open(output, "w+b") as written:
        written.seek(FAR - most)
        done = subprocess.run([program, *words], input=given, stdout=written,
                              stderr=subprocess.PIPE, timeout=60,
                              preexec_fn=lambda: limits_writes(FAR))
        written.seek(FAR - most)
        return written.read(), done.returncode, without_progress(done.stderr)


def try_full_outputs(program, folder):
    """A part of the lines of an import, and of the file of an export, goes out to an output that is
    full after so many bytes."""
    book, other = begun(program, folder), os.path.join(folder, "importing")
    output = os.path.join(folder, "output")
    lines = b"".join(LINES)
    counts = [*range(0, len(lines), 23), len(lines) - 1]
    for most in counts:
        row = f"an import with an output of {most} bytes"
        copy_to(book, other)
        found = written_to_full(program, ["import", "--db", other, "-"], output, most, FILE)
        expect(row, found, (lines[:most], 1, b"canary: write\n"))
        want_imported(program, other, row)
    words = ["export", "--db", other, "--caller", "agent", "web"]
    places = [*range(0, len(FILE), 5), len(FILE) - 1]
    for most in places:
        found = written_to_full(program, words, output, most)
        expect(f"an export to {most} bytes", found, (FILE[:most], 1, b"canary: write\n"))
    expect("a whole export", written_to_full(program, words, output, len(FILE)), (FILE, 0, b""))
    return len(counts) + len(places) + 1


FILE_PARTS = (try_failing_imports, try_full_outputs)
