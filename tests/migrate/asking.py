"""Programs that are run, and what they say, for migrate.py and stops.py."""
import os
import shutil
import subprocess
from contextlib import closing
from datetime import datetime, timezone

from book_files import remove
from conversation import without_progress
from first import (
    body_of, bytes_of, connect, fail, in_order, migrated, rows_of, schema_after, schema_of,
)
from story_words import B, REASONS, put, reply

SECONDS = 600


def told(program, *words, text=b"", output=subprocess.PIPE, front=(), first=None):
    """The exit status of a program, its standard output, and its standard error but for lines that
    say how far a slow one is."""
    try:
        done = subprocess.run([*front, program, *words], input=text, stdout=output,
                              stderr=subprocess.PIPE, timeout=SECONDS, preexec_fn=first)
    except subprocess.TimeoutExpired:
        fail(f"{words} does not end within {SECONDS} seconds")
    return done.returncode, done.stdout, without_progress(done.stderr)


def migrate(program, file, *words, **more):
    return told(program, "migrate", "--db", file, *words, **more)


def printed(word):
    return 0, f"{word}\n".encode(), b""


def refused(word):
    return 1, b"", f"canary: {word}\n".encode()


def want(row, found, wanted):
    if found != wanted:
        fail(f"{row}: {str(found)[:2000]} in place of {str(wanted)[:2000]}")


def want_kept(row, file, before):
    """The file has these bytes, and nothing has been left beside it."""
    want(f"{row}: whether its bytes are as before", bytes_of(file) == before, True)
    left = [name for name in os.listdir(os.path.dirname(file)) if "copy" in name]
    want(f"{row}: what is left beside it", left, [])


def lines_of(rows, service):
    """What `history` prints of a service whose lines are among these rows."""
    return "".join(
        f"{datetime.fromtimestamp(moment, timezone.utc):%Y-%m-%dT%H:%M:%SZ} {line}\n"
        for _, of, moment, line in rows["history"] if of == service).encode()


def want_histories(program, file, rows, most=1000):
    """`history` prints the lines of these rows, of so many services at most."""
    for service, *_ in rows["service"][:most]:
        want(f"{file}: the history of {service}", told(program, "history", "--db", file, service),
             (0, lines_of(rows, service), b""))


def want_replies(program, file, rows):
    """Each kept request is sent again, the last one first: it gets its reply."""
    sent = [(put(caller, number, body_of(asked)),
             reply(f"{status} {REASONS[status]}", body.encode()))
            for caller, number, asked, status, body in reversed(rows["kept"])]
    status, found, fault = told(
        program, "pipe", "--at", str(B + 10 ** 8), "--step", "1", "--db", file,
        text=b"".join(message for message, _ in sent))
    want(f"{file}: kept requests", (status, fault), (0, b""))
    place = 0
    for message, wanted in sent:
        want(f"{file}: {message!r}", found[place:place + len(wanted)], wanted)
        place += len(wanted)
    want(f"{file}: more replies than requests", found[place:], b"")


def want_sound(file):
    """SQLite finds the file sound, and its tables as SQLite itself makes them of the first ones."""
    with closing(connect(file)) as found:
        want(f"{file}: integrity", found.execute("PRAGMA integrity_check").fetchall(), [("ok",)])
        want(f"{file}: foreign keys", found.execute("PRAGMA foreign_key_check").fetchall(), [])
    want(f"{file}: schema", schema_of(file), schema_after(file + ".made"))


def want_closed(file, rows):
    """The file was closed, and its log copied into it: it has what these rows become by itself."""
    alone = file + ".alone"
    shutil.copyfile(file, alone)
    want(f"{file}: rows without its log", in_order(rows_of(alone)), migrated(rows))
    remove(alone)


def want_migrated(program, file, rows, most=1000):
    """The file is that which these rows become, is taken for a desk's, and answers as before; the
    histories of so many services at most."""
    wanted = migrated(rows)
    want(f"{file}: rows", in_order(rows_of(file)), wanted)
    want_histories(program, file, rows, most)
    want_replies(program, file, rows)
    want(f"{file}: rows after what was sent again", in_order(rows_of(file)), wanted)
    want_sound(file)
