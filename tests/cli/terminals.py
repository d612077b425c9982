"""What a program on a desk's file shows if a stream of it is a terminal: parts of cli.py, each of
which returns how many rows it had."""
import contextlib
import os
import re
import sqlite3
import subprocess
from concurrent.futures import ThreadPoolExecutor

from conversation import without_progress
from screen import ERASED, begin_on_terminal, read_terminal, run_showing
from story_words import B, Wrong, command, expect, put

CLEARED = b"\x1b[H\x1b[2J"
# The rows of a desk whose one caller adds so many revisions: their receipts, of which so many are
# judged at once.
RECEIPTS, PAGE = 530, 256
# The bytes of a log in which is no frame.
LOG, MEGABYTE = 99_000_000, 1_000_000
HEADER = b"caller,number,service,run,metric,ordinal,taken,result,failure\n"
MADE = b"canary: made new.db, since there was no such file\n"


def counts(row, shown, line):
    """The counts of one line that is written anew as it goes, and erased at the end."""
    form = rb"(?:\r" + line + rb")+" + re.escape(ERASED)
    if not re.fullmatch(form, shown):
        raise Wrong(f"{row}: it showed {shown!r}")
    found = [int(count) for count in re.findall(line, shown)]
    if found != sorted(found):
        raise Wrong(f"{row}: it counted {found}")
    return found


def judged(row, shown):
    """What is shown after the judging of the desk's file, of less than a megabyte: the line is
    drawn after the receipts of ops and of agent, and then after each service, web and help."""
    end = shown.find(ERASED) + len(ERASED)
    found = counts(row, shown[:end], rb"canary: (\d+) of 1 MB judged")
    expect(f"{row}: megabytes judged", found, [0, 0, 0, 0])
    return shown[end:]


def try_judging(program, place):
    """The judging of a desk's file is shown, and the output is as if it were not."""
    rows = (["history", "--db", "desk.db", "web"], ["status", "--db", "desk.db"],
            ["export", "--db", "desk.db", "--caller", "agent", "web"])
    for words in rows:
        plain = subprocess.run([program, *words], cwd=place, stdin=subprocess.DEVNULL, timeout=60,
                               capture_output=True)
        expect(f"{words}: no terminal", (plain.returncode, without_progress(plain.stderr)),
               (0, b""))
        written, shown = run_showing(program, words, place)
        expect(words, (written, judged(words, shown)), (plain.stdout, b""))
    return len(rows)


def try_pages(program, place):
    """The receipts of a caller with more than 512 are judged in pages, each counted once. What is
    judged is shown as as large a share of the bytes of the file and its log as of its rows. The
    file is a large one, so the line stands there before SQLite has read any of it."""
    sent = [put("ops", number, command("template errs m,interval=60"))
            for number in range(1, RECEIPTS + 1)]
    made = subprocess.run([program, "pipe", "--at", str(B), "--step", "1", "--db", "pages.db"],
                          input=b"".join(sent), cwd=place, timeout=60, capture_output=True)
    expect("a caller of many requests", made.stdout.count(b"HTTP/1.1 200 OK"), RECEIPTS)
    with open(os.path.join(place, "pages.db-wal"), "wb") as log:
        log.truncate(LOG)
    size = os.path.getsize(os.path.join(place, "pages.db")) + LOG
    words = ["status", "--db", "pages.db"]
    _, shown = run_showing(program, words, place)
    end, whole = shown.find(ERASED) + len(ERASED), -(-size // MEGABYTE)
    found = counts(words, shown[:end], rb"canary: (\d+) MB read to check %d MB" % whole)
    expect(f"{words}: megabytes read at first", found[0], 0)
    found = counts(words, shown[end:], rb"canary: (\d+) of %d MB judged" % whole)
    expect(f"{words}: megabytes judged", found,
           [size * judged // RECEIPTS // MEGABYTE for judged in (PAGE, 2 * PAGE, RECEIPTS)])
    return 1


def try_shares(program, place):
    """Rows of each kind are counted, and judged: three receipts of each of two callers; and of a
    service with a release two rows of its run and its tally, two of what the attempt and the run
    are bound to, three measurements and five lines. Once these are judged, all of the file is."""
    sent = [put("ops", 1, command("template errs m,interval=60")),
            put("ops", 2, command("service v1 setWeight:20 pause background:errs")),
            put("ops", 3, command("start v2")),
            *(put("agent", number, command(f"report 1 m:{number}:{after}:5"))
              for number, after in ((1, 180), (2, 240), (3, 300)))]
    made = subprocess.run([program, "pipe", "--at", str(B), "--step", "60", "--db", "shares.db"],
                          input=b"".join(sent), cwd=place, timeout=60, capture_output=True)
    expect("a release", made.stdout.count(b"HTTP/1.1 200 OK"), len(sent))
    with open(os.path.join(place, "shares.db-wal"), "wb") as log:
        log.truncate(LOG)
    size = os.path.getsize(os.path.join(place, "shares.db")) + LOG
    words = ["history", "--db", "shares.db", "web"]
    _, shown = run_showing(program, words, place)
    end, whole = shown.find(ERASED) + len(ERASED), -(-size // MEGABYTE)
    found = counts(words, shown[end:], rb"canary: (\d+) of %d MB judged" % whole)
    expect(f"{words}: megabytes judged", found,
           [size * rows // 18 // MEGABYTE for rows in (3, 6, 18)])
    return 1


def try_drawing(program, place):
    """How many services of a page are drawn is shown, after the judging of the desk's file."""
    words = ["page", "--db", "desk.db", "desk.html"]
    written, shown = run_showing(program, words, place)
    expect(words, written, b"")
    found = counts(words, judged(words, shown), rb"canary: (\d+) of 2 services drawn")
    expect(f"{words}: services", found, [1, 2])
    with open(os.path.join(place, "desk.html"), "rb") as page:
        expect(f"{words}: the page's end", page.read()[-8:], b"</html>\n")
    return 1


def try_reading(program, place):
    """How much of a measurement file is read: of so many megabytes, if that is known. Its two
    rows are too long for any, and refused."""
    content = HEADER + 2 * (b"x" * 1_200_000 + b"\n")
    with open(os.path.join(place, "long.csv"), "wb") as file:
        file.write(content)
    refused = b'1 400 {"code":"unreadable"}\n2 400 {"code":"unreadable"}\n'
    words = ["import", "--db", "desk.db", "long.csv"]
    written, shown = run_showing(program, words, place)
    expect(words, written, refused)
    shown = judged(words, shown)
    found = re.findall(rb"\rcanary: (\d) of 3 MB read", shown)
    expect(f"{words}: it showed", b"".join(b"\rcanary: %s of 3 MB read" % count for count in found)
           + ERASED, shown)
    expect(f"{words}: megabytes", sorted(set(found)), [b"0", b"1", b"2"])
    expect(f"{words}: their order", found, sorted(found))
    fifo = os.path.join(place, "fifo")
    os.mkfifo(fifo)
    for name in ("-", "fifo"):
        feeding = subprocess.Popen(["cp", os.path.join(place, "long.csv"), fifo])
        words = ["import", "--db", "desk.db", name]
        written, shown = run_showing(program, words, place, content)
        feeding.kill()
        feeding.wait()
        expect(words, written, refused)
        found = counts(words, judged(words, shown), rb"canary: (\d+) MB read")
        expect(f"{words}: megabytes", found, [0, 1, 2])
    os.unlink(fifo)
    return 3


def try_growing(program, place):
    """Of a file that grows as it is read, what is read is no share of a whole. The lines of its
    first rows fill a pipe, so that it has grown before its end is read."""
    words = ["import", "--db", "desk.db", "growing.csv"]
    with open(os.path.join(place, "growing.csv"), "wb", buffering=0) as file:
        file.write(HEADER + 10_000 * b"x\n")
        running, shown = begin_on_terminal(program, words, place, "stderr",
                                           stdin=subprocess.DEVNULL, stdout=subprocess.PIPE)
        found = read_terminal(shown, 60, lambda found: b"MB read" in found)
        file.write(b"x" * 2_200_000 + b"\n")
    with ThreadPoolExecutor(1) as reading:
        told = reading.submit(running.stdout.read)
        try:
            found += read_terminal(shown, 60)
            expect(f"{words}: its status", running.wait(timeout=60), 0)
        finally:
            running.kill()
        expect(f"{words}: its rows", told.result().count(b' 400 {"code":"unreadable"}\n'), 10_001)
    os.close(shown)
    lines = re.findall(rb"\rcanary: ([^\r]*)", judged(words, found))
    expect(words, list(dict.fromkeys(lines)),
           [b"0 of 1 MB read", b"0 MB read", b"1 MB read", b"2 MB read"])
    return 1


UNKNOWN, MISSING = b"canary: unknown-service\n", b"canary: file\n"
ABOUT = b": a file is missing, cannot be read or written, is too long, or exists already\n"
NEW = ["--db", "new.db"]
# Programs on a file that is not there: the status, what a terminal shows, and what another stream
# has.
ON_NO_FILE = (
    (["import", *NEW, "no-rows.csv"], 0, MADE + b"\rcanary: 0 of 0 MB read" + ERASED, b""),
    (["history", *NEW, "web"], 1, MADE + UNKNOWN, UNKNOWN),
    (["export", *NEW, "--caller", "agent", "web"], 1, MADE + UNKNOWN, UNKNOWN),
    (["pipe", "--at", "0", "--step", "0", *NEW], 0, b"", b""),
    (["status", *NEW], 1, MISSING + b"new.db" + ABOUT, MISSING),
    (["page", *NEW, "out.html"], 1, MISSING + b"new.db, out.html" + ABOUT, MISSING),
    (["backup", *NEW, "copy.db"], 1, MISSING + b"new.db, copy.db" + ABOUT, MISSING),
)


def want_made(row, place, before, is_made):
    """A desk's file was made and its log may be, or nothing. What was made is removed."""
    made = set(os.listdir(place)) - before
    for name in made:
        os.remove(os.path.join(place, name))
    expect(f"{row}: what is made", made - {f"{NEW[1]}-wal"} if is_made else made,
           {NEW[1]} if is_made else set())


def try_missing(program, place):
    """A name under which there is no file. `import`, `history` and `export` make the file, and
    report it on a terminal alone; `pipe` makes it and is silent; `status`, `page` and `backup` make
    nothing. A new desk has no rows, and nothing is shown of them."""
    open(os.path.join(place, "no-rows.csv"), "wb").close()
    before = {*os.listdir(place), "input", "output"}
    for words, status, on_terminal, elsewhere in ON_NO_FILE:
        found = run_showing(program, words, place, status=status)
        expect(f"{words}, on a terminal", found, (b"", on_terminal))
        want_made(words, place, before, elsewhere != MISSING)
        done = subprocess.run([program, *words], cwd=place, stdin=subprocess.DEVNULL, timeout=60,
                              capture_output=True)
        expect(f"{words}, on no terminal",
               (done.returncode, done.stdout, without_progress(done.stderr)),
               (status, b"", elsewhere))
        want_made(words, place, before, elsewhere != MISSING)
    words = ["history", "--db", "n\x1b[2Jw.db", "web"]
    found = run_showing(program, words, place, status=1)
    expect(f"{words}, on a terminal", found,
           (b"", MADE.replace(b"new", b"n\\u001b[2Jw") + UNKNOWN))
    for name in set(os.listdir(place)) - before:
        os.remove(os.path.join(place, name))
    return len(ON_NO_FILE) + 1


def try_faults(program, place):
    """A second line says what a fault is, and of which address or file, on a terminal alone."""
    with open(os.path.join(place, "text"), "w", encoding="ascii") as file:
        file.write("a text that is longer than the first bytes of a database\n")
    with open(os.path.join(place, "web.json"), "w", encoding="ascii") as file:
        file.write('{"kind":"Rollout","metadata":{"name":"web"},"spec":{"strategy":{"canary":{}}}}')
    cannot = b": cannot open, make, read or write the database\n"
    invalid = b": the address is invalid, or the desk cannot listen on it\n"
    unfound = b": a file is missing, cannot be read or written, is too long, or exists already\n"
    no_desk = b": the tables of the database are not a desk's\n"
    rows = (
        (["serve", "--listen", "127.0.0.1"], b"listen", b"127.0.0.1" + invalid),
        (["serve", "--listen", "127.0.0.1:0", "--db", "text"], b"storage", b"text" + cannot),
        (["history", "--db", "text", "web"], b"storage", b"text" + cannot),
        (["status", "--db", "text"], b"storage", b"text" + cannot),
        (["backup", "--db", "text", "copy"], b"other-schema", b"text, copy" + no_desk),
        (["import", "--db", "desk.db", "none.csv"], b"file", b"desk.db, none.csv" + unfound),
        (["import", "--db", "none.db", "."], b"file", b"none.db, ." + unfound),
        (["page", "--db", "desk.db", "no/out"], b"file", b"desk.db, no/out" + unfound),
        (["check", "none.json"], b"file", b"none.json" + unfound),
        (["check", "no\x1b[2J\u202ene"], b"file", b"no\\u001b[2J\\u202ene" + unfound),
        (["serve", "--listen", "\x1b[31m"], b"listen", b"\\u001b[31m" + invalid),
        (["check", "--request", "none.json"], b"file", b"none.json" + unfound),
        (["argo", "--out", "text", "web.json"], b"file", b"web.json, text" + unfound),
        (["argo", "web.json", "--out", ""], b"file", b"web.json" + unfound),
        (["export", "--db", "desk.db", "--caller", " ", "web"], b"bad-name", b""),
    )
    for words, word, about in rows:
        line = b"canary: " + word + b"\n"
        written, shown = run_showing(program, words, place, status=1)
        shown = shown[shown.rfind(ERASED) + len(ERASED):] if ERASED in shown else shown
        expect(f"{words}, on a terminal", (written, shown), (b"", line + about))
        done = subprocess.run([program, *words], cwd=place, stdin=subprocess.DEVNULL, timeout=60,
                              capture_output=True)
        expect(f"{words}, on no terminal", (done.returncode, without_progress(done.stderr)),
               (1, line))
    expect("import of a folder: a desk's file", os.path.exists(os.path.join(place, "none.db")),
           False)
    return len(rows)


def try_in_use(program, place):
    """A second line says which file a desk that runs has open, on a terminal."""
    in_use = b": another program has the database open\n"
    with open(os.path.join(place, "errors"), "w", encoding="ascii") as errors:
        desk = subprocess.Popen([program, "serve", "--listen", "127.0.0.1:0", "--db", "desk.db"],
                                cwd=place, stdout=subprocess.PIPE, stderr=errors)
    try:
        desk.stdout.readline()
        words = ["history", "--db", "desk.db", "web"]
        written, shown = run_showing(program, words, place, status=1)
        expect(f"{words}, of a desk that runs", (written, shown),
               (b"", b"canary: in-use\ndesk.db" + in_use))
    finally:
        desk.kill()
        desk.communicate()
    return 1


def try_broken_row(program, place):
    """A second row in `meta` is one that no desk leaves."""
    with contextlib.closing(sqlite3.connect(os.path.join(place, "desk.db"))) as records:
        records.execute("INSERT INTO meta VALUES (2, 2)")
        records.commit()
    words = ["history", "--db", "desk.db", "web"]
    written, shown = run_showing(program, words, place, status=1)
    told = b"canary: broken-row\ndesk.db: the database has a row that no desk writes\n"
    expect(words, (written, shown[-len(told):]), (b"", told))
    return 1


def try_watching(program, place):
    """`status` erases a terminal before each drawing if it draws again and again, and not if it
    draws once."""
    words = ["status", "--db", "desk.db"]
    plain = subprocess.run([program, *words], cwd=place, stdin=subprocess.DEVNULL, timeout=60,
                           capture_output=True).stdout
    running, shown = begin_on_terminal(program, words, place, "stdout", stdin=subprocess.DEVNULL,
                                       stderr=subprocess.PIPE)
    once = read_terminal(shown, 60)
    os.close(shown)
    expect(words, (once, without_progress(running.stderr.read()), running.wait()), (plain, b"", 0))
    words = [*words, "--watch", "1"]
    running, shown = begin_on_terminal(program, words, place, "stdout", stdin=subprocess.DEVNULL,
                                       stderr=subprocess.PIPE)
    wanted = 2 * (CLEARED + plain)
    found = read_terminal(shown, 60, lambda found: len(found) >= len(wanted))
    running.kill()
    os.close(shown)
    told = without_progress(running.communicate()[1])
    expect(words, (found[:len(wanted)], told), (wanted, b""))
    return 2


def try_terminals(program, new_place):
    """Each of these in a new folder with a desk's file."""
    parts = (try_judging, try_pages, try_shares, try_drawing, try_reading, try_growing, try_missing,
             try_faults, try_in_use, try_broken_row, try_watching)
    return sum(part(program, new_place()) for part in parts)
