"""Migrates files of the first schema: migrate.py PROGRAM FOLDER [PART..]. first.py works out what
they become, stops.py stops the program in between. The comment at the top of tests/migrate/run says
what is tried."""
import os
import re
import shutil
import subprocess
import sys
from contextlib import closing

HERE = os.path.dirname(os.path.realpath(__file__))
TESTS = os.path.dirname(HERE)
# What a disk holds after a power cut.
sys.path.append(os.path.join(TESTS, "disk"))

from asking import (  # noqa: E402
    migrate, printed, refused, told, want, want_closed, want_histories, want_kept, want_migrated,
    want_replies,
)
from book_files import remove  # noqa: E402
from chosen import chosen, is_without  # noqa: E402
from first import (  # noqa: E402
    bytes_of, change, connect, contents, in_order, make, make_first, migrated, rows_of, schema_of,
    text_of,
)
from screen import ERASED, run_showing  # noqa: E402
from stops import STRACE_PARTS, try_full_disk  # noqa: E402
from story_words import B, answer, command, put, reply  # noqa: E402

FILES = ("story", "stream", "reports")
ADVICE = b": is a file of the first version; 'canary migrate' makes it a file of this version\n"
HEADER = "caller,number,service,run,metric,ordinal,taken,result,failure\n"


def try_file(program, folder, name, is_logged):
    """One of the files, from before to after."""
    file = os.path.join(folder, name)
    make_first(file, name, is_logged)
    rows, before = rows_of(file), bytes_of(file)
    want(f"{name}: whether its log has its rows", len(before[1]) > 0, is_logged)
    want(f"{name}: dry run", migrate(program, file, "--dry-run"), printed("would-migrate"))
    want_kept(f"{name}: dry run", file, before)
    want(name, migrate(program, file), printed("migrated"))
    want_closed(file, rows)
    want_migrated(program, file, rows, 3 if is_logged else 1000)
    before = bytes_of(file)
    for words in ((), ("--dry-run",)):
        want(f"{name}: again {words}", migrate(program, file, *words), printed("current"))
        want_kept(f"{name}: again {words}", file, before)
    try_packed(program, file, rows)
    remove(file)


def try_packed(program, file, rows):
    """The migrated file after VACUUM: it has the same schema, but for the places, and rows."""
    schema = [made[1:] for made in schema_of(file)]
    change(file, "VACUUM")
    want(f"{file}: current after VACUUM", migrate(program, file), printed("current"))
    want(f"{file}: schema after VACUUM", [made[1:] for made in schema_of(file)], schema)
    want(f"{file}: rows after VACUUM", in_order(rows_of(file)), migrated(rows))
    want_histories(program, file, rows, 3)
    want_replies(program, file, rows)


def try_files(program, folder):
    """Each file: its rows in the file, and its rows in the log."""
    for name in FILES:
        for is_logged in (False, True):
            try_file(program, folder, name, is_logged)
    print(f"migrate: {len(FILES)} files of the first schema are migrated, with their rows in the"
          " file and in the log", file=sys.stderr)


def try_reports(program, folder):
    """What is known of the file with four reports: its tally, a kept reply, and what comes next."""
    file = os.path.join(folder, "reports")
    make_first(file, "reports")
    want("reports", migrate(program, file), printed("migrated"))
    want("reports: the tally", rows_of(file)["tally"],
         [("web", 1, 0, 3, 0, 0, 1, 0, 2, 1767225780)])
    asked = compact_template()
    ok = "200 OK"
    sent = (
        (put("ops", 1, asked), reply(ok, b'{"code":"ok","template":"errs"}')),
        (put("ops", 4, asked), reply(ok, b'{"code":"ok","revision":2,"template":"errs"}')),
        (put("agent", 5, command("report 1 m:5:240:!down")),
         answer("[web Paused 1 20 | 1 Error | Running]")),
        (put("agent", 6, command("report 1 m:6:300:7")),
         answer("[web Paused 1 20 | 1 Successful | Running]")),
        (put("ops", 1, asked), reply(ok, b'{"code":"ok","template":"errs"}')),
        (put("ops", 5, command("promote")), answer("[web Healthy 2 100]")),
        (put("ops", 6, command("start v3")), answer("[web Paused 1 20]")),
    )
    found = told(program, "pipe", "--at", str(B + 300), "--step", "0", "--db", file,
                 text=b"".join(message for message, _ in sent))
    want("reports: what comes next", found, (0, b"".join(wanted for _, wanted in sent), b""))
    rows = in_order(rows_of(file))
    want("reports: the tallies then", rows["tally"],
         [("web", 1, 0, 4, 0, 0, 2, 0, 1, B + 300), ("web", 2, 0, 0, 0, 0, 0, 0, 0, None)])
    want("reports: the bindings then", rows["binding"],
         [("web", 0, "errs", 2), ("web", 1, "errs", 1), ("web", 2, "errs", 2)])
    remove(file)


def compact_template():
    return command("template errs m,interval=60")


def try_refusals(program, folder):
    """What opens a file of the first schema refuses it, and leaves it as it is; on a terminal it
    says what to do."""
    file, rows = os.path.join(folder, "first"), os.path.join(folder, "rows.csv")
    make_first(file, "story")
    with open(rows, "w", encoding="ascii") as written:
        written.write(HEADER)
    before = bytes_of(file)
    asked = (["history", "--db", file, "web"], ["status", "--db", file],
             ["export", "--db", file, "--caller", "a", "web"], ["import", "--db", file, rows],
             ["serve", "--listen", "127.0.0.1:0", "--db", file],
             ["pipe", "--at", "0", "--step", "0", "--db", file])
    for words in asked:
        want(words, told(program, *words), refused("other-schema"))
        want_kept(words, file, before)
        written, shown = run_showing(program, words, folder, status=1)
        want(f"{words} on a terminal", (written, shown),
             (b"", b"canary: other-schema\n" + file.encode() + ADVICE))
        want_kept(f"{words} on a terminal", file, before)
    try_backup(program, file)
    remove(file)


def try_backup(program, file):
    """`backup` copies a file of the first schema, and the copy can be migrated."""
    for is_logged in (False, True):
        make_first(file, "story", is_logged)
        before, found, copied = bytes_of(file), contents(file), file + ".backed-up"
        want("backup", told(program, "backup", "--db", file, copied), (0, b"", b""))
        want_kept("backup", file, before)
        want("backup: the copy", contents(copied), found)
        want("backup: the copy", migrate(program, copied), printed("migrated"))
        want_migrated(program, copied, found[1])
        remove(copied)


def try_terminal(program, folder):
    """On a terminal `migrate` shows how far it is, and erases that; the output is the same."""
    file = os.path.join(folder, "shown")
    make_first(file, "stream")
    for words, word in ((["--dry-run"], b"would-migrate\n"), ([], b"migrated\n"),
                        ([], b"current\n")):
        written, shown = run_showing(program, ["migrate", "--db", file, *words], folder)
        want(f"{words} on a terminal", written, word)
        found = re.fullmatch(rb"((?:(?:\rcanary: [^\r\n]+)+%s)*)" % re.escape(ERASED), shown)
        want(f"{words}: what a terminal shows: {shown[-200:]}", found is not None, True)
        if word != b"current\n":
            want(f"{words}: whether a terminal shows the judging", b"MB judged" in found[1], True)
    remove(file)


def rows_changed():
    """The rows of tests/migrate/changed: what the program says, and what is changed."""
    head, *lines = text_of(os.path.join(HERE, "changed")).splitlines()
    rows = [line.split(" | ", 1) for line in lines if line and not line.startswith("#")]
    want("tests/migrate/changed: its head", head, f"changed {len(rows)}")
    return rows


def try_changed(program, folder):
    """Files in which one thing was changed."""
    file = os.path.join(folder, "changed")
    for word, statements in rows_changed():
        make_first(file, "story")
        change(file, statements)
        before, found = bytes_of(file), contents(file)
        is_taken = word == "migrated"
        dry = printed("would-migrate") if is_taken else refused(word)
        want(f"dry run: {statements}", migrate(program, file, "--dry-run"), dry)
        want_kept(f"dry run: {statements}", file, before)
        if is_taken:
            want(statements, migrate(program, file), printed("migrated"))
            want(statements, in_order(rows_of(file)), migrated(found[1]))
        else:
            want(statements, migrate(program, file), refused(word))
            want(f"{statements}: what it leaves", contents(file), found)
    remove(file)
    print(f"migrate: {len(rows_changed())} changed files are taken or refused as they must be",
          file=sys.stderr)


def try_no_desk(program, folder):
    """Names and files that are no desk's of the first schema: nothing is made or changed."""
    place = os.path.join(folder, "no-desk")
    os.mkdir(place)
    file = os.path.join(place, "none")
    for words in ((), ("--dry-run",)):
        want("no file", migrate(program, file, *words), refused("file"))
        want("no file: what is made", os.listdir(place), [])
    want("a folder", migrate(program, place), refused("storage"))
    want("a folder, dry run", migrate(program, place, "--dry-run"), refused("storage"))
    for kind, text, word in (("a text", "a text, longer than the first bytes of one\n", "storage"),
                             ("an empty file", "", "other-schema")):
        with open(file, "w", encoding="ascii") as written:
            written.write(text)
        for words in ((), ("--dry-run",)):
            want(kind, migrate(program, file, *words), refused(word))
            want(f"{kind}: its bytes", bytes_of(file), [text.encode(), b""])
            if text:
                want(f"{kind}: what is there", os.listdir(place), ["none"])
    try_other_desks(program, file)
    remove(file)
    want("no desk's files: what is left beside them", os.listdir(place), [])


def try_other_desks(program, file):
    """Databases of another program, and of desks whose table meta has other rows."""
    make(file, "CREATE TABLE note (title TEXT) STRICT")
    want_refused(program, file, "another program's file")
    make_first(file, "story")
    want("a desk's", migrate(program, file), printed("migrated"))
    change(file, "INSERT INTO meta VALUES (2, 2)")
    want_refused(program, file, "a second row in meta", "broken-row")
    change(file, "DELETE FROM meta WHERE id = 2")
    for statement in ("UPDATE meta SET schema = 1", "UPDATE meta SET schema = 3",
                      "DELETE FROM meta"):
        change(file, statement)
        want_refused(program, file, statement)


def want_refused(program, file, row, word="other-schema"):
    """The file is refused, as one of neither schema or for this word, and stays as it is."""
    found = contents(file)
    for words in ((), ("--dry-run",)):
        want(row, migrate(program, file, *words), refused(word))
        want(f"{row}: what it leaves", contents(file), found)


def try_in_use(program, folder):
    """A file that another program has open; it can be migrated once that has ended."""
    file = os.path.join(folder, "used")
    make_first(file, "story")
    found = contents(file)
    for words in ((), ("--dry-run",)):
        # to look at the file's contents ends all locks that this process has on it
        with closing(connect(file)) as user:
            user.execute("SELECT count(*) FROM kept").fetchall()
            want(f"in use {words}", migrate(program, file, *words), refused("in-use"))
        want(f"in use {words}: what it leaves", contents(file), found)
    want("not in use any more", migrate(program, file), printed("migrated"))
    with subprocess.Popen([program, "serve", "--listen", "127.0.0.1:0", "--db", file],
                          stdout=subprocess.PIPE, stderr=subprocess.PIPE) as desk:
        try:
            want("a desk that listens", desk.stdout.readline()[:10], b"listening ")
            for words in ((), ("--dry-run",)):
                want(f"a desk's {words}", migrate(program, file, *words), refused("in-use"))
        finally:
            desk.kill()
    want("the desk has ended", migrate(program, file), printed("current"))
    remove(file)


def try_same_looks(program, folder):
    """What `migrate` refuses before it writes, a dry run refuses too: a file with another hard
    link, a rollback journal or something else of its name beside it. Both leave all as it was."""
    place = os.path.join(folder, "looks")
    os.mkdir(place)
    file = os.path.join(place, "looked")
    for row, begin in (("a hard link", lambda: os.link(file, file + ".link")),
                       ("a rollback journal", lambda: write_journal(file + "-journal")),
                       ("a folder for a journal", lambda: os.mkdir(file + "-journal"))):
        make_first(file, "story")
        begin()
        before, names = bytes_of(file), sorted(os.listdir(place))
        for words in ((), ("--dry-run",)):
            want(f"{row} {words}", migrate(program, file, *words), refused("storage"))
            want(f"{row} {words}: its bytes", bytes_of(file) == before, True)
            want(f"{row} {words}: what is there", sorted(os.listdir(place)), names)
        shutil.rmtree(place)
        os.mkdir(place)
    make_first(file, "story")
    names = sorted(os.listdir(place))
    want("no look refuses", migrate(program, file, "--dry-run"), printed("would-migrate"))
    want("no look refuses: what is there", sorted(os.listdir(place)), names)
    shutil.rmtree(place)


def write_journal(name):
    with open(name, "wb") as journal:
        journal.write(bytes.fromhex("d9d505f920a163d7") + bytes(504))


def try_full_output(program, folder):
    """The word does not get out: the fault says so, and the file is migrated."""
    file = os.path.join(folder, "full")
    make_first(file, "story")
    rows, before = rows_of(file), bytes_of(file)
    with open("/dev/full", "wb") as full:
        found = told(program, "migrate", "--db", file, "--dry-run", output=full)
        want("full, dry run", found, (1, None, b"canary: write\n"))
        want_kept("full, dry run", file, before)
        want("full", told(program, "migrate", "--db", file, output=full),
             (1, None, b"canary: write\n"))
    want("full: what it leaves", in_order(rows_of(file)), migrated(rows))
    want("full: again", migrate(program, file), printed("current"))
    remove(file)


def main():
    parts = (try_reports, try_refusals, try_no_desk, try_in_use, try_same_looks, try_full_output,
             try_terminal, try_changed, try_files, try_full_disk, *STRACE_PARTS)
    program, folder, *wanted = sys.argv[1:]
    left_out = STRACE_PARTS if is_without("strace") else ()
    for part in chosen("migrate", parts, wanted, left_out):
        part(program, folder)
    print("migrate: files of the first schema become those of this one", file=sys.stderr)


if __name__ == "__main__":
    main()
