"""The journal's file: cut short, changed, locked, lost, not to be written: parts of client.py."""
import concurrent.futures
import fcntl
import os
import shutil
import socket
import subprocess
import threading
import time

from journal_rule import (
    LAST, MOST_NEW, at_rest, is_in_doubt, is_new, journal_of, line_of,
)
from world import (
    AHEAD, BEHIND, BROKEN, CONTRADICTION, DONE, EMPTIED, ENDED, IN_USE, KEY_USED, LATE, LOCAL, LOST,
    MARKS, NOT_BEGUN, NO_FILE, NO_JOURNAL_FILE, OTHER_CALLER, PENDING, PENDING_SAID, PROMOTED,
    REFUSED, REUSED, SPENT, STARTED, TOOK_PLACE, UNREACHABLE, WORDS, Caller, Wrong, add, answering,
    ask, environment, expect, free_port, install, process, shown, shows, two_pauses, want,
    want_all_said, want_delivered, want_seconds,
)

NOBODY = 65534
PROMOTE = '{"promote":{"service":"web"}}'


def records(entries):
    return b"".join(b"+" + line_of(entry).encode() + b"\n" for entry in entries)


def asked(number, intent, key):
    return {"asked": {"body": intent, "intent": intent, "key": key, "number": number}}


def settled(number, status, body, late=False):
    return {"settled": {"body": body, "late": late, "number": number, "status": status}}


def of_service(command):
    return f'{{"{command}":{{"service":"web"}}}}'


# A journal with each kind of entry; its last number is pending.
ENTRIES = [
    {"begun": {"caller": "ops", "settled": 4}},
    asked(5, PROMOTE, "first"),
    settled(5, 200, shows("web", *PROMOTED)),
    asked(6, of_service("abort"), "zw\u00f6lf \u2192 \"two\"\n"),
    settled(6, 422, '{"code":"not-in-progress"}'),
    asked(7, of_service("promoteFull"), "third"),
    {"instead": {"body": of_service("abort"), "number": 7}},
    settled(7, 200, shows("web", *ENDED), late=True),
    asked(8, of_service("retry"), "last"),
]
WHOLE = records(ENTRIES) + b"-"


def promised(data):
    """What `do --once first promote web` has to come to where no desk is, if the journal's file has
    these bytes: status, output, last sentence, and the file's bytes after it."""
    if is_in_doubt(data):
        return PENDING, "", NOT_BEGUN, data
    if is_new(data):
        return PENDING, "", NOT_BEGUN, at_rest(data)
    journal = journal_of(data)
    if journal is None:
        return LOCAL, "", BROKEN, data
    rest = at_rest(data)
    if journal.caller != "ops":
        return WORDS, "", OTHER_CALLER, rest
    for each in [*journal.kept, *([journal.pending] if journal.pending else [])]:
        if each.key == "first":
            return promised_under_key(each, rest)
    if journal.pending is not None:
        return PENDING, "", PENDING_SAID, rest
    if journal.number() > LAST:
        return CONTRADICTION, "", SPENT, rest
    return PENDING, "", PENDING_SAID, rest[:-1] + records([asked(journal.number(), PROMOTE,
                                                                 "first")]) + b"-"


def as_shown(body):
    """A body as the client shows it: white space as spaces, any other control character escaped."""
    def shown_as(each):
        if ord(each) not in MARKS:
            return each
        return " " if each in "\t\n\r" else f"\\u{ord(each):04x}"
    return "".join(map(shown_as, body)) + "\n"


def promised_under_key(kept, rest):
    if kept.intent != PROMOTE:
        return CONTRADICTION, "", KEY_USED, rest
    if kept.status is None:
        return PENDING, "", PENDING_SAID, rest
    if kept.instead is not None and not kept.is_late:
        return LATE, as_shown(kept.body), TOOK_PLACE, rest
    return DONE if kept.status == 200 else REFUSED, as_shown(kept.body), None, rest


class Reader:
    """Calls of the client on a file with given bytes, where no desk is."""

    def __init__(self, world, name):
        self.world, self.folder, self.port = world, world.place(name), free_port()
        self.file = self.folder / "ops.journal"
        self.counts = {}

    def read(self, row, data):
        self.file.write_bytes(data)
        words = ["do", "--desk", f"127.0.0.1:{self.port}", "--as", "ops", "--journal",
                 str(self.file), "--tries", "1", "--once", "first", "promote", "web"]
        found = self.world.run(words, self.folder)
        status, output, said, after = promised(data)
        if status == LOCAL:
            said = f"{said}: {self.file}"
        want(f"{row}: {data[-60:]!r}", found, status, output, said)
        expect(f"{row}: the file", self.file.read_bytes(), after)
        self.counts[status] = self.counts.get(status, 0) + 1

    def want_counts(self, *statuses):
        """Each of these statuses came, so that the rows tell them apart."""
        for status in statuses:
            if status not in self.counts:
                raise Wrong(f"no row ended with status {status}: {self.counts}")

    def told(self):
        return ", ".join(f"status {status} {count} times"
                         for status, count in sorted(self.counts.items()))


def try_cut_journal(world):
    """A journal that is cut short at each byte is refused, and stays as it is."""
    reader = Reader(world, "cut")
    for length in range(len(WHOLE) + 1):
        reader.read(f"cut to {length} bytes", WHOLE[:length])
    expect("cut to no byte and to one, and not cut", (reader.counts[PENDING], reader.counts[DONE]),
           (2, 1))
    expect("cut elsewhere", reader.counts[LOCAL], len(WHOLE) - 2)
    return reader.told()


def try_torn_journal(world):
    """What a crash leaves after the closed gate, at each byte of the next line: it does not count,
    and is cut off."""
    reader = Reader(world, "torn")
    rows = []
    for count in range(len(ENTRIES)):
        whole = records(ENTRIES[:count])
        behind = line_of(ENTRIES[count]).encode() + b"\n-"
        rows += [(count, whole + b"-" + behind[:length]) for length in range(len(behind) + 1)]
    for count, data in world.some_of(rows, 3):
        reader.read(f"{count} entries, and a torn rest", data)
    reader.want_counts(DONE, PENDING)
    expect("torn rests are refused", reader.counts.get(LOCAL, 0), 0)
    return reader.told()


def try_changed_journal(world):
    """One byte of a journal is another one: the file is refused, or read as the lines that it then
    has. No line has a checksum, so a changed letter may be of no consequence here."""
    reader = Reader(world, "changed")
    rows = []
    for at, byte in enumerate(WHOLE):
        for other in (byte ^ 1, byte ^ 0x80, ord("+"), ord("-"), ord("\n"), ord("0"), ord('"')):
            if other != byte:
                rows.append((at, WHOLE[:at] + bytes([other]) + WHOLE[at + 1:]))
    for at, data in world.some_of(rows, 12):
        reader.read(f"byte {at} is {data[at]}", data)
    reader.want_counts(DONE, LOCAL)
    for row, data in (
            ("another caller's", WHOLE.replace(b'"ops"', b'"opt"')),
            ("a key of another command", WHOLE.replace(b'"zw', b'"zx').replace(
                b'"first"', b'"other"').replace(b'"third"', b'"first"')),
            ("a space in a line", WHOLE.replace(b'":4', b'": 4')),
            ("a key twice", WHOLE.replace(b'"settled":4', b'"settled":3,"settled":4')),
            ("keys in another order", WHOLE.replace(b'"caller":"ops","settled":4',
                                                    b'"settled":4,"caller":"ops"')),
            ("an escape that need not be", WHOLE.replace(b'"first"', b'"\\u0066irst"')),
            ("a member too many", WHOLE.replace(b'"settled":4', b'"settled":4,"when":1')),
            ("a line twice", records([*ENTRIES[:3], ENTRIES[2]]) + b"-"),
            ("a line is missing", records([*ENTRIES[:1], *ENTRIES[2:]]) + b"-"),
            ("a key twice in the journal", records([*ENTRIES[:3], asked(6, PROMOTE, "first")])
             + b"-"),
            ("a CR before the LF", WHOLE.replace(b"\n", b"\r\n")),
            ("the last number is asked", records(
                [{"begun": {"caller": "ops", "settled": LAST - 1}}]) + b"-"),
            ("the last number is the pending one", records(
                [{"begun": {"caller": "ops", "settled": LAST}}]) + b"-"),
            ("more than the last number", records(
                [{"begun": {"caller": "ops", "settled": LAST + 1}}]) + b"-"),
            ("a text", b"a text that somebody wrote\n"),
            ("a text that begins as a journal", b"+ a text that somebody wrote\n"),
            ("an empty line", b"+\n-"),
    ):
        reader.read(row, data)
    return reader.told()


def try_lines(world):
    """The client writes the lines of the rule, byte for byte."""
    with world.desk("lines") as desk:
        setup = Caller(desk, "ops")
        setup.send({"service": {"version": "v1", "manifest": two_pauses()}})
        desk.do("start", "web", "v2", options=("--once", "zw\u00f6lf \u2192 \"two\"\t\u0001\\"))
        desk.kill()
        desk.do("promote-full", "web", tries=1)
        desk.do("abort", "web", tries=1, options=("--instead",))
        desk.start()
        want("instead", desk.do("abort", "web", options=("--instead",)), DONE,
             shown(("Degraded", 1, 0)))
        start = '{"start":{"service":"web","version":"v2"}}'
        wanted = records([
            {"begun": {"caller": "ops", "settled": 1}},
            asked(2, start, "zw\u00f6lf \u2192 \"two\"\t\u0001\\"),
            settled(2, 200, shows("web", *STARTED)),
            asked(3, of_service("promoteFull"), None),
            {"instead": {"body": of_service("abort"), "number": 3}},
            settled(3, 200, shows("web", "Degraded", 1, 0)),
        ]) + b"-"
        expect("the journal", (desk.folder / "ops.journal").read_bytes(), wanted)


def try_two_clients(world):
    """A journal that another client has open is left alone."""
    with world.desk("two") as desk:
        add(desk)
        want("tick", desk.do("tick", "web"), DONE, shown(STARTED))
        before = (desk.folder / "ops.journal").read_bytes()
        with open(desk.folder / "ops.journal", "rb") as held:
            fcntl.flock(held, fcntl.LOCK_EX)
            want("locked", desk.do("promote", "web"), LOCAL, said=desk.of_file(IN_USE))
        expect("locked: the file", (desk.folder / "ops.journal").read_bytes(), before)
        # one client waits for its reply, and the other one comes
        come, let_go = [], threading.Event()

        def stall(client):
            come.append(client.recv(65536))
            let_go.wait(20)

        with answering(stall) as port, process(
                [world.program, *desk.words("promote", "web", port=port, tries=1, timeout=20)],
                cwd=desk.folder, env=environment(), stdout=subprocess.PIPE,
                stderr=subprocess.PIPE) as first:
            while not come and first.poll() is None:
                time.sleep(.01)
            want("the second client", desk.do("abort", "web"), LOCAL, said=desk.of_file(IN_USE))
            let_go.set()
            _, errors = first.communicate(timeout=60)
            expect("the first client", (first.returncode, errors.decode()),
                   (PENDING, f"canary: {PENDING_SAID}\n"))
        want("afterwards", desk.do("promote", "web"), DONE, shown(PROMOTED))
        want_delivered("two clients", desk)
        expect("acted", (desk.count("promote"), desk.count("abort")), ({"web": 1}, {}))


def promote_once(desk, name):
    """Promotes a service under a key. Its name, if another client has the journal."""
    ended = desk.do("promote", name, options=("--once", name))
    if ended.status == DONE:
        expect(name, ended.output, shown(PROMOTED, name))
        return None
    want(name, ended, LOCAL, said=desk.of_file(IN_USE))
    return name


def try_many_clients(world):
    """Eight clients at once with one journal: each goes on until its command is done."""
    with world.desk("many") as desk:
        names = [f"s{at}" for at in range(8)]
        add(desk, *names)
        refused, left = 0, names
        with concurrent.futures.ThreadPoolExecutor(len(names)) as pool:
            while left:
                left = [name for name in pool.map(lambda name: promote_once(desk, name), left)
                        if name]
                refused += len(left)
        want_delivered("many clients", desk)
        expect("promotions", desk.count("promote"), dict.fromkeys(names, 1))
    return f"{refused} found it open"


def try_lost_journal(world):
    """A journal that is lost is begun anew with what the desk has settled: no command gets the kept
    reply of an old one."""
    with world.desk("lost") as desk:
        add(desk)
        want("first", desk.do("promote", "web"), DONE, shown(PROMOTED))
        (desk.folder / "ops.journal").unlink()
        want("second", desk.do("promote", "web"), DONE, shown(ENDED))
        expect("promotions", desk.count("promote"), {"web": 2})
        expect("it begins", desk.journal().before, 1)
        # nor does one that is asked again without a key
        want("third", desk.do("promote", "web"), REFUSED, '{"code":"not-in-progress"}\n')
        want_delivered("lost", desk)


def try_emptied_journal(world):
    """A journal that was cut to nothing, or to its first byte, is not taken for a new one: it stays
    as it is, until somebody removes it. A file that was made empty for a new caller is one."""
    with world.desk("emptied") as desk:
        add(desk)
        key = ("--once", "k")
        want("first", desk.do("promote", "web", options=key), DONE, shown(PROMOTED))
        for data in (b"", b"+", b"\0"):
            (desk.folder / "ops.journal").write_bytes(data)
            want(f"cut to {data!r}", desk.do("promote", "web", options=key), LOCAL,
                 said=desk.of_file(EMPTIED))
            expect("the file", (desk.folder / "ops.journal").read_bytes(), data)
        expect("promotions", desk.count("promote"), {"web": 1})
        # what a crash leaves of a new file once its gate is there is a new journal
        (desk.folder / "ops.journal").write_bytes(b"-")
        want("begun anew", desk.do("tick", "web"), DONE, shown(PROMOTED))
        expect("it begins", desk.journal().before, 1)
        for at, data in enumerate((b"", b"+", b"\0")):
            desk.write(f"c{at}.journal", data.decode())
            want(f"a new caller: {data!r}", desk.do("tick", "web", caller=f"c{at}",
                                                   journal=f"c{at}.journal"), DONE,
                 shown(PROMOTED))
            want_delivered("a new caller", desk, f"c{at}", f"c{at}.journal")
        # and so is what a link leads to that is still to be made
        (desk.folder / "link.journal").symlink_to(desk.folder / "made.journal")
        want("a link", desk.do("tick", "web", journal="link.journal"), DONE, shown(PROMOTED))
        expect("made", desk.journal("made.journal").before, 2)


def try_other_files(world):
    """A file that is no journal is refused, and is as it was, with its time: a manifest, a CSV, the
    file of a desk, a list of lines with dashes, zeros, the first block of a journal gone."""
    with world.desk("other-files") as desk:
        add(desk)
        key = ("--once", "k")
        want("first", desk.do("promote", "web", options=key), DONE, shown(PROMOTED))
        journal = (desk.folder / "ops.journal").read_bytes()
        with world.desk("other-desk") as other:
            add(other)
            other.kill()
            stopped = (other.folder / "desk.db").read_bytes()
        rows = [
            ("a manifest", b'{\n  "kind": "Rollout"\n}\n'), ("a line", b'{"kind":"Rollout"}'),
            ("a CSV", b"caller,number,service\nops,1,web\n"), ("a desk's file", stopped),
            ("a list", b"- a line of a list that is longer than what a crash leaves\n" * 3),
            ("zeros", bytes(4096)), ("two bytes", b"{}"), ("one line", b"+\n-"),
            ("a text with a gate", b"+ a line\n-and another one\n"),
            ("zeros first", (bytes(512) + journal + bytes(512))[:len(journal) + 512]),
            ("its first block gone", bytes(min(512, len(journal))) + journal[512:]),
        ]
        others = [byte for byte in range(256) if byte != ord("+")]
        rows += [(f"byte 0 is {byte}", bytes([byte]) + journal[1:])
                 for byte in (0, ord("-"), *world.some_of(others, 16))]
        path = desk.folder / "ops.journal"
        for row, data in rows:
            path.write_bytes(data)
            os.utime(path, (1, 1))
            want(row, desk.do("promote", "web", options=key), LOCAL, said=desk.of_file(BROKEN))
            expect(f"{row}: the file", path.read_bytes(), data)
            expect(f"{row}: its time", path.stat().st_mtime, 1)
        expect("promotions", desk.count("promote"), {"web": 1})
        path.write_bytes(journal)
        want("restored", desk.do("promote", "web", options=key), DONE, shown(PROMOTED))
        want_delivered("restored", desk)


def try_new_journals(world):
    """What a crash may leave of a new journal, and just that, is a new one: a closed gate, and at
    most so many bytes after it as the longest first line takes with what stands after it."""
    reader = Reader(world, "new-journals")
    longest = {"begun": {"caller": "c" * 63, "settled": LAST}}
    expect("the longest first line", len(b"-" + line_of(longest).encode() + b"\n-"), MOST_NEW)
    for length in (1, 2, MOST_NEW - 1, MOST_NEW):
        for filled in (b"\0", b"+", b"\n", b"-", b"{", b"\xff"):
            data = (b"-" + filled * MOST_NEW)[:length]
            expect(f"{data!r}: is new", is_new(data), True)
            reader.read(f"{length} bytes", data)
            reader.read(f"{length} bytes, not gated", b"x" + data)
    for filled in (b"\0", b"+", b"-"):
        reader.read("a byte more", b"-" + filled * MOST_NEW)
    reader.want_counts(PENDING, LOCAL)
    return reader.told()


def try_each_byte(world):
    """Each other byte at each place of the first 1,024 of a journal: none makes it a new one."""
    reader = Reader(world, "each-byte")
    whole = WHOLE[:-1]
    number = 8
    while len(whole) <= 1024:
        whole += records([settled(number, 200, shows("web", *PROMOTED)),
                          asked(number + 1, of_service("tick"), f"key-{number}")])
        number += 1
    whole += b"-"
    rows = [(at, byte) for at in range(1024) for byte in range(256) if byte != whole[at]]
    for at, byte in [*rows[:255], *world.some_of(rows[255:], 211)]:
        data = whole[:at] + bytes([byte]) + whole[at + 1:]
        expect(f"byte {at} is {byte}: is new", is_new(data), False)
        reader.read(f"byte {at} is {byte}", data)
    reader.want_counts(DONE, LOCAL)
    return reader.told()


def try_what_is_no_file(world):
    """A FIFO, a device, a socket or a folder in the place of a journal is refused at once, and
    nothing is asked of the desk. A path with controls is shown escaped."""
    with world.desk("no-file") as desk:
        add(desk)
        os.mkfifo(desk.folder / "fifo")
        (desk.folder / "folder").mkdir()
        (desk.folder / "null").symlink_to("/dev/null")
        (desk.folder / "zero").symlink_to("/dev/zero")
        with socket.socket(socket.AF_UNIX) as listener:
            listener.bind(str(desk.folder / "socket"))
            for name in ("fifo", "folder", "null", "zero", "socket"):
                begun = time.monotonic()
                want(name, desk.do("promote", "web", journal=name), LOCAL,
                     said=desk.of_file(NO_FILE, name))
                want_seconds(f"{name}: the client waits", time.monotonic() - begun, 0, 30)
        name = "a\x1b[2J\u202eb"
        (desk.folder / name).mkdir()
        want("a path with controls", desk.do("promote", "web", journal=name), LOCAL,
             said=desk.of_file(NO_FILE, "a\\u001b[2J\\u202eb"))
        expect("promotions", desk.count("promote"), {})


def try_restored_desk(world):
    """A desk that was restored from an older backup has settled less than the journal has."""
    with world.desk("restored") as desk:
        add(desk)
        want("tick", desk.do("tick", "web"), DONE, shown(STARTED))
        made = world.run(["backup", "--db", "desk.db", "old.db"], desk.folder)
        expect("backup", made.status, 0)
        want("promote", desk.do("promote", "web", options=("--once", "p")), DONE, shown(PROMOTED))
        desk.kill()
        for end_of_name in ("", "-wal"):
            shutil.move(desk.folder / f"old.db{end_of_name}", desk.folder / f"desk.db{end_of_name}")
        desk.start()
        for _ in range(2):
            want("the next one", desk.do("promote", "web", options=("--once", "q")), CONTRADICTION,
                 said=AHEAD)
        # what the journal has as done is answered from the journal
        want("the last one", desk.do("promote", "web", options=("--once", "p")), DONE,
             shown(PROMOTED))
        expect("nothing acted", desk.count("promote"), {})
        # a person looks, and moves the journal away
        (desk.folder / "ops.journal").rename(desk.folder / "ops.journal.old")
        want("anew", desk.do("promote", "web", options=("--once", "q")), DONE, shown(PROMOTED))
        want_delivered("anew", desk)


def try_shared_name(world):
    """Two journals of one name, and a journal at another desk."""
    with world.desk("shared") as desk, world.desk("another") as another:
        add(desk)
        add(another)
        want("tick", desk.do("tick", "web"), DONE, shown(STARTED))
        shutil.copy(desk.folder / "ops.journal", desk.folder / "copy.journal")
        want("promote", desk.do("promote", "web"), DONE, shown(PROMOTED))
        for _ in range(2):
            want("a copy", desk.do("abort", "web", journal="copy.journal"), CONTRADICTION,
                 said=REUSED)
        expect("aborts", desk.count("abort"), {})
        # a copy that asks the same cannot be told from the one that asked first
        shutil.copy(desk.folder / "copy.journal", desk.folder / "third.journal")
        before = desk.kept()
        want("another desk", desk.do("promote", "web", port=another.port), CONTRADICTION,
             said=AHEAD)
        expect("promotions", (desk.count("promote"), another.count("promote")), ({"web": 1}, {}))
        expect("at the desk", desk.kept(), before)
        want("again at its own", desk.do("promote", "web"), DONE, shown(ENDED))
        want_delivered("shared", desk)


def try_foreign_journals(world):
    """A journal of another caller, a name that is spent, a folder in the place of the file, a
    folder that is not there or may not be written, a file that may not be."""
    with world.desk("foreign-journals") as desk:
        add(desk)
        want("tick", desk.do("tick", "web"), DONE, shown(STARTED))
        before = (desk.folder / "ops.journal").read_bytes()
        want("another caller", desk.do("promote", "web", caller="other"), WORDS, said=OTHER_CALLER)
        expect("another caller: the file", (desk.folder / "ops.journal").read_bytes(), before)
        desk.write("spent.journal",
                   '+{"begun":{"caller":"ops","settled":1000000000}}\n-')
        want("spent", desk.do("promote", "web", journal="spent.journal"), CONTRADICTION,
             said=SPENT)
        (desk.folder / "folder").mkdir()
        want("a folder", desk.do("promote", "web", journal="folder"), LOCAL,
             said=desk.of_file(NO_FILE, "folder"))
        want("no folder", desk.do("promote", "web", journal="none/ops.journal"), LOCAL,
             said=desk.of_file(NO_JOURNAL_FILE, "none/ops.journal"))
        expect("promotions", desk.count("promote"), {})


def try_unwritable(world):
    """By a user who may write neither the folder nor the file."""
    with world.desk("unwritable") as desk:
        add(desk)
        want("tick", desk.do("tick", "web"), DONE, shown(STARTED))
        before = (desk.folder / "ops.journal").read_bytes()
        program = desk.folder / "canary"
        install(program, world.program)
        for path, mode in ((desk.folder / "ops.journal", 0o444), (world.folder, 0o711),
                           (desk.folder, 0o555)):
            path.chmod(mode)
        nobody = {"user": NOBODY, "group": NOBODY} if os.getuid() == 0 else {}
        for name in ("new.journal", "ops.journal"):
            with process([str(program), *desk.words("promote", "web", journal=name)],
                         env=environment(), stdin=subprocess.DEVNULL, stdout=subprocess.PIPE,
                         stderr=subprocess.PIPE, cwd="/", **nobody) as client:
                found = client.communicate(timeout=60)
                expect(name, (client.returncode, *found),
                       (LOCAL, b"", f"canary: {desk.of_file(NO_JOURNAL_FILE, name)}\n".encode()))
        desk.folder.chmod(0o755)
        expect("no file is made", (desk.folder / "new.journal").exists(), False)
        expect("the file", (desk.folder / "ops.journal").read_bytes(), before)
        expect("promotions", desk.count("promote"), {})


def try_pending_goes_first(world):
    """What is pending is settled before another command is asked."""
    with world.desk("behind") as desk:
        add(desk, "web", "other")
        want("tick", desk.do("tick", "web"), DONE, shown(STARTED))
        desk.kill()
        found = desk.do("promote", "web", tries=2)
        want("no desk", found, PENDING, said=PENDING_SAID)
        want_all_said("no desk", found, UNREACHABLE, PENDING_SAID)
        found = desk.do("promote", "other", tries=1)
        want_all_said("behind", found, BEHIND, PENDING_SAID)
        expect("behind", (found.status, found.output), (PENDING, ""))
        expect("one is pending", desk.journal().pending.intent, PROMOTE)
        desk.start()
        found = desk.do("promote", "other")
        want("behind", found, DONE, shown(PROMOTED, "other"), BEHIND)
        want_all_said("behind", found, BEHIND)
        expect("promotions", desk.count("promote"), {"web": 1, "other": 1})
        want_delivered("behind", desk)
        # the same call finds out what became of it
        with answering(lambda client: ask(desk.port, client.recv(65536))) as port:
            found = desk.do("promote", "web", port=port, tries=1)
            want("unanswered", found, PENDING, said=PENDING_SAID)
            found = desk.do("promote", "web", port=port, tries=2)
            want_all_said("unanswered", found, LOST, PENDING_SAID)
        want("found out", desk.do("promote", "web"), DONE, shown(ENDED))
        expect("promotions", desk.count("promote"), {"web": 2, "other": 1})
        want_delivered("found out", desk)
