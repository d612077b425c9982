"""Messages of which each has its fate, and files of journals, in tables: parts of client.py."""
import sys

from journal_rule import is_new, journal_of
from journals import Reader
from world import (
    DONE, LATE, LOCAL, NO_JOURNAL_FILE, PENDING, PENDING_SAID, PROMOTED, STARTED, TOO_LATE,
    Wrong, add, answering, expect, free_port, shown, want, want_delivered,
)

# What becomes of messages, one letter for each, and after these all are answered; and what acted
# then, each command one letter, with `late` if the first reply came late.
#
# - `l`: it is lost; `r`: its reply is; `t`: it comes twice
# - `b`: it comes before the next one, and its reply is lost; `e`: it comes after the next one
# - `u`: the desk answers 503; `f`: a proxy answers 502
#
# The first command is p. If it is pending after two tries, i is asked in its place. Then comes q.
FATES = """\
a pq
la pq
ra pq
ta pq
ua pq
fa pq
ll iq
uf iq
llll iq
rl pq late
rr pq late
bl pq late
lb pq late
le iq
rrl pq late
rrar pq late
rrallb pq late
lee iq
allt pq"""
COMMANDS = {"p": "promote", "i": "abort", "q": "tick"}
BODIES = {f'{{"{command}":{{"service":"web"}}}}': letter for letter, command in COMMANDS.items()}
BEGUN = b'+{"begun":{"caller":"ops","settled":0}}\n-'

# Journals of which the last line may not stand there.
WRONG = r"""
{"asked":{"body":"b","intent":"i","key":null,"number":1}}

{"begun":{"caller":"ops","settled":0}}
{"begun":{"caller":"ops","settled":0}}

{"begun":{"caller":"Ops","settled":0}}

{"begun":{"caller":"ops","settled":1000000001}}

{"begun":{"caller":"ops", "settled":0}}

{"begun":{"settled":0,"caller":"ops"}}

{"begun":{"caller":"ops","settled":0}}
{"asked":{"body":"b","intent":"i","key":null,"number":2}}

{"begun":{"caller":"ops","settled":0}}
{"asked":{"body":"b","intent":"i","key":null,"number":1}}
{"asked":{"body":"b","intent":"i","key":null,"number":1}}

{"begun":{"caller":"ops","settled":0}}
{"instead":{"body":"b","number":1}}

{"begun":{"caller":"ops","settled":0}}
{"settled":{"body":"b","late":false,"number":1,"status":200}}

{"begun":{"caller":"ops","settled":0}}
{"asked":{"body":"b","intent":"i","key":null,"number":1}}
{"settled":{"body":"b","late":true,"number":1,"status":200}}

{"begun":{"caller":"ops","settled":0}}
{"asked":{"body":"b","intent":"i","key":"k","number":1}}
{"settled":{"body":"b","late":false,"number":1,"status":200}}
{"asked":{"body":"b","intent":"i","key":"k","number":2}}

{"begun":{"caller":"ops","settled":0}}
{"asked":{"body":"b","intent":"i","key":null,"number":1}}
{"instead":{"body":"c","number":1}}
{"instead":{"body":"d","number":1}}"""

# The journal of ops, of whom the desk had settled four requests. It asked a promotion, which was
# refused, then a full promotion, and in its place an abort.
FILE = (
    rb"""+{"begun":{"caller":"ops","settled":4}}
+{"asked":{"body":"{\"promote\":{\"service\":\"web\"}}","intent":"promote web","""
    rb""""key":"deploy-77","number":5}}
+{"settled":{"body":"{\"code\":\"not-paused\"}","late":false,"number":5,"status":422}}
+{"asked":{"body":"{\"promoteFull\":{\"service\":\"web\"}}","intent":"promote-full web","""
    rb""""key":null,"number":6}}
+{"instead":{"body":"{\"abort\":{\"service\":\"web\"}}","number":6}}
-""")
# What a crash may leave after the closed gate: the first bytes of the next record.
NEXT = rb"""{"settled":{"body":"{\"code\":\"ok\"}","late":true,"number":6,"status":200}}
-"""


class FatedDesk:
    """A desk that is a list of what acted, and the fates of the messages to it."""

    def __init__(self, fates):
        self.fates, self.acted, self.late, self.faults = list(fates), "", None, []

    def comes(self, message):
        """What answers a message that comes: what is next acts, what was settled under a number
        gets its reply again, another body `reused`, and a later number `ahead`."""
        number, body = message
        if number == len(self.acted) + 1:
            self.acted += body
        if number > len(self.acted):
            return replied(409, '{"code":"ahead","expected":1}')
        if self.acted[number - 1] != body:
            return replied(409, '{"code":"reused"}')
        return replied(200, did(body))

    def bring(self, is_before):
        """What is under way comes, if it is to come now."""
        if self.late is not None and self.late[1] == is_before:
            message, self.late = self.late[0], None
            self.comes(message)

    def meet(self, fate, message):
        """What the client gets for a message of that fate; nothing if it is lost."""
        if fate in "be":
            self.late = message, fate == "b"
        if fate in "rt":
            self.comes(message)
        if fate in "lber":
            return b""
        if fate == "u":
            return replied(503, '{"code":"storage"}')
        return replied(502, "<html>") if fate == "f" else self.comes(message)

    def exchange(self, message):
        self.bring(True)
        was_late = self.late is not None
        came = self.meet(self.fates.pop(0) if self.fates else "a", message)
        if was_late:
            self.bring(False)
        return came

    def answer(self, client):
        head, _, body = client.recv(65536).partition(b"\r\n\r\n")
        line = head.split(b" ")[:2]
        number = line[1].removeprefix(b"/callers/ops/requests/").decode()
        if line[0] != b"PUT" or not number.isdigit() or body.decode() not in BODIES:
            self.faults.append((line, body))
            return
        client.sendall(self.exchange((int(number), BODIES[body.decode()])))


def did(letter):
    return f'{{"code":"ok","did":"{letter}"}}'


def replied(status, body):
    return (f"HTTP/1.1 {status} OK\r\nContent-Length: {len(body)}\r\nConnection: close\r\n\r\n"
            f"{body}").encode()


def want_fate(world, folder, row):
    """The commands p, i and q have the ends and the replies of a row of FATES."""
    fates, acted, *late = row.split(" ")
    desk, file = FatedDesk(fates), folder / f"{fates}.journal"
    file.write_bytes(BEGUN)
    with answering(desk.answer) as port:
        def do(letter, tries, *options):
            return world.run(["do", "--desk", f"127.0.0.1:{port}", "--as", "ops", "--journal",
                              str(file), "--tries", str(tries), "--timeout", "60", *options,
                              COMMANDS[letter], "web"], folder)

        first = do("p", 2)
        if acted[0] == "p" and not late:
            expect(f"{row}: p", (first.status, first.output), (DONE, did("p") + "\n"))
        else:
            want(f"{row}: p", first, PENDING, said=PENDING_SAID)
            second = do("i", 4, "--instead")
            if late:
                want(f"{row}: i", second, LATE, did("p") + "\n", TOO_LATE)
            else:
                expect(f"{row}: i", (second.status, second.output), (DONE, did("i") + "\n"))
        third = do("q", 4)
        expect(f"{row}: q", (third.status, third.output), (DONE, did("q") + "\n"))
    expect(f"{row}: no message of ops", desk.faults, [])
    expect(f"{row}: acted", desk.acted, acted)
    kept = journal_of(file.read_bytes())
    expect(f"{row}: the journal", [(each.status, each.body, each.is_late) for each in kept.kept],
           [(200, did(letter), bool(late) and at == 0) for at, letter in enumerate(acted)])
    expect(f"{row}: pending", kept.pending, None)


def try_fates(world):
    """Over a network that loses messages and replies, repeats and delays them, and answers
    otherwise than a desk, each number acts once, and its reply is kept."""
    folder = world.place("fates")
    for row in FATES.split("\n"):
        want_fate(world, folder, row)
    return f"{len(FATES.split(chr(10)))} rows"


def try_wrong_lines(world):
    """A journal is refused of which the last line may not stand where it does; without that line
    it is read."""
    reader = Reader(world, "wrong-lines")
    for journal in WRONG.strip("\n").split("\n\n"):
        lines = [b"+" + line.encode() + b"\n" for line in journal.split("\n")]
        whole, before = b"".join(lines) + b"-", b"".join(lines[:-1]) + b"-"
        expect(f"{journal}: by the rule", (journal_of(whole), journal_of(before) is not None),
               (None, len(lines) > 1))
        reader.read(journal, whole)
        expect(f"{journal}: is refused", reader.counts.get(PENDING, 0), reader.counts[LOCAL] - 1)
        reader.read(f"{journal}: without its last line", before)
    expect("refused and read", (reader.counts[LOCAL], reader.counts[PENDING]), (13, 13))
    return reader.told()


def try_first_bytes(world):
    """A file counts as new by its first byte and its length alone: each first byte, and up to 110
    others after it."""
    reader = Reader(world, "first-bytes")
    for first in range(256):
        for count in (0, 1, 109, 110):
            data = bytes([first]) + b"x" * count
            wanted = count == 0 or first == ord("-") and count <= 109
            expect(f"{first} {count}: is new", is_new(data), wanted)
            reader.read(f"{first} {count}", data)
    expect("new and refused", (reader.counts[PENDING], reader.counts[LOCAL]), (258, 766))
    return reader.told()


def try_torn_record(world):
    """A record counts once the gate before it is open: whatever part of the next one a crash
    leaves, the journal is read as it was, and the call under a key gets its kept reply."""
    folder = world.place("torn-record")
    file, port = folder / "ops.journal", free_port()
    words = ["do", "--desk", f"127.0.0.1:{port}", "--as", "ops", "--journal", str(file), "--tries",
             "1"]
    for length in range(len(NEXT) + 1):
        file.write_bytes(FILE + NEXT[:length])
        found = world.run([*words, "retry", "web"], folder)
        want(f"torn at {length}", found, PENDING, said=PENDING_SAID)
        expect(f"torn at {length}: the file", file.read_bytes(), FILE)
    kept = journal_of(FILE)
    expect("by the rule", (kept.number(), len(kept.kept), kept.pending is not None), (6, 1, True))
    for length in range(len(FILE)):
        expect(f"cut to {length}: by the rule", journal_of(FILE[:length]), None)
        if length > 1:
            file.write_bytes(FILE[:length])
            expect(f"cut to {length}", world.run([*words, "retry", "web"], folder).status, LOCAL)
            expect(f"cut to {length}: the file", file.read_bytes(), FILE[:length])
    return f"{len(NEXT) + 1} torn, {len(FILE) - 2} cut"


# Begins a program of which no file may grow beyond so many bytes, as on a full disk.
LIMITED = ("import os, resource, signal, sys; signal.signal(signal.SIGXFSZ, signal.SIG_IGN);"
           "resource.setrlimit(resource.RLIMIT_FSIZE, (int(sys.argv[1]),) * 2);"
           "os.execv(sys.argv[2], sys.argv[2:])")


def try_full_journal(world):
    """A journal for which there is no more room after each number of bytes, so that any part of a
    line may be there: the client says so, and the same call again settles the command, once."""
    with world.desk("full-journal") as desk:
        add(desk, "measured")
        keyed, sizes = ("--once", "key"), []
        for word, options in (("tick", ()), ("promote", keyed)):
            found = desk.do(word, "measured", caller="measured", journal="measured.journal",
                            options=options)
            expect(word, found.status, DONE)
            sizes.append((desk.folder / "measured.journal").stat().st_size)
        # The names of the services below are as long.
        limits = world.some_of(range(sizes[0], sizes[1]), 3)
        services = {f"at-{limit:05}": limit for limit in limits}
        add(desk, *services)
        failed = 0
        for name, limit in services.items():
            own = {"caller": name, "journal": f"{name}.journal"}
            want(name, desk.do("tick", name, **own), DONE, shown(("Paused", 1, 20), name))
            words = desk.words("promote", name, options=keyed, **own)
            with_limit = [sys.executable, "-c", LIMITED, str(limit), world.program, *words]
            found = world.run_words(with_limit, desk.folder)
            if found.status != DONE:
                want(name, found, LOCAL, said=desk.of_file(NO_JOURNAL_FILE, own["journal"]))
                failed += 1
            for _ in range(2):
                want(name, desk.do("promote", name, options=keyed, **own), DONE,
                     shown(PROMOTED, name))
            want_delivered(name, desk, name, own["journal"])
        counts = desk.count("promote")
        expect("promotions", {counts.get(name) for name in services}, {1})
    if failed < len(services) - 2:
        raise Wrong(f"only {failed} of {len(services)} calls failed")
    return f"{failed} calls failed of {len(services)}"


def try_first_line_without_room(world):
    """A file that was made for a new caller, with one byte at most, and no room for all of its
    first line: the client says so, and the same call begins it once there is room."""
    with world.desk("first-line") as desk:
        add(desk)
        want("tick", desk.do("tick", "web"), DONE, shown(STARTED))
        for at, data in enumerate(("", "-", "+", "\0")):
            row, own = f"a file of {data!r}", {"caller": f"c{at}", "journal": f"c{at}.journal"}
            desk.write(own["journal"], data)
            words = desk.words("tick", "web", **own)
            found = world.run_words([sys.executable, "-c", LIMITED, "9", world.program, *words],
                                    desk.folder)
            want(f"{row}, no room", found, LOCAL,
                 said=desk.of_file(NO_JOURNAL_FILE, own["journal"]))
            want(f"{row}, room", desk.do("tick", "web", **own), DONE, shown(STARTED))
            want_delivered(row, desk, *own.values())
