"""Clients and desks some of whose standard streams are closed, each set of the three in turn: parts
of client.py. No journal, socket or other file takes the place of a stream."""
import itertools
import socket
import subprocess
import threading

from closing import SUBSETS, closing, run_closed
from reports import add_measured, metric
from words import OUTPUT, ended_with
from world import (
    DONE, LOCAL, LOST, NO_DESK, PENDING, PROMOTED, REFUSED, UNREACHABLE, Wrong, add, answering,
    ask, expect, free_port, rollout, running, shown, want, want_all_said, want_delivered,
)

HEADER = "caller,number,service,run,metric,ordinal,taken,result,failure\n"
# What `send` counts of a file of two rows.
COUNTED = "rows recorded: 2, repeated: 0, refused: 0"


def name_of(closed):
    return f"closed-{''.join(map(str, closed))}" if closed else "all-open"


def want_closed(row, closed, ended, output, said=(), status=DONE):
    """It ended as with all streams open, by what it has to show on those that are open: what it
    cannot show is status 5."""
    told = [*said, *([OUTPUT] if 1 in closed else [])]
    expect(row, (ended.status, ended.output), (LOCAL, "") if 1 in closed else (status, output))
    want_all_said(row, ended, *([] if 2 in closed else told))


def key_words(desk, name, *words, port=None):
    """The words of a command under a key, in a journal of its own."""
    return desk.words(*words, caller=name, journal=f"{name}.journal", port=port,
                      options=("--once", f"key-{words[0]}"))


def journal_bytes(desk, name):
    """The bytes of a journal, with the name of its row left out."""
    return (desk.folder / f"{name}.journal").read_bytes().replace(name.encode(), b"NAME")


def try_closed_commands(world):
    """A command under a key is asked twice with streams closed, and then with all open: it acts
    once, and the journal is byte for byte that of a call with all streams open."""
    with world.desk("closed-commands") as desk:
        names = list(map(name_of, SUBSETS))
        add(desk, *names)
        journals = {}
        for closed, name in zip(SUBSETS, names):
            manifest = desk.write(f"{name}.json", rollout(f"other-{name}", {"setWeight": 20}))
            before = (desk.folder / manifest).read_bytes()
            for words, status, reply in (
                    (("promote", name), DONE, shown(PROMOTED, name)),
                    (("retry", name), REFUSED, '{"code":"not-aborted"}\n'),
                    (("service", manifest, "v1"), DONE,
                     shown(("Healthy", 1, 100), f"other-{name}"))):
                asked = [world.program, *key_words(desk, name, *words)]
                first, second = (run_closed(asked, desk.folder, closed) for _ in range(2))
                want_closed(f"{words}, {name}, the first time", closed, first, reply, status=status)
                want_closed(f"{words}, {name}, again", closed, second, reply, status=status)
                want(f"{words}, {name}, all open", world.run_words(asked, desk.folder), status,
                     reply)
            expect(f"{name}: the manifest", (desk.folder / manifest).read_bytes(), before)
            expect(f"{name}: settled", want_delivered(name, desk, name, f"{name}.journal"), 3)
            journals[name] = journal_bytes(desk, name)
        expect("promotions", desk.count("promote"), dict.fromkeys(names, 1))
        expect("services", set(desk.count("created v1")),
               {*names, *(f"other-{name}" for name in names)})
        for name in names:
            expect(f"{name}: its journal", journals[name], journals[names[0]])


def losing(desk, come):
    """A server before a desk that loses every second reply, from the first one on."""
    def answer(client):
        found = ask(desk.port, client.recv(65536))
        come.append(found)
        if len(come) % 2 == 0:
            client.sendall(found)
    return answering(answer)


def run_losing(desk, come, name, words, closed):
    """Runs a command under a key so that every second reply is lost."""
    with losing(desk, come) as port:
        asked = key_words(desk, name, *words, port=port)
        return run_closed([desk.world.program, *asked], desk.folder, closed)


def try_closed_lost_replies(world):
    """Each reply is lost once, so there is something to say while the journal is open: a new one,
    and one in use. The command acts once, and the journal is whole."""
    with world.desk("closed-lost") as desk:
        names = list(map(name_of, SUBSETS))
        add(desk, *names)
        journals = {}
        for closed, name in zip(SUBSETS, names):
            for words, reply, lost in ((("promote", name), PROMOTED, 2),
                                       (("tick", name), PROMOTED, 1)):
                row, come = f"{words}, {name}", []
                ended = run_losing(desk, come, name, words, closed)
                want_closed(row, closed, ended, shown(reply, name), [LOST] * lost)
                expect(f"{row}: how often it was sent", len(come), 2 * lost)
                want(f"{row}, all open", world.run(key_words(desk, name, *words), desk.folder),
                     DONE, shown(reply, name))
            expect(f"{name}: settled", want_delivered(name, desk, name, f"{name}.journal"), 2)
            journals[name] = journal_bytes(desk, name)
        expect("promotions", desk.count("promote"), dict.fromkeys(names, 1))
        for name in names:
            expect(f"{name}: its journal", journals[name], journals[names[0]])


def try_closed_queries(world):
    """`get`, `watch`, `due`, also with an output that is full, and a query that nobody answers."""
    with world.desk("closed-queries") as desk:
        add_measured(desk, metric("m", "1h"))
        history = desk.ask("get", "web", "history").output
        line = "web Paused, step 1, weight 20%, version v2, waits for a promotion\n"
        queries = ((["get", "web", "history"], DONE, history),
                   (["get", "none"], REFUSED, '{"code":"unknown-service"}\n'),
                   (["watch", "--until", "Paused", "web"], DONE, line),
                   (["due", "web"], DONE, "1 m 1\n"))
        at = ["--desk", f"127.0.0.1:{desk.port}"]
        for (word, *words), _, _ in queries:
            with open("/dev/full", "wb") as full:
                found = ended_with(world, [word, *at, *words], desk.folder, full)
            expect(f"{word} {words}: full", found, (LOCAL, f"canary: {OUTPUT}\n"))
        for closed in SUBSETS:
            for (word, *words), status, reply in queries:
                row = f"{word} {words}, {name_of(closed)}"
                ended = run_closed([world.program, word, *at, *words], desk.folder, closed)
                want_closed(row, closed, ended, reply, status=status)
            words = ["get", "--desk", f"127.0.0.1:{free_port()}", "--tries", "2", "web"]
            ended = run_closed([world.program, *words], desk.folder, closed)
            expect(f"no desk, {name_of(closed)}", (ended.status, ended.output), (PENDING, ""))
            want_all_said("no desk", ended, *([] if 2 in closed else [UNREACHABLE, NO_DESK]))


def sent_lines(name):
    """The lines of the two rows of a measurement file."""
    return "".join(f'{row} 200 {{"code":"ok","phases":["Successful"],"run":1,"service":"{name}",'
                   '"status":"Paused","step":1,"verdict":"Running","weight":20}\n'
                   for row in (1, 2))


def try_closed_sends(world):
    """`send`, of a file and of its input: if a line cannot be shown, its row is settled, and no
    other; sent again as a whole, each row has its line, and is settled once."""
    with world.desk("closed-sends") as desk:
        for closed, source in itertools.product(SUBSETS, ("file", "input")):
            name = f"{name_of(closed)}-{source}"
            add_measured(desk, metric("m", "0s"), name=name)
            rows = desk.write(f"{name}.csv", HEADER + "".join(
                f"{name},{at},{name},1,m,{at},{taken_now(desk, name)},5,\n" for at in (1, 2)))
            before = (desk.folder / rows).read_bytes()
            sent = ["send", "--desk", f"127.0.0.1:{desk.port}", "--timeout", "60"]
            words = [*sent, rows if source == "file" else "-"]
            ended = run_closed([world.program, *words], desk.folder, closed, rows)
            if source == "input" and 0 in closed:
                expect(f"{name}: it ended", (ended.status, ended.output), (LOCAL, ""))
                expect(f"{name}: settled", desk.kept(name), [])
            else:
                want_closed(name, closed, ended, sent_lines(name), [] if 1 in closed else [COUNTED])
                expect(f"{name}: settled", len(desk.kept(name)), 1 if 1 in closed else 2)
            words = [*sent, rows]
            ended = world.run(words, desk.folder)
            want(f"{name}, all open", ended, DONE, sent_lines(name), COUNTED)
            expect(f"{name}: the file", (desk.folder / rows).read_bytes(), before)
            expect(f"{name}: settled", len(desk.kept(name)), 2)


def taken_now(desk, name):
    """A moment at which a service's run is open."""
    (started,), = desk.rows("SELECT started FROM run WHERE service = ?", name)
    return started


def begin_closed(world, words, folder, closed):
    """A desk that runs on with these streams closed."""
    started = subprocess.Popen(
        closing(closed, [world.program, *words]), cwd=folder, stdin=subprocess.DEVNULL,
        stdout=subprocess.PIPE, stderr=subprocess.PIPE)
    running.add(started)
    return started


def first_client(row, port, desk):
    """A connection to a desk that has just been begun."""
    for _ in range(1000):
        if desk.poll() is not None:
            raise Wrong(f"{row}: it ended with {desk.returncode}")
        try:
            return socket.create_connection(("127.0.0.1", port), 20)
        except ConnectionRefusedError:
            threading.Event().wait(.02)
    raise Wrong(f"{row}: it does not listen")


def received(client):
    """All that a client gets until the desk ends the connection."""
    client.shutdown(socket.SHUT_WR)
    found = b""
    while piece := client.recv(65536):
        found += piece
    return found


NOT_FOUND = (b"HTTP/1.1 404 Not Found\r\nContent-Type: application/json\r\nContent-Length: 26\r\n"
             b"\r\n" b'{"code":"unknown-service"}')


def try_closed_desks(world):
    """A desk that listens: what it says of a broken connection goes to no client and no file. If it
    cannot say where it listens, it ends."""
    for closed, file in itertools.product(SUBSETS, ([], ["--db", "desk.db"])):
        row = f"{name_of(closed)}{''.join(file)}"
        folder, port = world.place(f"desk-{row}"), free_port()
        words = ["serve", "--listen", f"127.0.0.1:{port}", "--connections", "3", *file]
        memory = [] if file else ["canary: the records of this desk are in memory, and end with it"]
        desk = begin_closed(world, words, folder, closed)
        if 1 in closed:
            lines = [*memory, "canary: write"]
            told = b"" if 2 in closed else "".join(f"{line}\n" for line in lines).encode()
            expect(row, (desk.communicate(timeout=60), desk.returncode), ((b"", told), 1))
            running.discard(desk)
            continue
        with first_client(row, port, desk) as first, \
                socket.create_connection(("127.0.0.1", port), 20) as broken, \
                socket.create_connection(("127.0.0.1", port), 20) as last:
            broken.sendall(b"GET /services/web")
            expect(f"{row}: a message that is cut", received(broken), b"")
            for client in (first, last):
                client.sendall(b"GET /services/web HTTP/1.1\r\n\r\n")
                expect(f"{row}: a reply", received(client), NOT_FOUND)
        output, errors = desk.communicate(timeout=60)
        running.discard(desk)
        expect(f"{row}: it ended", (desk.returncode, output),
               (0, f"listening 127.0.0.1:{port}\n".encode()))
        lines = [*memory, "canary: truncated 127.0.0.1"]
        told = b"" if 2 in closed else "".join(f"{line}\n" for line in lines).encode()
        expect(f"{row}: what it said", errors, told)
        names = {"desk.db", "desk.db-wal"} if file else set()
        expect(f"{row}: files", {path.name for path in folder.iterdir()}, names)
