"""What comes in the place of a desk's reply: parts of client.py."""
import re
import socket
import sys
import time

from world import (
    CONTRADICTION, DONE, FOREIGN, LOST, NOT_BEGUN, NO_DESK, PENDING, PENDING_SAID, PROMOTED,
    SPENT, STARTED, UNAVAILABLE, UNREACHABLE, add, answering, ask, expect, free_port, put, shown,
    shows, want, want_all_said, want_delivered, want_seconds,
)

UNREAD = ("the desk cannot read this command, so it will never be settled; another one can take"
          " its place (--instead)")
PROMOTE = b'{"promote":{"service":"web"}}'


def reply(status, body, fields="Content-Type: text/html\r\n"):
    body = body if isinstance(body, bytes) else body.encode()
    head = f"HTTP/1.1 {status} Some Reason\r\n{fields}Content-Length: {len(body)}\r\n\r\n"
    return head.encode() + body


HTML = "<html><head><title>502 Bad Gateway</title></head></html>"
WHOLE = reply(200, shows("web", *PROMOTED), "Content-Type: application/json\r\n")
# What a server sends before it closes, and what the client says of it.
REPLIES = (
    ("a proxy's 502", reply(502, HTML), FOREIGN),
    ("a proxy's 504", reply(504, HTML), FOREIGN),
    ("a proxy's 503", reply(503, HTML), FOREIGN),
    ("a proxy's 401", reply(401, HTML), FOREIGN),
    ("a proxy's 403", reply(403, HTML), FOREIGN),
    ("a proxy's 404", reply(404, HTML), FOREIGN),
    ("a proxy's 413", reply(413, HTML), FOREIGN),
    ("another place", reply(301, "", "Location: http://127.0.0.1:1/\r\n"), FOREIGN),
    ("200 with HTML", reply(200, HTML), FOREIGN),
    ("200 with other JSON", reply(200, "{}"), FOREIGN),
    ("200 with a text", reply(200, '"ok"'), FOREIGN),
    ("200 with another code", reply(200, '{"code":"fine"}'), FOREIGN),
    ("200 with no body", reply(200, ""), FOREIGN),
    ("422 with HTML", reply(422, HTML), FOREIGN),
    ("409 with another code", reply(409, '{"code":"conflict"}'), FOREIGN),
    ("a gateway's 400", reply(400, '{"code":"validation_error"}'), FOREIGN),
    ("a gateway's 422", reply(422, '{"code":"validation_error"}'), FOREIGN),
    ("a gateway's 404", reply(404, '{"code":"NOT_FOUND"}'), FOREIGN),
    ("a gateway's 405", reply(405, '{"code":"method-not-allowed"}'), FOREIGN),
    ("a gateway's 413", reply(413, '{"code":"PayloadTooLarge"}'), FOREIGN),
    ("a gateway's 503", reply(503, '{"code":"overloaded"}'), FOREIGN),
    ("a refusal with 400", reply(400, '{"code":"not-paused"}'), FOREIGN),
    ("a refusal with 200", reply(200, '{"code":"not-paused"}'), FOREIGN),
    ("ok with 422", reply(422, '{"code":"ok"}'), FOREIGN),
    ("ok with 201", reply(201, '{"code":"ok"}'), FOREIGN),
    ("reused with 422", reply(422, '{"code":"reused"}'), FOREIGN),
    ("a length with a sign", WHOLE.replace(b"Content-Length: ", b"Content-Length: +"), FOREIGN),
    ("a length and chunks", WHOLE.replace(b"\r\n\r\n", b"\r\nTransfer-Encoding: chunked\r\n\r\n"),
     FOREIGN),
    ("a length and identity",
     WHOLE.replace(b"\r\n\r\n", b"\r\ntransfer-encoding: identity\r\n\r\n"),
     FOREIGN),
    ("a length below 0", WHOLE.replace(b"Content-Length: ", b"Content-Length: -"), FOREIGN),
    ("a length of nothing", re.sub(rb"Content-Length: \d+", b"Content-Length:", WHOLE), FOREIGN),
    ("a length in hexadecimal", re.sub(rb"Content-Length: \d+", b"Content-Length: 0x4a", WHOLE),
     FOREIGN),
    ("a length past all numbers",
     re.sub(rb"Content-Length: \d+", b"Content-Length: 18446744073709551690", WHOLE), FOREIGN),
    ("a length that cuts the body", re.sub(rb"Content-Length: \d+", b"Content-Length: 9", WHOLE),
     FOREIGN),
    ("a status alone", b"HTTP/1.1 200 OK\r\n\r\n", FOREIGN),
    ("204 without a body", b"HTTP/1.1 204 No Content\r\n\r\n", FOREIGN),
    ("a reply of HTTP/2", WHOLE.replace(b"HTTP/1.1", b"HTTP/2"), FOREIGN),
    ("a line that is folded", WHOLE.replace(b"\r\n\r\n", b"\r\n folded: x\r\n\r\n"), FOREIGN),
    ("a body that nests deep", reply(200, "[" * 60_000 + "]" * 60_000), FOREIGN),
    ("409 ahead of nothing", reply(409, '{"code":"ahead"}'), FOREIGN),
    ("a body that is not UTF-8", reply(200, b'{"code":"ok\xff"}'), FOREIGN),
    ("no length", WHOLE.replace(b"Content-Length", b"X-Length"), FOREIGN),
    ("two lengths", WHOLE.replace(b"Content-Length: ", b"Content-Length: 1\r\nContent-Length: "),
     FOREIGN),
    ("chunks", b"HTTP/1.1 200 OK\r\nTransfer-Encoding: chunked\r\n\r\n2\r\n{}\r\n0\r\n\r\n",
     FOREIGN),
    ("SSH", b"SSH-2.0-OpenSSH_9.2p1 Debian-2\r\n", FOREIGN),
    ("TLS", bytes.fromhex("15030100020216"), FOREIGN),
    ("503 of a desk", reply(503, '{"code":"no-memory"}'), UNAVAILABLE),
    ("503 of a desk's store", reply(503, '{"code":"storage"}'), UNAVAILABLE),
    ("an empty reply", b"", LOST),
    ("a cut head", WHOLE[:20], LOST),
    ("no body yet", WHOLE[:WHOLE.index(b"{")], LOST),
    ("a body that lacks a byte", WHOLE[:-1], LOST),
)


def giving(sent, heard=None):
    """A server that reads a message and sends this."""
    def answer(client):
        message = client.recv(65536)
        if heard is not None:
            heard.append((time.monotonic(), message))
        client.sendall(sent)
    return answering(answer)


def try_foreign_replies(world):
    """None of these settles a command, begins a journal or answers a query, and each gets its
    sentence."""
    with world.desk("foreign") as desk:
        add(desk)
        want("tick", desk.do("tick", "web"), DONE, shown(STARTED))
        for row, sent, said in REPLIES:
            with giving(sent) as port:
                found = desk.do("promote", "web", port=port)
                want(row, found, PENDING, said=PENDING_SAID)
                want_all_said(row, found, said, PENDING_SAID)
                found = desk.do("promote", "web", port=port, journal="new.journal", tries=1)
                want_all_said(f"{row}: a new journal", found, NOT_BEGUN)
                want(f"{row}: a new journal", found, PENDING, said=NOT_BEGUN)
                expect("nothing is begun", (desk.folder / "new.journal").read_bytes(), b"-")
                found = world.run(["get", "--desk", f"127.0.0.1:{port}", "--tries", "2",
                                   "--timeout", "20", "web"], desk.folder)
                want_all_said(f"{row}: a query", found, said, NO_DESK)
                want(f"{row}: a query", found, PENDING, said=NO_DESK)
        expect("promotions", desk.count("promote"), {})
        want("at last", desk.do("promote", "web"), DONE, shown(PROMOTED))
        want_delivered("foreign", desk)
        expect("promotions", desk.count("promote"), {"web": 1})
    return f"{len(REPLIES)} replies"


def try_numbers_past_the_last(world):
    """A count that no desk can have settled, 1,000,000,001 and more, is no desk's reply: no journal
    begins with it, and the message is sent again. The last one begins a journal that is spent."""
    with world.desk("past-the-last") as desk:
        for expected in (1_000_000_002, 4_294_967_295, 4_294_967_296, 0):
            with giving(reply(409, f'{{"code":"ahead","expected":{expected}}}')) as port:
                found = desk.do("promote", "web", port=port)
                want(f"{expected}", found, PENDING, said=NOT_BEGUN)
                want_all_said(f"{expected}", found, FOREIGN, NOT_BEGUN)
                expect("nothing is begun", (desk.folder / "ops.journal").read_bytes(), b"-")
        with giving(reply(409, '{"code":"ahead","expected":1000000001}')) as port:
            want("the last", desk.do("promote", "web", port=port, caller="c" * 63,
                                     journal="last.journal"), CONTRADICTION, said=SPENT)
            expect("the longest first line", (desk.folder / "last.journal").read_bytes(),
                   f'+{{"begun":{{"caller":"{"c" * 63}","settled":1000000000}}}}\n-'.encode())


def try_unreachable(world):
    """Nobody listens."""
    with world.desk("unreachable") as desk:
        port = free_port()
        found = desk.do("promote", "web", port=port, tries=3)
        want_all_said("do", found, UNREACHABLE, UNREACHABLE, NOT_BEGUN)
        expect("do", (found.status, found.output), (PENDING, ""))
        for words in (["get", "web"], ["watch", "web"], ["due", "web"], ["due", "--wait", "web"]):
            found = world.run([words[0], "--desk", f"127.0.0.1:{port}", "--tries", "2",
                               *words[1:]], desk.folder)
            want_all_said(words, found, UNREACHABLE, NO_DESK)
            expect(words, (found.status, found.output), (PENDING, ""))


def try_bytes_and_pauses(world):
    """A message that is sent again is the same, byte for byte, after pauses that double."""
    with world.desk("bytes") as desk:
        add(desk)
        want("tick", desk.do("tick", "web"), DONE, shown(STARTED))
        heard = []
        with giving(b"", heard) as port:
            want("lost", desk.do("promote", "web", port=port, tries=5), PENDING,
                 said=PENDING_SAID)
            want("lost again", desk.do("promote", "web", port=port, tries=1), PENDING,
                 said=PENDING_SAID)
        wanted = (b"PUT /callers/ops/requests/2 HTTP/1.1\r\nHost: desk\r\nConnection: close\r\n"
                  b"Content-Length: %d\r\n\r\n" % len(PROMOTE)) + PROMOTE
        expect("messages", [message for _, message in heard], [wanted] * 6)
        pauses = [after - before for (before, _), (after, _) in zip(heard, heard[1:])]
        for pause, least in zip(pauses, (.1, .2, .4, .8)):
            want_seconds("a pause", pause, least, least + 10)


def try_stalling_desk(world):
    """A desk that accepts and never answers, and one that sends a byte now and then: the client
    waits as long as --timeout says, for each try."""
    def stall(client):
        client.recv(65536)
        client.recv(1)

    def trickle(client):
        client.recv(65536)
        for byte in WHOLE:
            client.sendall(bytes([byte]))
            time.sleep(.2)

    with world.desk("stalling") as desk:
        add(desk)
        want("tick", desk.do("tick", "web"), DONE, shown(STARTED))
        for row, answer in (("it stalls", stall), ("it trickles", trickle)):
            with answering(answer) as port:
                begun = time.monotonic()
                found = desk.do("promote", "web", port=port, timeout=1)
                spent = time.monotonic() - begun
                want_all_said(row, found, LOST, PENDING_SAID)
                expect(row, (found.status, found.output), (PENDING, ""))
                want_seconds(f"{row}: two tries of a second", spent, 2, 15)
        # the port takes a connection, and no program does
        with socket.create_server(("127.0.0.1", 0), backlog=1) as server:
            found = desk.do("promote", "web", port=server.getsockname()[1], tries=1, timeout=1)
            want("nobody accepts", found, PENDING, said=PENDING_SAID)
        want("at last", desk.do("promote", "web"), DONE, shown(PROMOTED))
        want_delivered("stalling", desk)


def try_unavailable(world):
    """A desk that answers 503 and then recovers, as the journal begins and after that."""
    with world.desk("unavailable") as desk:
        add(desk)
        left = [2]

        def answer(client):
            if left[0] > 0:
                left[0] -= 1
                client.recv(65536)
                client.sendall(reply(503, '{"code":"storage"}'))
            else:
                client.sendall(ask(desk.port, client.recv(65536)))

        with answering(answer) as port:
            found = desk.do("tick", "web", port=port, tries=5)
            want("a new journal", found, DONE, shown(STARTED), UNAVAILABLE)
            want_all_said("a new journal", found, UNAVAILABLE, UNAVAILABLE)
            left[0] = 2
            found = desk.do("promote", "web", port=port, tries=5)
            want("a command", found, DONE, shown(PROMOTED), UNAVAILABLE)
            want_all_said("a command", found, UNAVAILABLE, UNAVAILABLE)
            left[0] = 1
            found = world.run(["get", "--desk", f"127.0.0.1:{port}", "web", "history"], desk.folder)
            want_all_said("a query", found, UNAVAILABLE)
            expect("a query", found.status, DONE)
        want_delivered("unavailable", desk)
        expect("promotions", desk.count("promote"), {"web": 1})


def try_full_store(world):
    """A real desk whose disk is full: it answers 503, and does the command once there is room."""
    with world.desk("full") as desk:
        add(desk)
        want("tick", desk.do("tick", "web"), DONE, shown(STARTED))
        limit = (desk.folder / "desk.db-wal").stat().st_size
        desk.kill()
        front = ("import os, resource, signal, sys; signal.signal(signal.SIGXFSZ, signal.SIG_IGN);"
                 "resource.setrlimit(resource.RLIMIT_FSIZE, (%d, resource.RLIM_INFINITY));"
                 "os.execv(sys.argv[1], sys.argv[1:])" % limit)
        desk.start(front=[sys.executable, "-c", front])
        found = desk.do("promote", "web", tries=2)
        want_all_said("full", found, UNAVAILABLE, PENDING_SAID)
        expect("full", (found.status, found.output), (PENDING, ""))
        desk.restart()
        want("room", desk.do("promote", "web"), DONE, shown(PROMOTED))
        want_delivered("full", desk)
        expect("promotions", desk.count("promote"), {"web": 1})


def try_unread(world):
    """A desk that cannot read a command will never settle it: another one takes its place."""
    with world.desk("unread") as desk:
        add(desk)
        want("tick", desk.do("tick", "web"), DONE, shown(STARTED))
        for status, code in ((400, "unreadable"), (404, "no-route"), (405, "method"),
                             (411, "length"), (413, "too-long")):
            with giving(reply(status, f'{{"code":"{code}"}}')) as port:
                want(code, desk.do("promote", "web", port=port), CONTRADICTION, said=UNREAD)
        want("instead", desk.do("abort", "web", options=("--instead",)), DONE,
             shown(("Degraded", 1, 0)))
        want_delivered("unread", desk)
        expect("promotions", desk.count("promote"), {})


def try_late_copies(world):
    """A copy of a message that comes long after its reply changes nothing."""
    with world.desk("copies") as desk:
        add(desk)
        messages = []

        def answer(client):
            messages.append(client.recv(65536))
            client.sendall(ask(desk.port, messages[-1]))

        with answering(answer) as port:
            for word, wanted in (("promote", PROMOTED), ("abort", ("Degraded", 3, 0)),
                                 ("retry", STARTED), ("promote", PROMOTED)):
                want(word, desk.do(word, "web", port=port), DONE, shown(wanted))
        kept = desk.kept()
        for message in reversed(messages[1:]):
            number = int(message.split(b" ")[1].rsplit(b"/", 1)[1])
            body = message.split(b"\r\n\r\n", 1)[1]
            expect(message, put(desk.port, "ops", number, body), kept[number - 1][1:])
        expect("kept", desk.kept(), kept)
        expect("promotions", desk.count("promote"), {"web": 2})
        want_delivered("copies", desk)
