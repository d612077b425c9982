"""Servers that are no desk, or a lying one: parts of client.py."""
import contextlib
import json
import os
import subprocess
import time

from replies import reply
from reports import NOT_IN_TIME, add_measured, metric
from sends import HEADER, ROW_PENDING
from words import on_terminal
from world import (
    CONTRADICTION, DONE, FOREIGN, MARKS, NO_DESK, PENDING, STARTED, Wrong, add, answering,
    environment, expect, free_port, running, shown, shows, soonest, want, want_all_said,
)

ROW_UNREAD = ("the desk cannot read this row, so it will never be settled; nothing was sent after"
              " that")
JSON = "Content-Type: application/json\r\n"
# What a server may write into a name.
NAME = "we\u001b[2J\u009b31m\u007f\u202eb\u2066\u2028\n\r\t\u0000\u061c\u00e9"


def serving(*answers):
    """A server that gives each connection the next of these bytes, the last one again and again."""
    left = list(answers)

    def answer(client):
        client.recv(65536)
        client.sendall(left.pop(0) if len(left) > 1 else left[0])
    return answering(answer)


def want_no_marks(row, text):
    """Nothing in the text but the ends of its lines is a mark."""
    found = [hex(ord(each)) for each in text if ord(each) in MARKS and each != "\n"]
    expect(f"{row}: marks", found, [])


def body_with(**members):
    """JSON whose texts have each mark that JSON lets stand, as it is, and the others escaped."""
    return json.dumps(members, ensure_ascii=False, separators=(",", ":"), sort_keys=True)


ESCAPED = "".join(f"\\u{ord(each):04x}" if ord(each) in MARKS else each for each in NAME)


def try_marks(world):
    """What a server writes into a name, a label or a code is shown as text: on a terminal, and in
    the JSON for scripts, which has the same value."""
    place = world.place("marks")
    service = body_with(code="ok", service=NAME, status="Healthy", step=4, version=NAME, weight=100,
                        moment=5, open=[1], hold="none")
    run = body_with(code="ok", metrics=[{"due": 5, "measurements": 2, "name": NAME}])
    line = f"{ESCAPED} Healthy, step 4, weight 100%, version {ESCAPED}\n"
    with serving(reply(200, service, JSON)) as port:
        at = ["--desk", f"127.0.0.1:{port}", "--tries", "1"]
        for part in ([], ["history"], ["1"]):
            found = world.run(["get", *at, "web", *part], place)
            want_no_marks(f"get {part}", found.output)
            expect(f"get {part}", (found.status, json.loads(found.output)),
                   (DONE, json.loads(service)))
        expect("get on a terminal", on_terminal(world, ["get", *at, "web"], place), (DONE, line))
        found = world.run(["do", *at, "--as", "ops", "--journal", "none", "tick", "web"], place)
        want_no_marks("do", found.output + found.errors)
    history = body_with(code="ok", lines=[NAME])
    with serving(reply(200, service, JSON), reply(200, history, JSON)) as port:
        want("watch", world.run(["watch", "--desk", f"127.0.0.1:{port}", "web"], place), DONE, line)
    with serving(reply(200, service, JSON), reply(200, run, JSON)) as port:
        want("due", world.run(["due", "--desk", f"127.0.0.1:{port}", "web"], place), DONE,
             f"1 {ESCAPED} 3\n")
    spaced = '{"code":\t"ok",\r\n"step":\n1}'
    with serving(reply(200, spaced, JSON)) as port:
        found = world.run(["get", "--desk", f"127.0.0.1:{port}", "web"], place)
        want_no_marks("white space", found.output)
        expect("white space", json.loads(found.output), json.loads(spaced))


def try_marks_of_commands(world):
    """What a server writes into the reply to a command or a row is shown as text, also once the
    journal has the reply."""
    with world.desk("marks-of-do") as desk:
        add(desk)
        want("tick", desk.do("tick", "web"), DONE, shown(STARTED))
        text = body_with(code="ok", service=NAME, status="Paused", step=1, weight=20)
        with serving(reply(200, text, JSON)) as port:
            words = desk.words("promote", "web", port=port, options=("--once", "k"))
            expect("do on a terminal", on_terminal(world, words, desk.folder),
                   (DONE, f"{ESCAPED} Paused, step 1, weight 20%\n"))
            found = desk.do("promote", "web", port=port, options=("--once", "k"))
            want_no_marks("do again", found.output)
            expect("do again", json.loads(found.output), json.loads(text))
        desk.write("rows.csv", HEADER + "agent,1,web,1,m,1,5,5,\n")
        with serving(reply(200, text, JSON)) as port:
            found = world.run(["send", "--desk", f"127.0.0.1:{port}", "rows.csv"], desk.folder)
            want_no_marks("send", found.output)
            expect("send", json.loads(found.output.split(" ", 2)[2]), json.loads(text))


def try_rows_of_strangers(world):
    """A row is answered by a desk's pair of status and code alone."""
    place = world.place("rows-of-strangers")
    (place / "rows.csv").write_text(HEADER + "agent,1,web,1,m,1,5,5,\nagent,2,web,1,m,2,5,5,\n")

    def send(port):
        return world.run(["send", "--desk", f"127.0.0.1:{port}", "--tries", "2", "rows.csv"], place)

    for status, code in ((400, "validation_error"), (422, "validation_error"), (404, "NOT_FOUND"),
                         (404, "unknown-service"), (200, "fine"), (409, "conflict"),
                         (422, "ok"), (200, "not-paused"), (413, "unreadable")):
        with serving(reply(status, f'{{"code":"{code}"}}')) as port:
            found = send(port)
            want_all_said(f"{status} {code}", found, FOREIGN, ROW_PENDING)
            expect(f"{status} {code}", (found.status, found.output), (PENDING, ""))
    for status, code in ((400, "unreadable"), (400, "bad-name"), (404, "no-route"), (405, "method"),
                         (411, "length"), (413, "too-long")):
        with serving(reply(status, f'{{"code":"{code}"}}')) as port:
            want(code, send(port), CONTRADICTION, f'1 {status} {{"code":"{code}"}}\n', ROW_UNREAD)


def silent_after(*pieces):
    """A server that sends these pieces, each 0.8 seconds after the one before, and then nothing."""
    def answer(client):
        client.recv(65536)
        for piece in pieces:
            time.sleep(.8)
            client.sendall(piece)
        client.recv(1)
    return answering(answer)


def try_silence(world):
    """A query of 2 seconds ends after 2 seconds, wherever in the reply the silence begins."""
    place = world.place("silence")
    whole = reply(200, shows("web", *STARTED), JSON)
    body = whole.index(b"{")
    for row, pieces in (("nothing", ()), ("a byte", (whole[:1], whole[1:2])),
                        ("within the head", (whole[:9], whole[9:30])),
                        ("no body", (whole[:20], whole[20:body])),
                        ("within the body", (whole[:body], whole[body:body + 9])),
                        ("the last byte", (whole[:-2], whole[-2:-1]))):
        with silent_after(*pieces) as port:
            found = soonest(row, 1.9, 3.1, lambda port=port: world.run(
                ["get", "--desk", f"127.0.0.1:{port}", "--timeout", "2", "--tries", "1", "web"],
                place))
            want(row, found, PENDING, said=NO_DESK)


def try_calls_that_end(world):
    """`watch` and `due --wait` end by --timeout as a whole call, whether nobody listens, nobody
    answers, no desk does, or the desk shows what is not waited for."""
    place = world.place("calls-that-end")
    open_run = shows("web", *STARTED)[:-1] + ',"moment":5,"open":[]}'
    with contextlib.ExitStack() as servers:
        stalls = servers.enter_context(silent_after())
        others = servers.enter_context(serving(reply(502, "<html>")))
        slow = servers.enter_context(silent_after(reply(200, open_run, JSON)[:-1]))
        for words in (["watch"], ["due", "--wait"]):
            for row, port in (("nobody", free_port()), ("stalls", stalls), ("others", others),
                              ("slow", slow)):
                row = f"{words[0]}: {row}"
                found = soonest(row, 1.9, 4, lambda port=port, words=words: world.run(
                    [*words, "--desk", f"127.0.0.1:{port}", "--timeout", "2", "web"], place))
                want(row, found, PENDING, said=NOT_IN_TIME)
        # without --wait it is the time of each reply
        found = soonest("due", 1.9, 3.1, lambda: world.run(
            ["due", "--desk", f"127.0.0.1:{stalls}", "--timeout", "2", "--tries", "1", "web"],
            place))
        want("due", found, PENDING, said=NO_DESK)


def endless(head, piece):
    """A server that sends this head, and then this piece again and again."""
    def answer(client):
        client.recv(65536)
        client.sendall(head)
        for _ in range(200_000_000 // len(piece)):
            client.sendall(piece)
    return answering(answer)


def peak_of(world, words, place):
    """The status of a call, and the most memory that it took, in bytes."""
    client = subprocess.Popen([world.program, *words], cwd=place, env=environment(),
                              stdin=subprocess.DEVNULL, stdout=subprocess.DEVNULL,
                              stderr=subprocess.DEVNULL)
    running.add(client)
    _, status, used = os.wait4(client.pid, 0)
    client.returncode = os.waitstatus_to_exitcode(status)
    running.discard(client)
    return client.returncode, used.ru_maxrss * 1024


def try_long_replies(world):
    """A reply without an end, or with a body of 200 MB, ends in time and takes no memory."""
    place = world.place("long-replies")
    piece = b"x" * 65536
    length = b"HTTP/1.1 200 OK\r\nContent-Length: %d\r\n\r\n"
    idle = peak_of(world, ["--version"], place)[1]
    for row, head, more in (("200 MB", length % 200_000_000, piece),
                            ("an exabyte", length % 10 ** 18, piece),
                            ("no length", b"HTTP/1.1 200 OK\r\n\r\n", piece),
                            ("a field without an end", b"HTTP/1.1 200 OK\r\nX: ", piece),
                            ("fields without an end", b"HTTP/1.1 200 OK\r\n", b"X: y\r\n" * 9000),
                            ("replies that others follow", b"",
                             b"HTTP/1.1 102 Processing\r\n\r\n" * 2000),
                            ("chunks", b"HTTP/1.1 200 OK\r\nTransfer-Encoding: chunked\r\n\r\n",
                             b"4\r\nxxxx\r\n" * 8000)):
        with endless(head, more) as port:
            found, peak = soonest(row, 0, 3.1, lambda port=port: peak_of(world, [
                "get", "--desk", f"127.0.0.1:{port}", "--timeout", "2", "--tries", "1", "web"],
                place))
            expect(row, found, PENDING)
            if peak > idle + (8 << 20):
                raise Wrong(f"{row}: {peak} bytes of memory, of which {idle} are the program's")
    # a long body that a desk may have
    text = '{"code":"ok","lines":["' + "x" * (4 << 20) + '"]}'
    with serving(reply(200, text, JSON)) as port:
        found = world.run(["get", "--desk", f"127.0.0.1:{port}", "--tries", "1", "web", "history"],
                          place)
        expect("4 MiB", (found.status, found.output == text + "\n"), (DONE, True))


def try_interim_replies(world):
    """Replies that others follow are ignored (RFC 9110, section 15.2), but for 101."""
    place = world.place("interim")
    whole = reply(200, shows("web", *STARTED), JSON)
    rows = ((b"HTTP/1.1 100 Continue\r\n\r\n", DONE),
            (b"HTTP/1.1 103 Early Hints\r\nLink: x\r\n\r\n"
             b"HTTP/1.1 102 Processing\r\n\r\n", DONE),
            (b"HTTP/1.1 101 Switching Protocols\r\nUpgrade: x\r\n\r\n", PENDING),
            (b"HTTP/1.1 204 No Content\r\n\r\n", PENDING),
            (b"HTTP/1.1 304 Not Modified\r\n\r\n", PENDING))
    for before, status in rows:
        with serving(before + whole) as port:
            found = world.run(["get", "--desk", f"127.0.0.1:{port}", "--tries", "1", "web"], place)
            expect(before, (found.status, found.output),
                   (status, whole[whole.index(b"{"):].decode() + "\n" if status == DONE else ""))


def try_words_like_options(world):
    """A metric whose name begins with a dash, and a result that does."""
    with world.desk("dashes") as desk:
        add_measured(desk, metric("-x", "0s"), metric("--once", "0s"))
        want("due", desk.ask("due", "web"), DONE, "1 -x 1\n1 --once 1\n")
        for words in (("-x", "5"), ("--once", "-5")):
            found = desk.do("--", "report", "web", "1", *words)
            expect(words, (found.status, json.loads(found.output)["phases"]),
                   (DONE, ["Successful"]))
        found = desk.do("--", "report", "web", "1", "-x", options=("--failure", "none"))
        expect("a failure", (found.status, json.loads(found.output)["phases"]), (DONE, ["Error"]))
        found = desk.do("report", "web", "1", "-x", "5")
        expect("without --", (found.status, found.output), (2, ""))
