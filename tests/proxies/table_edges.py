"""What a follower with a table makes of what is somebody else's: the table, the desk, the router
and the places of its files: parts of proxies.py."""
import hashlib
import json
import os
import re
import signal
import subprocess
import time

from followers import LONGEST, NO_VERSIONS, NO_WEIGHTS, TRUE, lying, want_plain
from parts import OPERATIONS, follower, lasts, version
from tables import (
    haproxy_of_many, haproxy_of_table, shares_told, spoken, want_report, want_weights, words_for)
from world import Wrong, environment, expect, install, process_group, wait_until

# The files of a follower.
NAMES = ("table", "haproxy.state", "canary-router.prom", "health")
# Also that of the one for nginx.
ALL_NAMES = (*NAMES, "shares")
# Tables that are none, and what is said of them.
BAD_TABLES = [
    (b"", "its last line has no end"), (b"\n# web web v1\n", "it has no service"),
    (b"web web v1", "its last line has no end"), (b"web web v1\nweb web v2 web-", "no end"),
    (b"web web v1 a\nweb web v1 b\n", "line 2: web has the version v1 twice"),
    (b"web web v1\nweb other v2\n", "line 2: web has the backend web"),
    (b"web web v1\n\nshop web v7\n", "line 3: web has the backend web"),
    (b"web web v1 a\nweb web v2 a\n", "line 2: the server a stands twice"),
    (b"web web v1 a a\n", "line 1: the server a stands twice"),
    (b"web web v1\x00\n", "line 1: there is a control character"),
    (b"web web v1 \x1b[2J\n", "line 1: there is a control character"),
    (b"web web v1\r\n", "line 1: there is a control character"),
    ("web web v1 \u202e\n".encode(), "line 1: there is a control character"),
    (b"\xff\xfeweb web v1\n", "it is not UTF-8"), (b"web web\n", "line 1: SERVICE BACKEND"),
    (b"Web web v1\n", "line 1: Web is no name of a service"),
    (b"-web web v1\n", "line 1: -web is no name of a service"),
    (b"web we;b v1\n", "line 1: we;b is no name of a backend"),
    (b"web web v1;x\n", "line 1: v1;x is no name of a version"),
    (b"web web v1 a/b\n", "line 1: a/b is no name of a server"),
    *((f"web web v1 a={address}\n".encode(), f"line 1: {address} is no IP:PORT")
      for address in ("", "10.0.0.1", "10.0.0.1:0", "10.0.0.1:65536", "host:80", "1.2.3.4:80;x")),
    (b"web web v1\n" + b"#" * 1_000_000 + b"\n", "it has more than 1000000 bytes")]


def wait_said(said, text, count=1):
    try:
        wait_until(text, lambda: said().count(text) >= count, LONGEST)
    except Wrong as wrong:
        raise type(wrong)(f"{text!r} is not in {said()!r}") from wrong


def place(folder, table):
    """Such a table takes the place of the one that is there."""
    (folder / "table.new").write_bytes(table)
    (folder / "table.new").rename(folder / "table")


def ended(folder, variables, *words):
    """The status and the errors of a follower that ends."""
    done = subprocess.run([OPERATIONS / words[0], *words[1:]], cwd=folder, env=variables,
                          stdin=subprocess.DEVNULL, capture_output=True, text=True, timeout=LONGEST,
                          check=False)
    return done.returncode, done.stderr


def want_ended(folder, around):
    """Each program with a table ends if its file is none."""
    os.mkfifo(folder / "fifo")
    for name, why in (("none", "No such file"), ("fifo", "it is no file"),
                      (".", "it is no file")):
        for words in (("follow-haproxy", "--table", folder / name, folder / "socket"),
                      ("follow-nginx", "--table", folder / name, folder / "shares"),
                      ("notify", "--table", folder / name, folder / "last")):
            status, errors = ended(folder, around, *words)
            expect(f"{words[0]} {name}: {errors}", (status, why in errors), (2, True))


def try_table_files(world):
    """A table that is none ends a follower as it starts, with status 2, and one that runs goes on
    with the table before; so do notify and the follower of nginx."""
    folder = world.place("table-files")
    with spoken() as desk, haproxy_of_table(folder) as proxy:
        good = (folder / "table").read_bytes()
        want_ended(folder, {**desk.variables(), "CANARY_WEBHOOK": "http://127.0.0.1:1/"})
        desk.say("web", "v1", "v2", 20)
        desk.say("shop", "v7", "v7", 100)
        with follower(folder, desk.variables(), *words_for(folder)) as (started, said):
            want_weights("at first", proxy, web_1=40, web_3=10)
            for table, why in BAD_TABLES:
                place(folder, table)
                wait_said(said, f"{folder}/table: ")
                wait_said(said, why)
            os.remove(folder / "table")
            wait_said(said, "table: No such file")
            desk.say("web", "v1", "v2", 40)
            want_weights("it goes on with the table before", proxy, web_1=30, web_3=20)
            opened = len(os.listdir(f"/proc/{started.pid}/fd"))
            (folder / "table").mkdir()
            wait_said(said, "table: it is no file")
            time.sleep(3)
            expect("it opens no more", len(os.listdir(f"/proc/{started.pid}/fd")) <= opened, True)
            (folder / "table").rmdir()
            place(folder, good.replace(b"web-2=", b"web-9="))
            want_weights("another table", proxy, web_1=30, web_2=0, web_9=30, web_3=20)
            expect("it goes on", started.poll(), None)
            want_plain(said())
    for table, why in BAD_TABLES[:9]:
        place(folder, table)
        status, errors = ended(folder, environment(), *words_for(folder))
        expect(f"{table[:40]}: {errors}", (status, why in errors), (2, True))


def try_table_unknown(world):
    """What the table has and HAProxy does not, and the other way round: said once, and the others
    have their weights; a server that is refused is not asked for each second."""
    folder = world.place("table-unknown")
    with spoken() as desk, haproxy_of_table(folder) as proxy:
        table = (folder / "table").read_text(encoding="utf-8")
        table = re.sub("web-1=127.0.0.1:[0-9]+", "web-1=127.0.0.1:1", table)
        table = table.replace("web-4=", "web-8 web-4=")
        place(folder, f"{table}pay pay v1 pay-1=127.0.0.1:1\n".encode())
        desk.say("web", "v1", "v2", 20)
        desk.say("shop", "v7", "v8", 20)
        desk.say("pay", "v1", "v1", 100)
        proxy.ask("disable server web/web-4")
        with follower(folder, desk.variables(), *words_for(folder)) as (_, said):
            want_weights("those that are there", proxy, web_1=40, web_3=10, shop_1=80, shop_2=20)
            wait_said(said, "web/web-8 is not there, and the table has no address of it")
            wait_said(said, "HAProxy has no backend pay with a server")
            wait_said(said, "and in the table at 127.0.0.1:1")
            wait_until("the report", (folder / "canary-router.prom").exists, LONGEST)
            text = (folder / "canary-router.prom").read_text(encoding="utf-8")
            for line in ('up{service="web",version="v2",server="web-3"} 1',
                         'up{service="web",version="v2",server="web-4"} 0',
                         'up{service="web",version="v2",server="web-8"} 0',
                         'up{service="pay",version="v1",server="pay-1"} 0',
                         'percent{service="pay",version="v1"} 0'):
                expect(f"the report has {line}: {text}", line in text, True)
            desk.say("shop", "v7", "v9", 20)
            want_weights("a version that is in no line", proxy, shop_1=100, shop_2=0)
            wait_until("it is reported", lambda: shares_told(folder, "shop") == {
                "v7": 100, "v8": 0, "v9": 0}, LONGEST)
            wait_said(said, "shop has no server v9: v7 has all")
            time.sleep(3)
            for text in ("web-8 is not there", "no backend pay", "no server v9", "shop-2 is added"):
                expect(f"{text} is said once: {said()}", said().count(text), 1)


def value(**members):
    """What a desk says of a service, but for its name."""
    return {"code": "ok", "hold": "none", "stable": "v1", "status": "Paused", "step": 1,
            "version": "v2", "weight": 50, **members}


# Replies of a desk, and what is said of them.
NO_REPLY = "this is no reply of a desk"
REPLIES = [
    *(((status, {"code": code}), f"the desk answers {status} {code}") for status, code in (
        (503, "storage"), (503, "no-memory"), (404, "unknown-service"), (400, "bad-name"))),
    *((reply, NO_REPLY) for reply in (
        (422, {"code": "not-paused"}), (502, b"<html>"), (503, b""), (204, b""), (404, b"\xff"),
        (200, b"{"), (200, b"[" * 100_000), (200, []), (200, None), (200, {}), (500, value()),
        (200, value(code=["ok"])), (200, value(code="\x1b[2J")), (200, value(service="web")),
        (200, value(status="Odd")), (200, value(status=["Degraded"])), (200, value(hold=None)),
        (200, value(step="1")))),
    *(((200, value(version=name)), NO_REPLY) for name in NO_VERSIONS),
    *(((200, value(stable=name)), NO_REPLY) for name in NO_VERSIONS),
    *(((200, value(weight=weight)), NO_REPLY) for weight in NO_WEIGHTS)]


def raw(*pieces, pause=0, is_open=False):
    """An answer of these bytes, after which it closes."""
    def answer(handler):
        for piece in pieces:
            handler.wfile.write(piece)
            time.sleep(pause)
        handler.close_connection = not is_open
    return answer


def close_after(handler):
    """A whole reply, and the end of the connection."""
    body = json.dumps(value(service="shop", stable="v7", version="v8", weight=30)).encode()
    handler.wfile.write(b"HTTP/1.1 200 OK\r\nContent-Length: %d\r\nConnection: close\r\n\r\n%s"
                        % (len(body), body))
    handler.close_connection = True


HEAD = b"HTTP/1.1 200 OK\r\n"
ENDS, NO_HTTP = "the answer ends before its end", "no reply of HTTP"
RAW = [
    (raw(), ENDS), (raw(HEAD), ENDS), (raw(HEAD[:9]), ENDS),
    (raw(HEAD + b"Content-Length: 5\r\n\r\n{"), ENDS), (raw(b"\x00" * 70_000), NO_HTTP),
    (raw(HEAD + b"\r\n"), NO_HTTP), (raw(HEAD + b"Content-Length: x\r\n\r\n"), NO_HTTP),
    (raw(HEAD + b"Content-Length: 2\r\nContent-Length: 2\r\n\r\n{}"), NO_HTTP),
    (raw(HEAD + b"Content-Length: 2\r\nTransfer-Encoding: chunked\r\n\r\n{}"), NO_HTTP),
    (raw(HEAD + b"Content-Length: 999999999\r\n\r\n"), NO_HTTP),
    (raw(b"SSH-2.0-x\r\n\r\n"), NO_HTTP), (raw(*[b"H"] * 60, pause=.2), "no whole answer in time"),
    (raw(b"", pause=12), "no whole answer in time")]


def try_table_replies(world):
    """A desk that answers otherwise than a desk: that service keeps its weights, the others have
    theirs, and no word of it passes. Each reply is that of a service of its own."""
    folder = world.place("table-replies")
    names = [f"s{number:02}" for number in range(len(REPLIES))]
    with spoken() as desk, version("v") as port, \
            haproxy_of_many(folder, port, [*names, "last"]) as proxy:
        for name, (reply, _) in zip(names, REPLIES):
            desk.stands[name] = named(name, *reply)
        desk.say("last", "v1", "v2", 20)
        with follower(folder, desk.variables(), *words_for(folder)) as (started, said):
            want_weights("the last one", proxy, last_1=80, last_2=20)
            for name, (reply, why) in zip(names, REPLIES):
                wait_said(said, f"{name}: {why}\n")
            found = {proxy.weights()[f"{name}-2"] for name in names}
            expect("no other has another weight", found, {0})
            for name, (reply, why) in zip(names, REPLIES):
                expect(f"{reply} is said once", said().count(f"{name}: "), 1)
            desk.say(names[-1], "v1", "v2", 40)
            want_weights("one that answers again", proxy, **{f"{names[-1]}_2": 40})
            expect("it goes on", started.poll(), None)
            want_plain(said())


def named(name, status, told):
    """The reply with the name of the service, if it has some of what a desk says and no name."""
    is_value = isinstance(told, dict) and "stable" in told
    return status, {"service": name, **told} if is_value else told


def try_table_desks(world):
    """A desk that breaks off, says nothing or floods: the weights stay, and it is asked again; one
    that closes each connection is followed."""
    folder = world.place("table-desks")
    with spoken() as desk, haproxy_of_table(folder) as proxy:
        desk.say("web", "v1", "v2", 20)
        desk.say("shop", "v7", "v8", 60)
        with follower(folder, desk.variables(), *words_for(folder)) as (started, said):
            want_weights("at first", proxy, web_3=10, shop_1=40, shop_2=60)
            for answer, why in RAW:
                before = said().count(why)
                desk.stands["shop"] = answer
                wait_said(said, why, before + 1)
                desk.say("shop", "v7", "v8", 60)
                until = desk.queries + 3
                wait_until("asked again", lambda until=until: desk.queries > until, LONGEST)
            expect("no other weight", proxy.weights()["shop-2"], 60)
            desk.stands["shop"] = close_after
            want_weights("it closes each connection", proxy, shop_2=30)
            expect("it goes on", started.poll(), None)
            want_plain(said())


# What a socket in the place of HAProxy's answers, and what is said. None: the follower hangs up.
ROUTER = [
    *((half, "HAProxy's answer is not whole") for half in (b"", b"1\n# be_id be_na", TRUE[:-9])),
    (b"\xff\xfe", "UnicodeDecodeError"),
    (b"1 web 1 web-1 127.0.0.1 2 x 5 5 1 1 1\n\n", "ValueError"),
    ("flood", "OSError: the answer has no end"), ("silence", "TimeoutError"), ("drip", None)]


def try_table_routers(world):
    """A socket in the place of HAProxy's that answers half a line, nothing or without an end: no
    command comes of it, and the report is as it was."""
    folder = world.place("table-routers")
    (folder / "table").write_text("web web v1\nweb web v2\n", encoding="utf-8")
    with spoken() as desk, lying(folder / "socket", ROUTER) as (go_on, hung_up, asked), follower(
            folder, desk.variables(), *words_for(folder)) as (started, said):
        desk.say("web", "v1", "v2", 20)
        for answer, text in ROUTER:
            if text:
                wait_said(said, text)
            else:
                wait_until("it hangs up", lambda answer=answer: answer in hung_up(), LONGEST)
            go_on()
        expect("what it was asked", {*asked()}, {b"show servers state\n"})
        expect("nothing is reported", (folder / "canary-router.prom").exists(), False)
        wait_until("the truth", lambda: any(b"set server" in each for each in asked()), LONGEST)
        line = b"set server web/v1 weight 80; set server web/v2 weight 20\n"
        expect("the commands", [each for each in asked() if b"set" in each][0], line)
        wait_until("it is reported", lambda: shares_told(folder, "web") == {"v1": 65, "v2": 35},
                   LONGEST)
        lasts("it goes on", lambda: started.poll() is None)
        want_plain(said())


def try_table_places(world):
    """The names of its files: a link or a FIFO is replaced and never written through, the names of
    their parts too; a folder, or no folder, is said once. The weights are set all the same."""
    folder = world.place("table-places")
    (folder / "other").write_text("other", encoding="utf-8")
    with spoken() as desk, haproxy_of_table(folder) as proxy:
        desk.say("web", "v1", "v2", 20)
        for name in NAMES[1:]:
            os.symlink("other", folder / name)
            os.symlink("other", folder / f"{name}.part")
        before = (folder / "other").stat()
        with follower(folder, desk.variables(), *words_for(folder)) as (_, said):
            want_weights("links", proxy, web_3=10)
            for name in ("haproxy.state", "canary-router.prom"):
                wait_until(name, lambda name=name: not (folder / name).is_symlink(), LONGEST)
            wait_said(said, "health: it is no file")
        after = (folder / "other").stat()
        expect("where the links led", (after.st_size, after.st_mtime_ns, after.st_ino),
               (before.st_size, before.st_mtime_ns, before.st_ino))
        for name in NAMES[1:]:
            (folder / name).unlink()
            (folder / f"{name}.part").unlink(missing_ok=True)
            (folder / name).mkdir()
        want_told(folder, desk, proxy, 40, "Is a directory", "health: it is no file")
        for name in NAMES[1:]:
            (folder / name).rmdir()
            os.mkfifo(folder / name)
        want_told(folder, desk, proxy, 60, "health: it is no file")
        expect("files", [(folder / name).is_file() for name in NAMES[1:]], [True, True, False])


def want_told(folder, desk, proxy, weight, *texts):
    """It has such a weight all the same, and says each text once."""
    (folder / "follow-haproxy.said").unlink()
    desk.say("web", "v1", "v2", weight)
    with follower(folder, desk.variables(), *words_for(folder)) as (_, said):
        want_weights(f"{weight}%", proxy, web_3=weight // 2)
        for text in texts:
            wait_said(said, text)
        time.sleep(2.5)
        lines = said().splitlines()
        expect(f"each once: {lines}", len({*lines}), len(lines))
        wait_until("no part stays", lambda: not [*folder.glob("*.part")], LONGEST)


# Calls at which a follower is ended by SIGTERM, each at several of them.
CALLS = ("connect", "sendto", "recvfrom", "openat", "fsync", "fchmod", "rename", "unlink")


def try_table_signals(world):
    """A follower that is ended between any two of its calls leaves whole files, and the next one
    gives the router its weights."""
    folder = world.place("table-signals")
    calls = [(call, when) for call in CALLS for when in ((1, 2, 3) if world.is_whole else (1, 2))]
    with spoken() as desk, haproxy_of_table(folder) as proxy:
        desk.say("shop", "v7", "v8", 20)
        desk.say("web", "v1", "v2", 20)
        with follower(folder, desk.variables(), *words_for(folder)):
            want_weights("at first", proxy, web_3=10, shop_2=20)
            wait_until("files", lambda: shares_told(folder, "web") == {"v1": 80, "v2": 20}, LONGEST)
        for number, (call, when) in enumerate(calls):
            desk.say("web", "v1", "v2", 20 + 2 * (number % 20))
            end_at(folder, desk, call, when)
            expect(f"{call} {when}: the report", len(shares_told(folder, "web")), 2)
            state = (folder / "haproxy.state").read_text(encoding="utf-8")
            expect(f"{call} {when}: the state", state.endswith("\n\n"), True)
        desk.say("web", "v1", "v2", 70)
        with follower(folder, desk.variables(), *words_for(folder)):
            want_weights("the next one", proxy, web_1=15, web_3=35, shop_2=20)
            wait_until("its report", lambda: shares_told(folder, "web") == {"v1": 30, "v2": 70},
                       LONGEST)
            wait_until("no part stays", lambda: not [*folder.glob("*.part")], LONGEST)


def end_at(folder, desk, call, when, follower_words=None):
    """Runs a follower until SIGTERM ends it at such a call: of calls that the start of Python
    makes, too, at one on a file of its own."""
    name, *more = follower_words or words_for(folder)
    paths = [["-P", folder / f"{each}{part}"] for each in ALL_NAMES for part in ("", ".part")]
    own = [] if call in CALLS[:3] else [word for each in paths for word in each]
    words = ["strace", "-f", "-qq", "-o", "/dev/null", *own, "-e", f"trace={call}", "-e",
             f"inject={call}:signal=SIGTERM:when={when}", OPERATIONS / name, *more]
    with process_group([*map(str, words)], cwd=folder, env=desk.variables(),
                       stdin=subprocess.DEVNULL, stdout=subprocess.DEVNULL,
                       stderr=subprocess.DEVNULL) as started:
        expect(f"{call} {when}: it ends", started.wait(LONGEST), -signal.SIGTERM)


def try_table_signals_nginx(world):
    """The same of the follower of nginx: its file has at its end a digest of what stands before."""
    folder = world.place("table-signals-nginx")
    install(folder / "nginx", text="#!/bin/sh\n")
    (folder / "table").write_text("web web v1 a=127.0.0.1:1\nweb web v2 b=127.0.0.1:2\n",
                                  encoding="utf-8")
    words = ("follow-nginx", "--table", folder / "table", folder / "shares", folder / "nginx")
    with spoken() as desk:
        for number, (call, when) in enumerate((call, when) for call in CALLS[3:]
                                              for when in range(1, 3 if world.is_whole else 2)):
            desk.say("web", "v1", "v2", 20 + number)
            end_at(folder, desk, call, when, words)
            if call != "openat" and (folder / "shares").exists():
                want_digest(f"{call} {when}", folder / "shares")
        desk.say("web", "v1", "v2", 70)
        with follower(folder, desk.variables(), *words):
            wait_until("the next one", lambda: "70% web_v2" in (folder / "shares").read_text(),
                       LONGEST)
            wait_until("no part stays", lambda: not [*folder.glob("*.part")], LONGEST)
        want_digest("the next one", folder / "shares")


def want_digest(row, file):
    text, _, last = file.read_text(encoding="utf-8").rpartition('map "" $canary_loaded {\n')
    digest = hashlib.sha256(text.encode()).hexdigest()[:32]
    expect(f"{row}: the digest", last, f"    default {digest};\n}}\n")


def try_table_report(world):
    """promtool takes a report."""
    folder = world.place("table-report")
    with spoken() as desk, haproxy_of_table(folder) as proxy:
        desk.say("web", "v1", "v2", 20)
        with follower(folder, desk.variables(), *words_for(folder)):
            want_weights("20%", proxy, web_3=10)
            want_report(folder, "web", v1=80, v2=20)
    with open(folder / "canary-router.prom", "rb") as report:
        done = subprocess.run(["promtool", "check", "metrics"], stdin=report, capture_output=True,
                              text=True, timeout=LONGEST, check=False)
    expect("promtool", (done.returncode, done.stdout, done.stderr), (0, "", ""))
