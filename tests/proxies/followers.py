"""The followers of examples/operations with real proxies: what they set beside the desk's weight,
and what stays when the desk, the proxy or the follower is away: parts of proxies.py."""
import collections
import contextlib
import json
import os
import shlex
import socket
import subprocess
import threading
import time

from parts import (
    OPERATIONS, HAProxy, Nginx, answer, children_of, filled, follower, is_alive, lasts, speaking, version,
    want_shares,
)
from silence import variables
from world import Caller, Late, Wrong, add, expect, free_port, install, process, wait_until

# How many seconds a change may take to come about: on a machine with much else to do, many.
LONGEST = 40
# What a hostile desk may give for a version, and for a weight.
NO_VERSIONS = (
    "v2; disable frontend web", "v2\ndisable frontend web", "v2 weight 0; disable server web/v1",
    "web/v1", "../v2", "", " v2", "v2\n", "v" * 64, 'v2;\n}\nreturn 500;', "v2 {", "$request_id",
    "*", "\u001b[2J", "v\u0000", "\u00fc", None, 2, ["v2"], {"v2": 1})
NO_WEIGHTS = ("20", "20; disable frontend web", -1, 101, 1 << 70, 20.5, None, [20], {})
NO_LINES = (b"", b"null", b"[]", b'"v2"', b"{", b"\xff\xfe", b"{}", b'{"stable":"v1"}',
            b"[" * 100000)


def line(**members):
    stand = {"stable": "v1", "version": "v2", "weight": 35, "status": "Paused"}
    return json.dumps({**stand, **members}).encode()


HOSTILE = [*NO_LINES, *(line(version=name) for name in NO_VERSIONS),
           *(line(stable=name) for name in NO_VERSIONS),
           *(line(weight=weight) for weight in NO_WEIGHTS)]


def want_all_said(said, lines=None):
    """Each of these invalid lines came twice, and is reported each time."""
    wanted = 2 * len(lines or HOSTILE)

    def count():
        return said().count("no line of canary watch: ")

    wait_until("each is said", lambda: count() >= wanted, LONGEST)
    expect("each is said once", count(), wanted)


def said_after(script_folder, lines):
    """The variables under which `canary` writes these lines, and then nothing more."""
    (script_folder / "lines").write_bytes(b"".join(each + b"\n" for each in lines))
    return speaking(script_folder, f"cat {shlex.quote(str(script_folder / 'lines'))}")


@contextlib.contextmanager
def haproxy(folder):
    """HAProxy by follow.haproxy.cfg, before two versions."""
    port = free_port()
    with version("v1") as first, version("v2") as second:
        text = filled("follow.haproxy.cfg", ("/run/haproxy/admin.sock", folder / "socket"),
                      ("/var/lib/canary-follow", folder),
                      ("bind :8081", f"bind 127.0.0.1:{port}"),
                      ("127.0.0.1:9101", f"127.0.0.1:{first}"),
                      ("127.0.0.1:9102", f"127.0.0.1:{second}"))
        with HAProxy(folder, port, text) as proxy:
            yield proxy


def words_for(proxy):
    return "follow-haproxy", "web", proxy.folder / "socket", "web"


@contextlib.contextmanager
def reloading(folder, ports):
    """HAProxy by follow.haproxy.cfg as a service runs it, whose reloads lose no connection, before
    two versions at these ports."""
    port = free_port()
    text = filled("follow.haproxy.cfg", ("/run/haproxy/admin.sock", folder / "socket"),
                  ("/var/lib/canary-follow", folder), ("bind :8081", f"bind 127.0.0.1:{port}"),
                  ("127.0.0.1:9101", f"127.0.0.1:{ports[0]}"),
                  ("127.0.0.1:9102", f"127.0.0.1:{ports[1]}"))
    with HAProxy(folder, port, text, is_master=True) as proxy:
        yield proxy


class Meanwhile:
    """What a thread does as long as a block runs: `go_on` ends once `is_over`."""

    def __init__(self):
        self.is_over, self.thread = False, threading.Thread(target=self.go_on, daemon=True)

    def go_on(self):
        raise NotImplementedError

    def __enter__(self):
        self.thread.start()
        return self

    def __exit__(self, *_):
        self.is_over = True
        self.thread.join(LONGEST)


class Load(Meanwhile):
    """So many requests a second, each on a connection of its own; and who answered them."""

    def __init__(self, port, rate):
        super().__init__()
        self.port, self.rate, self.found = port, rate, collections.Counter()

    def go_on(self):
        begun, count = time.monotonic(), 0
        while not self.is_over:
            self.found[answer(self.port)] += 1
            count += 1
            time.sleep(max(0, begun + count / self.rate - time.monotonic()))


def want_weights(row, proxy, first, second):
    wanted = {"v1": first, "v2": second}
    try:
        wait_until(row, lambda: proxy.weights() == wanted, LONGEST)
    except Late as late:
        raise Late(f"{row}: {proxy.weights()} in place of {wanted}") from late
    want_shares(row, proxy.port, wanted, 2)


def try_haproxy(world):
    """HAProxy has the desk's weights: through a release, after a restart of HAProxy, while the desk
    is away, and after the follower was killed."""
    with world.desk("haproxy") as desk, haproxy(desk.folder) as proxy:
        add(desk)
        ops = Caller(desk, "ops")
        want_shares("before", proxy.port, {"v1": 100, "v2": 0}, 0)
        with follower(desk.folder, variables(desk), *words_for(proxy)) as (started, _):
            want_weights("20%", proxy, 80, 20)
            proxy.restart()
            want_weights("HAProxy restarted", proxy, 80, 20)
            desk.kill()
            lasts("the desk is away", lambda: proxy.weights() == {"v1": 80, "v2": 20})
            proxy.restart()
            want_weights("HAProxy restarted, and no desk", proxy, 80, 20)
            desk.start()
            ops.send({"promote": {"service": "web"}})
            want_weights("50%", proxy, 50, 50)
            watches = children_of(started)
            expect("its canary watch", [is_alive(pid) for pid in watches], [True])
        wait_until("canary watch ends with the follower", lambda: not is_alive(watches[0]), LONGEST)
        ops.send({"promote": {"service": "web"}})
        lasts("no follower", lambda: proxy.weights() == {"v1": 50, "v2": 50}, 1.5)
        with follower(desk.folder, variables(desk), *words_for(proxy)) as (_, said):
            want_weights("another follower", proxy, 0, 100)
            want_ends(desk, proxy, ops, said)


def want_ends(desk, proxy, ops, said):
    """A version without a server, and aborts, after which the stable version has all."""
    ops.send({"start": {"service": "web", "version": "v3"}})
    wait_until("v3 has no server",
               lambda: said().endswith("web has no server v3: v2 has all\n"), LONGEST)
    want_weights("v3 has no server", proxy, 0, 100)
    # HAProxy begins with another weight: still the stable version has all
    proxy.restart()
    want_weights("v3 has no server, and HAProxy restarted", proxy, 0, 100)
    ops.send({"abort": {"service": "web"}})
    ops.send({"start": {"service": "web", "version": "v1"}})
    want_weights("back to v1", proxy, 20, 80)
    ops.send({"abort": {"service": "web"}})
    want_weights("aborted", proxy, 0, 100)
    ops.send({"start": {"service": "web", "version": "v4"}})
    ops.send({"promoteFull": {"service": "web"}})
    wait_until("v4 has no server",
               lambda: said().endswith("web has no server v4: nothing is changed\n"), LONGEST)
    want_weights("v4 has no server", proxy, 0, 100)


def try_haproxy_words(world):
    """No word of a hostile desk is a command of HAProxy's, and none ends the follower."""
    folder = world.place("haproxy-words")
    with haproxy(folder) as proxy:
        spoken = said_after(folder, [*HOSTILE, line(), *HOSTILE])
        with follower(folder, spoken, *words_for(proxy)) as (started, said):
            want_weights("the last line that is one", proxy, 65, 35)
            expect("it goes on", started.poll(), None)
            want_all_said(said)
            expect("in plain text", [mark for mark in said() if mark < " " and mark != "\n"], [])
    folder = world.place("haproxy-degraded")
    with haproxy(folder) as proxy:
        proxy.ask("set server web/v2 weight 50")
        spoken = said_after(folder, [line(status="Degraded")])
        with follower(folder, spoken, *words_for(proxy)):
            want_weights("Degraded", proxy, 100, 0)
        # a canary watch that ends, after which the follower is to be started again
        install(folder / "bin" / "canary", text="#!/bin/sh\nexit 5\n")
        with follower(folder, spoken, *words_for(proxy)) as (started, said):
            expect("it ends", started.wait(LONGEST), 1)
            expect("it says why", said(), "v2 50 -> 0\ncanary watch has ended\n")


def try_follower_streams(world):
    """A follower follows with all its standard streams closed, and if nobody reads its standard
    error; also after a line of 500 KB."""
    folder = world.place("follower-streams")
    with haproxy(folder) as proxy:
        spoken = speaking(folder, "head -c 500000 /dev/zero | tr '\\0' '{'; echo\n"
                          f"printf '%s\\n' {shlex.quote(line().decode())}")
        for row in ("closed", "unread"):
            proxy.restart()
            with unheard(row, folder, spoken, *words_for(proxy)) as started:
                want_weights(row, proxy, 65, 35)
                expect(f"{row}: it goes on", started.poll(), None)


def try_haproxy_reloads(world):
    """HAProxy has its weights as it reloads, also while the follower is away: under 40 requests a
    second none goes to a version that runs no longer, and none is refused."""
    folder = world.place("haproxy-reloads")
    with version("v2") as second, reloading(folder, (free_port(), second)) as proxy:
        words = (*words_for(proxy), folder / "web.state")
        spoken = said_after(folder, [line(weight=100)])
        with follower(folder, spoken, *words):
            wait_until("v2 has all", lambda: proxy.weights() == {"v1": 0, "v2": 100}, LONGEST)
            wait_until("the state is kept", lambda: weights_kept(folder) == ["0", "100"], LONGEST)
        with Load(proxy.port, 40) as load:
            for count in range(1, 6):
                proxy.reload()
                wait_until(f"reload {count}", lambda: proxy.weights() == {"v1": 0, "v2": 100},
                           LONGEST)
            wait_until("40 requests", lambda: sum(load.found.values()) >= 40, LONGEST)
        expect("who answered", list(load.found), ["v2"])


def weights_kept(folder):
    """The weights in the file of HAProxy's state, if it is there."""
    with contextlib.suppress(FileNotFoundError):
        rows = (folder / "web.state").read_text(encoding="utf-8").splitlines()
        return [row.split()[7] for row in rows if row[:1].isdigit() and len(row.split()) > 7]
    return None


def try_haproxy_states(world):
    """The file of HAProxy's state takes the place of a link and of a FIFO; a folder that is not
    there is said, and the weights are set all the same."""
    folder = world.place("haproxy-states")
    (folder / "other").write_text("other", encoding="utf-8")
    os.mkfifo(folder / "fifo")
    os.symlink("other", folder / "link")
    with haproxy(folder) as proxy:
        spoken = said_after(folder, [line()])
        for name in ("link", "fifo"):
            with follower(folder, spoken, *words_for(proxy), folder / name):
                want_weights(name, proxy, 65, 35)
                wait_until(f"{name}: a file", lambda name=name: not (folder / name).is_symlink()
                           and (folder / name).is_file(), LONGEST)
        expect("where the link led", (folder / "other").read_text(encoding="utf-8"), "other")
        proxy.ask("set server web/v2 weight 50")
        none = folder / "none" / "state"
        with follower(folder, spoken, *words_for(proxy), none) as (started, said):
            want_weights("no folder", proxy, 65, 35)
            wait_until("no folder is said", lambda: "FileNotFoundError" in said(), LONGEST)
            lasts("it goes on", lambda: started.poll() is None)
        expect("no part stays", [it for it in os.listdir(folder) if it.startswith(".state")], [])


EVIL = "\u001b[2J\u202e"
STATE = "1 web {} {} 127.0.0.1 2 0 {} 1 1\n"
TRUE = (STATE.format(1, "v1", 65) + STATE.format(2, "v2", 35)).encode() + b"\n"
# What a socket that is not HAProxy's answers to each command, and what of it is said, in turn.
# None: the follower hangs up.
LIES = [
    (b"", "HAProxy's answer is not whole"),
    (b"\n\n", "web has no server v1: nothing is changed"),
    (b"\xff\xfe", "UnicodeDecodeError"),
    (TRUE[:-8], "HAProxy's answer is not whole"),
    (STATE.format(1, "v1", EVIL).encode() + b"\n", "ValueError"),
    (STATE.format(3, "v3" + EVIL, 50).encode() + TRUE, "v3\\x1b[2J\\u202e 50 -> 0 1 web 3 v3"),
    ("flood", "OSError: the answer has no end"),
    ("silence", "TimeoutError"),
    ("drip", None),
]


def lie(client, answer, is_over, asked):
    """Answers a command so."""
    asked.append(client.recv(1000))
    if isinstance(answer, bytes):
        client.sendall(answer)
    while answer in ("flood", "drip", "silence") and not is_over():
        if answer != "silence":
            client.sendall(b"x" * (100_000 if answer == "flood" else 1))
        time.sleep(.01 if answer == "flood" else .5)


@contextlib.contextmanager
def lying(path, lies, true=TRUE):
    """A socket that answers with one lie after another: each one again until the first function
    says to go on, and at last the truth. The second one has those at which the other side has hung
    up, the third one what it was asked."""
    turn, hung_up, asked = [0], [], []
    with socket.socket(socket.AF_UNIX) as server:
        server.bind(str(path))
        server.listen()

        def answer(client, now):
            told = lies[now][0] if now < len(lies) else true
            try:
                with client:
                    lie(client, told, lambda: turn[0] != now, asked)
            except OSError:
                hung_up.append(told)

        def serve():
            with contextlib.suppress(OSError):
                while True:
                    answer(server.accept()[0], turn[0])

        threading.Thread(target=serve, daemon=True).start()
        try:
            yield lambda: turn.__setitem__(0, turn[0] + 1), lambda: hung_up, lambda: asked
        finally:
            turn[0] = -1
            server.shutdown(socket.SHUT_RDWR)


def try_lying_proxies(world):
    """A socket in the place of HAProxy's that answers as that does not, or without an end, and an
    nginx whose words command a terminal: the followers go on, and say it in plain text."""
    folder = world.place("lying-haproxy")
    spoken = said_after(folder, [line()])
    with lying(folder / "socket", LIES) as (go_on, hung_up, _), follower(
            folder, spoken, "follow-haproxy", "web", folder / "socket", "web") as (started, said):
        for answer, text in LIES:
            wait_until(f"{str(answer)[:20]}: {text}", lambda text=text, answer=answer: (
                text in said() if text else answer in hung_up()), LONGEST)
            go_on()
        lasts("it goes on", lambda: started.poll() is None)
        want_plain(said())
    folder = world.place("lying-nginx")
    install(folder / "nginx", text="#!/bin/sh\nprintf 'no \\033[2J\\342\\200\\256' >&2\nexit 1\n")
    with follower(folder, said_after(folder, [line()]), "follow-nginx", "web", folder / "web.conf",
                  folder / "nginx") as (started, said):
        wait_until("an nginx that fails", lambda: "ValueError: nginx -T: no \\x1b[2J\\u202e\n"
                   in said(), LONGEST)
        lasts("it goes on", lambda: started.poll() is None)
        want_plain(said())


def want_plain(text):
    expect("in plain text", [mark for mark in text if not mark.isprintable() and mark != "\n"], [])


@contextlib.contextmanager
def unheard(row, folder, variables, name, *words):
    """A follower whose streams are closed, or whose standard error has no reader."""
    reader, writer = os.pipe()
    os.close(reader)
    ends = "<&- >&- 2>&-" if row == "closed" else ""
    command = ["sh", "-c", f'exec "$@" {ends}', "sh", OPERATIONS / name, *words]
    try:
        with process([*map(str, command)], cwd=folder, env=variables, stdin=subprocess.DEVNULL,
                     stdout=subprocess.DEVNULL, stderr=writer) as started:
            yield started
    finally:
        os.close(writer)


@contextlib.contextmanager
def nginx(folder):
    """nginx by follow.nginx.conf, before two versions; its follower has to run before it."""
    port = free_port()
    with version("v1") as first, version("v2") as second:
        text = filled("follow.nginx.conf",
                      ("/var/lib/canary-follow/web.conf;", f"{folder}/web.conf;"),
                      ("listen 8081", f"listen 127.0.0.1:{port}"),
                      ("127.0.0.1:9101", f"127.0.0.1:{first}"),
                      ("127.0.0.1:9102", f"127.0.0.1:{second}"))
        proxy = Nginx(folder, port, text)
        try:
            yield proxy
        finally:
            proxy.kill()


def words_of(proxy):
    return ["follow-nginx", "web", proxy.folder / "web.conf", *proxy.called()]


def want_answers(row, proxy, first, second):
    """Both versions have such shares, once nginx has loaded them."""
    wanted, until = {"v1": first, "v2": second}, time.monotonic() + LONGEST
    while True:
        try:
            return want_shares(row, proxy.port, wanted, 12, 300)
        except Wrong as wrong:
            if time.monotonic() > until:
                raise Late(str(wrong)) from wrong


def try_nginx(world):
    """nginx has the desk's shares: through a release, after a restart, while the desk is away, and
    after the follower was killed."""
    with world.desk("nginx") as desk, nginx(desk.folder) as proxy:
        add(desk)
        ops, file = Caller(desk, "ops"), desk.folder / "web.conf"
        with follower(desk.folder, variables(desk), *words_of(proxy)):
            wait_until("it writes its file", file.exists, LONGEST)
        os.truncate(file, 0)
        with follower(desk.folder, variables(desk), *words_of(proxy)) as (started, said):
            wait_until("it writes an empty file anew", lambda: file.stat().st_size, LONGEST)
            proxy.start()
            want_answers("20%", proxy, 80, 20)
            desk.kill()
            proxy.restart()
            want_answers("no desk, and nginx restarted", proxy, 80, 20)
            desk.start()
            ops.send({"promote": {"service": "web"}})
            wait_until("50% are loaded", lambda: "'v2': 50" in said(), LONGEST)
            want_answers("50%", proxy, 50, 50)
            file.write_text('split_clients "" $canary_web {\n* web_v1;\n}\n', encoding="utf-8")
            wait_until("another program wrote its file",
                       lambda: "50%" in file.read_text(encoding="utf-8"), LONGEST)
            want_answers("50% again", proxy, 50, 50)
            watches = children_of(started)
        wait_until("canary watch ends", lambda: not any(map(is_alive, watches)), LONGEST)
        ops.send({"promote": {"service": "web"}})
        time.sleep(1.5)
        want_shares("no follower", proxy.port, {"v1": 50, "v2": 50}, 12, 300)
        with follower(desk.folder, variables(desk), *words_of(proxy)) as (_, said):
            want_answers("another follower", proxy, 0, 100)
            want_refused(proxy, ops, said)


def want_refused(proxy, ops, said):
    """What is not loaded: a version without an upstream, and a configuration that nginx refuses."""
    ops.send({"start": {"service": "web", "version": "v3"}})
    wait_until("v3 has no upstream", lambda: said().endswith(
        "there is no upstream web_v3: nothing is changed\n"), LONGEST)
    ops.send({"abort": {"service": "web"}})
    good = proxy.file.read_text(encoding="utf-8")
    proxy.file.write_text(good.replace("events {}", "events {}\nnonsense on;"), encoding="utf-8")
    before = proxy.reloads()
    ops.send({"start": {"service": "web", "version": "v1"}})
    wait_until("a configuration that nginx refuses", lambda: said().count(
        'unknown directive "nonsense"') == 1, LONGEST)
    want_shares("refused", proxy.port, {"v1": 0, "v2": 100}, 0)
    expect("not reloaded", proxy.reloads(), before)
    proxy.file.write_text(good, encoding="utf-8")
    want_answers("it is right again", proxy, 20, 80)
    ops.send({"abort": {"service": "web"}})
    want_answers("aborted", proxy, 0, 100)


def try_nginx_words(world):
    """No word of a hostile desk comes into nginx's configuration, and nginx is not reloaded more
    than once a second."""
    folder = world.place("nginx-words")
    (folder / "web.conf").write_text('split_clients "" $canary_web {\n* web_v1;\n}\n',
                                     encoding="utf-8")
    with nginx(folder) as proxy:
        proxy.start()
        spoken = said_after(folder, [*HOSTILE, line(), *HOSTILE])
        # a stranger's link at the name of its part, which leads to a file of somebody else
        (folder / "victim").write_text("kept", encoding="ascii")
        (folder / "web.conf.part").symlink_to("victim")
        with follower(folder, spoken, *words_of(proxy)) as (started, said):
            want_answers("the last line that is one", proxy, 65, 35)
            expect("it goes on", started.poll(), None)
            want_all_said(said)
        expect("its file", (folder / "web.conf").read_text(encoding="utf-8"),
               'split_clients "$request_id" $canary_web {\n    35% web_v2;\n    * web_v1;\n}\n')
        expect("nothing is left beside it", [*folder.glob("web.conf?*")], [])
        expect("where a link led", (folder / "victim").read_text(encoding="ascii"), "kept")
    folder = world.place("nginx-often")
    (folder / "web.conf").write_text('split_clients "" $canary_web {\n* web_v1;\n}\n',
                                     encoding="utf-8")
    with nginx(folder) as proxy:
        proxy.start()
        lines = " ".join(shlex.quote(line(weight=weight).decode()) for weight in range(1, 41))
        script = f'for line in {lines}; do echo "$line"; sleep 0.1; done\n'
        script += f"echo {shlex.quote(line(status='Degraded').decode())}"
        begun = time.monotonic()
        with follower(folder, speaking(folder, script), *words_of(proxy)) as (_, said):
            wait_until("all lines are out", lambda: "'v2': 0" in said(), LONGEST)
            seconds = time.monotonic() - begun
            want_answers("Degraded", proxy, 100, 0)
        # 40 lines in 4 seconds or more: a reload for the first, and one a second
        if not 2 <= proxy.reloads() <= seconds + 2:
            raise Wrong(f"{proxy.reloads()} reloads in {seconds} seconds")
