"""What the parts of tests/proxies share: versions of a service, and proxies and followers by the
files of examples/operations."""
import collections
import contextlib
import csv
import http.client
import http.server
import io
import os
import pathlib
import signal
import socket
import subprocess
import threading
import time

from world import Wrong, end, expect, install, process, running, wait_until

OPERATIONS = pathlib.Path(__file__).resolve().parents[2] / "examples" / "operations"


def filled(name, *pairs):
    """An example's text, with the second of each pair in the place of the first, which has to be
    there."""
    text = (OPERATIONS / name).read_text(encoding="utf-8")
    for old, new in pairs:
        if old not in text:
            raise Wrong(f"{name} has no {old!r}")
        text = text.replace(old, str(new))
    return text


def is_open(port):
    with socket.socket() as client:
        return client.connect_ex(("127.0.0.1", port)) == 0


@contextlib.contextmanager
def version(name):
    """A server that answers each request with its version. Its port."""

    class Handler(http.server.BaseHTTPRequestHandler):
        protocol_version = "HTTP/1.1"
        # A head and its body go out at once: the system would hold back the second.
        wbufsize = -1

        def do_GET(self):  # pylint: disable=invalid-name
            # as many servers, it takes no host with the `_` of an upstream's name
            self.send_response(400 if "_" in self.headers.get("Host", "") else 200)
            self.send_header("Content-Length", str(len(name)))
            self.end_headers()
            self.wfile.write(name.encode())

        def log_message(self, *_):  # pylint: disable=arguments-differ
            """Nothing."""

    with http.server.ThreadingHTTPServer(("127.0.0.1", 0), Handler) as server:
        server.daemon_threads = True
        # A proxy that is killed ends its connections.
        server.handle_error = lambda *_: None
        threading.Thread(target=server.serve_forever, daemon=True).start()
        yield server.server_port
        server.shutdown()


class Proxy:
    """A proxy that runs in the foreground, as the leader of a group, which ends as a whole."""

    def __init__(self, folder, port):
        self.folder, self.port, self.process, self.variables = folder, port, None, os.environ

    def words(self):
        raise NotImplementedError

    def start(self):
        with open(self.folder / "proxy.log", "ab") as log:
            self.process = subprocess.Popen(self.words(), stdin=subprocess.DEVNULL, stdout=log,
                                            stderr=log, env=self.variables,
                                            start_new_session=True)
        self.process.is_of_group = True
        running.add(self.process)
        wait_until(f"{self.words()[0]} listens: {self.folder}", self.is_ready, 40)

    def is_ready(self):
        return is_open(self.port)

    def kill(self):
        if self.process is not None:
            os.killpg(self.process.pid, signal.SIGKILL)
            end(self.process)
            self.process = None

    def restart(self):
        self.kill()
        self.start()

    def __enter__(self):
        self.start()
        return self

    def __exit__(self, *_):
        self.kill()


class HAProxy(Proxy):
    """HAProxy by such a configuration. If that has a runtime socket, it is the file `socket`. With a
    master it reloads as systemd has it do."""

    def __init__(self, folder, port, text, is_master=False):
        super().__init__(folder, port)
        self.has_socket, self.is_master = "stats socket" in text, is_master
        (folder / "haproxy.cfg").write_text(text, encoding="utf-8")

    def words(self):
        mode = ["-W"] if self.is_master else []
        return ["haproxy", *mode, "-db", "-f", str(self.folder / "haproxy.cfg")]

    def workers(self):
        """The processes of the present worker and of those that end."""
        return set(children_of(self.process))

    def reload(self):
        """Reloads, and waits until a new worker is there. The master ignores the signal until it
        is ready itself."""
        before = self.workers()

        def has_new_worker():
            self.process.send_signal(signal.SIGUSR2)
            return self.workers() - before

        wait_until("a new worker", has_new_worker, 40, .5)
        wait_until("it is ready", self.is_ready, 40)

    def is_ready(self):
        """It listens on its runtime socket a little later than on its port."""
        try:
            return super().is_ready() and (not self.has_socket or bool(self.weights()))
        except OSError:
            return False

    def ask(self, command):
        with socket.socket(socket.AF_UNIX) as haproxy:
            haproxy.connect(str(self.folder / "socket"))
            haproxy.sendall(command.encode() + b"\n")
            return b"".join(iter(lambda: haproxy.recv(65536), b"")).decode()

    def weights(self):
        """The weight of each server."""
        rows = csv.DictReader(io.StringIO(self.ask("show stat").lstrip("# ")))
        return {row["svname"]: int(row["weight"]) for row in rows
                if row["svname"] not in ("FRONTEND", "BACKEND")}


class Nginx(Proxy):
    """nginx by such a part of `http`."""

    def __init__(self, folder, port, text):
        super().__init__(folder, port)
        # Its temporary files would stand where only root may write.
        paths = "".join(f"    {of}_temp_path {folder}/{of};\n"
                        for of in ("client_body", "proxy", "fastcgi", "uwsgi", "scgi"))
        user = "user root;\n" if os.geteuid() == 0 else ""
        self.file = folder / "nginx.conf"
        self.file.write_text(
            f"{user}worker_processes 1;\npid {folder}/pid;\nerror_log {self.log()} notice;\n"
            f"events {{}}\nhttp {{\n    access_log off;\n{paths}{text}}}\n", encoding="utf-8")

    def is_ready(self):
        """`nginx -t` and `nginx -T` of a follower listen for a moment, too, and so does a worker
        that is being killed."""
        pid = self.folder / "pid"
        is_own = pid.is_file() and pid.read_text(encoding="ascii").strip() == str(self.process.pid)
        return is_own and super().is_ready()

    def log(self):
        return self.folder / "error.log"

    def called(self):
        """How the follower calls it."""
        return ["nginx", "-e", str(self.log()), "-c", str(self.file)]

    def words(self):
        return [*self.called(), "-g", "daemon off;"]

    def reloads(self):
        return self.log().read_text(encoding="utf-8").count("(SIGHUP) received")


@contextlib.contextmanager
def follower(folder, variables, *words):
    """A follower of examples/operations. A function that has what it said."""
    said = folder / f"{words[0]}.said"
    with open(said, "ab") as errors, process(
            [OPERATIONS / words[0], *map(str, words[1:])], cwd=folder, env=variables,
            stdin=subprocess.DEVNULL, stdout=subprocess.DEVNULL, stderr=errors) as started:
        yield started, lambda: said.read_text(encoding="utf-8")


def children_of(started):
    """The processes that such a one has started, by any of its threads."""
    files = pathlib.Path(f"/proc/{started.pid}/task").glob("*/children")
    return [int(word) for file in files for word in file.read_text().split()]


def is_alive(pid):
    try:
        stat = pathlib.Path(f"/proc/{pid}/stat").read_text(encoding="utf-8")
    except FileNotFoundError:
        return False
    return stat.rsplit(") ", 1)[1][0] != "Z"


def speaking(folder, script):
    """The variables under which `canary` is this script of sh: a desk that is hostile."""
    (folder / "bin").mkdir()
    install(folder / "bin" / "canary", text=f"#!/bin/sh\n{script}\nexec sleep 600\n")
    return {**os.environ, "PATH": f"{folder}/bin:{os.environ['PATH']}"}


def answers(port, count):
    """How many of so many requests each version answered. A request whose connection ends without a
    byte of a reply is sent again, once, as any GET may be: a proxy that reads its files anew closes
    a connection that it has accepted, and not read yet."""
    found = collections.Counter()
    for _ in range(count):
        try:
            name = answer(port)
        except ConnectionResetError:
            name = answer(port)
        found[name] += 1
    return found


def answer(port):
    """Which version answers a request, or the status if it is not 200."""
    # A connection of its own: a proxy that reads its files anew closes those that wait.
    with contextlib.closing(http.client.HTTPConnection("127.0.0.1", port, timeout=10)) as one:
        one.request("GET", "/")
        reply = one.getresponse()
        body = reply.read().decode()
        return body if reply.status == 200 else str(reply.status)


def want_shares(row, port, wanted, within, count=200):
    """The share of each version, in percent, is such a one, or that many percent beside it; one
    that is to have none has none."""
    found = answers(port, count)
    expect(f"{row}: who answered", sorted(set(found) - set(wanted)), [])
    for name, share in wanted.items():
        of_name = found[name] * 100 / count
        if abs(of_name - share) > (within if share % 100 else 0):
            raise Wrong(f"{row}: {name} has {of_name}% in place of {share}%: {dict(found)}")


def lasts(row, is_so, seconds=2.5):
    """It is so for such a time."""
    until = time.monotonic() + seconds
    while time.monotonic() < until:
        if not is_so():
            raise Wrong(f"{row}: it did not last")
        time.sleep(.05)
