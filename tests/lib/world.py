"""A desk on a file, the client, and what both have in their files: what the parts of tests/client
share."""
import collections
import contextlib
import http.client
import json
import os
import pathlib
import resource
import shutil
import signal
import socket
import sqlite3
import subprocess
import threading
import time

from journal_rule import journal_of

# C0, DEL, C1, the marks of direction (UAX #9), the separators of lines and paragraphs.
MARKS = [*range(0x20), *range(0x7f, 0xa0), 0x61c, 0x200e, 0x200f, *range(0x2028, 0x202f),
         *range(0x2066, 0x206a)]
DONE, REFUSED, WORDS, PENDING, CONTRADICTION, LOCAL, LATE = range(7)

# What the client says, by docs/CLIENT.md.
PENDING_SAID = ("pending: no answer came, so it may have acted or not; the same call again finds"
                " out")
BEHIND = "an earlier command is not answered yet, and goes first"
TOO_LATE = "too late: the earlier command was settled, with this reply; this one did nothing"
TOOK_PLACE = ("another command took its place, and was settled with this reply; this one did"
              " nothing")
REPLACED = "another command was asked in its place already, and is not answered yet"
NOT_BEGUN = "no desk said which number of this caller comes next: nothing was asked"
NO_DESK = "no desk answered"
REUSED = ("reused: the desk settled another command under this number. Somebody else sends under"
          " this name, or the journal is an old copy; nothing was sent after that")
AHEAD = ("ahead: the desk has settled fewer commands of this caller than the journal has. The desk"
         " was restored from an older copy, or it is another desk")
BROKEN = ("this file is no whole journal: it is another file, or was cut short or changed. It is"
          " left as it is. Restore it, or move it away")
NO_FILE = "the journal has to be a regular file: this is a folder, a FIFO, a device or a socket"
EMPTIED = ("this journal is empty, and the desk has settled commands of this caller. It is left as"
           " it is. Restore it, or remove it to begin a new one")
KEY_USED = "this key stands for another command in this journal"
OTHER_CALLER = "this journal is another caller's"
SPENT = "this caller has no number left: go on under another name"
IN_USE = "another client has this journal open"
NO_JOURNAL_FILE = "the journal cannot be opened, read or written"
UNREACHABLE = "nobody answers there; trying again"
LOST = "the reply was lost; trying again"
FOREIGN = "the reply is not a desk's; trying again"
UNAVAILABLE = "the desk cannot do it now; trying again"

# What runs, so that all of it ends with the script.
running = set()
Ended = collections.namedtuple("Ended", "status output errors")


class Wrong(Exception):
    """Something is not as the rules say."""


class Late(Wrong):
    """Something did not come in time, and nothing wrong came: a busy machine can be the cause."""


class Unsafe(Wrong):
    """Something is so as no delay explains it: it was lost, doubled or changed."""


def expect(row, found, wanted):
    if found != wanted:
        raise Wrong(f"{row}: {found!r} in place of {wanted!r}")


@contextlib.contextmanager
def process(words, **options):
    """A process that ends with the block."""
    started = subprocess.Popen(words, **options)
    running.add(started)
    try:
        yield started
    finally:
        end(started)


@contextlib.contextmanager
def process_group(words, **options):
    """A process that ends with the block, and with it those that it began."""
    with process(words, start_new_session=True, **options) as started:
        started.is_of_group = True
        try:
            yield started
        finally:
            with contextlib.suppress(ProcessLookupError):
                os.killpg(started.pid, signal.SIGKILL)


def end(started):
    started.kill()
    started.wait()
    for stream in (started.stdin, started.stdout, started.stderr):
        if stream is not None:
            stream.close()
    running.discard(started)


def install(path, source="/dev/stdin", text=None):
    """Makes a program of a text, or of another one, by a process of its own. If this process wrote
    the file, one that another thread starts meanwhile would have it open for writing as well for a
    moment, and as long as somebody has, the system runs it for nobody ("text file busy")."""
    subprocess.run(["install", "-m", "755", source, path], input=text, text=True, check=True)


def environment(**more):
    """The variables of this process, without those of the client, and with these."""
    kept = {name: value for name, value in os.environ.items() if not name.startswith("CANARY_")}
    return {**kept, **more}


def slowness(most):
    """How many seconds of the clock one of a processor takes here now, `most` at most: 1 on a
    machine that has little else to do."""
    clock, processor = time.monotonic(), time.thread_time()
    while time.thread_time() - processor < .2:
        pass
    return min(most, max(1, round((time.monotonic() - clock) / .2)))


def factor_of(program):
    """How many times the seconds of a proved program this one needs: 2 if it is unproved."""
    said = subprocess.run([program, "--version"], capture_output=True, check=True, timeout=60)
    return 2 if b"unproved" in said.stdout else 1


class World:
    """The program that is tried, and a folder for the files of each part. Intervals and patience of
    parts that are about seconds are `slowness` times what they are else."""

    def __init__(self, program, folder, is_whole, share, slowness=1):
        self.program, self.folder = program, pathlib.Path(folder)
        self.is_whole, self.share, self.slowness = is_whole, share, slowness

    def place(self, name):
        """A new folder."""
        made = self.folder / name
        made.mkdir()
        return made

    def some_of(self, rows, step):
        """Each of these rows, or in the gate each step-th one, from one on that the commit
        chooses."""
        return rows if self.is_whole else rows[self.share % step::step]

    @contextlib.contextmanager
    def desk(self, name):
        """A desk in a new folder."""
        desk = Desk(self, self.place(name))
        try:
            yield desk
        finally:
            desk.kill()

    def run(self, words, folder, timeout=120, variables=None, stdin=subprocess.DEVNULL, **more):
        """Runs the client, and has what came of it."""
        return self.run_words([self.program, *words], folder, timeout, variables, stdin, **more)

    def run_words(self, words, folder, timeout=120, variables=None, stdin=subprocess.DEVNULL,
                  **more):
        """Runs a command, as another one that begins the client."""
        with process(words, cwd=folder, stdin=stdin, stdout=subprocess.PIPE,
                     stderr=subprocess.PIPE, env=environment(**(variables or {})),
                     **more) as client:
            output, errors = client.communicate(timeout=timeout)
            return Ended(client.returncode, output.decode(), errors.decode())


class Desk:
    """A desk on a file. Its port is its own also while it is killed: no server of another part, to
    which its clients would then send, is given it."""

    def __init__(self, world, folder, port=None):
        self.world, self.folder, self.process = world, folder, None
        self.port = port or free_port()
        self.start()

    def start(self, front=()):
        words = [*front, self.world.program, "serve", "--listen", f"127.0.0.1:{self.port}", "--db",
                 "desk.db"]
        self.process = subprocess.Popen(words, cwd=self.folder, stdin=subprocess.DEVNULL,
                                        stdout=subprocess.PIPE, stderr=subprocess.DEVNULL)
        running.add(self.process)
        told = self.process.stdout.readline().decode()
        if told != f"listening 127.0.0.1:{self.port}\n":
            raise Wrong(f"the desk does not listen: {told!r}")

    def kill(self):
        if self.process is not None:
            end(self.process)
            self.process = None

    def restart(self):
        self.kill()
        self.start()

    def has_ended(self):
        return self.process.poll() is not None

    def words(self, *words, caller="ops", journal="ops.journal", port=None, tries=2, timeout=20,
              options=()):
        """The words of `do` at this desk."""
        return ["do", "--desk", f"127.0.0.1:{port or self.port}", f"--as={caller}", "--journal",
                str(self.folder / journal), "--tries", str(tries), "--timeout", str(timeout),
                *options, *words]

    def of_file(self, sentence, journal="ops.journal"):
        """A sentence that names the journal."""
        return f"{sentence}: {self.folder / journal}"

    def do(self, *words, **options):
        """A command by the client."""
        return self.world.run(self.words(*words, **options), self.folder)

    def ask(self, word, *words, tries=5, **more):
        """`get`, `watch`, `send` or `due` by the client."""
        words = [word, "--desk", f"127.0.0.1:{self.port}", "--tries", str(tries), *words]
        return self.world.run(words, self.folder, **more)

    def write(self, name, value):
        """A file in the desk's folder: JSON, or a text as it is."""
        text = value if isinstance(value, str) else json.dumps(value)
        (self.folder / name).write_text(text, encoding="utf-8")
        return name

    def journal(self, name="ops.journal"):
        """The journal in the file of this name, by the rule."""
        found = journal_of((self.folder / name).read_bytes())
        if found is None:
            raise Unsafe(f"{name} is no journal: {(self.folder / name).read_bytes()[-200:]!r}")
        return found

    def rows(self, statement, *values):
        """Rows of the desk's tables, out of a copy of its file and its log."""
        copy = self.folder / f"copy-{threading.get_ident()}.db"
        while not self.is_copied(copy):
            pass
        with contextlib.closing(sqlite3.connect(copy)) as records:
            found = records.execute(statement, values).fetchall()
        for file in self.folder.glob(f"{copy.name}*"):
            file.unlink()
        return found

    def is_copied(self, copy):
        """Copies the desk's file and its log. Whether they belong together: the log has not begun
        anew meanwhile, as it does once it is in the file."""
        begun = self.begin_of_log()
        for end_of_name in ("", "-wal"):
            shutil.copy(self.folder / f"desk.db{end_of_name}", f"{copy}{end_of_name}")
        return self.begin_of_log() == begun

    def begin_of_log(self):
        """The head of the log of the desk's file, which says how often the log has begun."""
        with open(self.folder / "desk.db-wal", "rb") as log:
            return log.read(32)

    def kept(self, caller="ops"):
        """The number, status and body of each request of the caller that is settled."""
        return self.rows("SELECT number, status, body FROM kept WHERE caller = ? ORDER BY number",
                         caller)

    def count(self, line):
        """How often each service has this line in its history."""
        return dict(self.rows("SELECT service, count(*) FROM history WHERE line = ?"
                              " GROUP BY service", line))


class Caller:
    """A caller that sends over HTTP by itself."""

    def __init__(self, desk, name):
        self.desk, self.name, self.number = desk, name, 0

    def send(self, command, status=200):
        """Sends the next command, which has to get this status; the body of the reply."""
        self.number += 1
        found = put(self.desk.port, self.name, self.number, json.dumps(command))
        expect(f"{self.name}: {command}", found[0], status)
        return json.loads(found[1])


def put(port, caller, number, body):
    """The status and the body of the reply to a request."""
    with contextlib.closing(http.client.HTTPConnection("127.0.0.1", port, timeout=30)) as desk:
        desk.request("PUT", f"/callers/{caller}/requests/{number}", body)
        reply = desk.getresponse()
        return reply.status, reply.read().decode()


def rollout(name, *steps, **more):
    return {"kind": "Rollout", "metadata": {"name": name},
            "spec": {"strategy": {"canary": {"steps": list(steps), **more}}}}


def two_pauses(name="web"):
    """A service whose release is promoted twice."""
    return rollout(name, {"setWeight": 20}, {"pause": {}}, {"setWeight": 50}, {"pause": {}})


def shows(service, status, step, weight):
    """The body that shows a service after a command (docs/API.md)."""
    return (f'{{"code":"ok","service":"{service}","status":"{status}","step":{step},'
            f'"weight":{weight}}}')


# The replies to what is done to a service with two pauses.
ADDED, STARTED = ("Healthy", 4, 100), ("Paused", 1, 20)
PROMOTED, ENDED, ABORTED = ("Paused", 3, 50), ("Healthy", 4, 100), ("Degraded", 1, 0)


def shown(place, service="web"):
    return shows(service, *place) + "\n"


def add(desk, *names):
    """Adds services with two pauses, and starts them, by a caller of its own."""
    names = names or ("web",)
    setup = Caller(desk, f"setup-{names[0]}")
    for name in names:
        setup.send({"service": {"version": "v1", "manifest": two_pauses(name)}})
        setup.send({"start": {"service": name, "version": "v2"}})


def want(row, ended, status, output="", said=None):
    """The client ended with this status and this output, and its last line is this sentence, or it
    has no line."""
    last = ended.errors.splitlines()[-1] if ended.errors else None
    wanted = None if said is None else f"canary: {said}"
    expect(row, (ended.status, ended.output, last), (status, output, wanted))


def want_all_said(row, ended, *said):
    """The client said these sentences, and no other."""
    expect(f"{row}: what it said", ended.errors, "".join(f"canary: {line}\n" for line in said))


def want_delivered(row, desk, caller="ops", journal="ops.journal"):
    """What the desk settled of the caller is what its journal asked, each number once, and each
    reply is the same byte for byte in both."""
    found = desk.journal(journal)
    expect(f"{row}: pending", found.pending, None)
    kept = [(found.before + at, each.status, each.body)
            for at, each in enumerate(found.kept, 1)]
    if kept != (settled := desk.kept(caller)[found.before:]):
        raise Unsafe(f"{row}: the journal has {kept!r}, and the desk {settled!r}")
    return len(kept)


def ask(port, message):
    """The bytes with which a desk answers those of a message, up to the end of the stream."""
    found = b""
    with socket.create_connection(("127.0.0.1", port), 10) as desk:
        desk.sendall(message)
        while piece := desk.recv(65536):
            found += piece
    return found


@contextlib.contextmanager
def answering(answer):
    """A server whose each connection the function `answer` gets. Its port, which nobody is given
    afterwards."""
    server = socket.create_server(("127.0.0.1", free_port()), backlog=64)
    is_over = threading.Event()

    def serve():
        while not is_over.is_set():
            try:
                client, _ = server.accept()
            except OSError:
                return
            threading.Thread(target=give, args=(client,), daemon=True).start()

    def give(client):
        with client:
            try:
                client.settimeout(20)
                answer(client)
            except OSError:
                pass

    serving = threading.Thread(target=serve, daemon=True)
    serving.start()
    try:
        yield server.getsockname()[1]
    finally:
        is_over.set()
        # Closed alone, it would listen on as long as the thread waits for a client.
        server.shutdown(socket.SHUT_RDWR)
        serving.join()
        server.close()


# The sockets of free ports. The system gives such a port to no other part that asks for any port.
HELD = []
# How many descriptors a script may have open: each socket above takes one.
DESCRIPTORS = 8192


def allow_descriptors():
    """Allows this process so many descriptors, or as many as the system grants it."""
    allowed, most = resource.getrlimit(resource.RLIMIT_NOFILE)
    wanted = DESCRIPTORS if most == resource.RLIM_INFINITY else min(DESCRIPTORS, most)
    resource.setrlimit(resource.RLIMIT_NOFILE, (max(allowed, wanted), most))


def free_port():
    """A port on which nobody listens, until a desk of the caller's does. Its socket stays open, so
    a script that asks for hundreds calls `allow_descriptors` first."""
    held = socket.socket()
    held.setsockopt(socket.SOL_SOCKET, socket.SO_REUSEADDR, 1)
    held.bind(("127.0.0.1", 0))
    HELD.append(held)
    return held.getsockname()[1]


def wait_until(row, is_so, seconds=60, pause=.01):
    """Waits until this is so, and looks again after each pause."""
    until = time.monotonic() + seconds
    while not is_so():
        if time.monotonic() > until:
            raise Late(f"{row}: it did not come in {seconds} seconds")
        time.sleep(pause)


def want_seconds(row, spent, least, most):
    """It took so many seconds. If it took more, the machine may be the cause."""
    if spent < least:
        raise Wrong(f"{row}: {spent:.2f} seconds, in place of {least} at least")
    if spent > most:
        raise Late(f"{row}: {spent:.2f} seconds, in place of {most} at most")


def timed(row, least, most, call):
    """What came of a call that takes so many seconds."""
    begun = time.monotonic()
    found = call()
    want_seconds(row, time.monotonic() - begun, least, most)
    return found


def soonest(row, least, most, call):
    """What came of a call that takes so many seconds where the machine is not busy: each takes as
    long at least, and of five one is over in time."""
    for _ in range(4):
        with contextlib.suppress(Late):
            return timed(row, least, most, call)
    return timed(row, least, most, call)
