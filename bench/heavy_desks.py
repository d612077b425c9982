"""The desks of bench/heavy, a client of them, and what a processor did for them."""
import os
import selectors
import socket
import subprocess
import sys
import threading
import time

from conversation import PROGRESS
from heavy_messages import AT, STEP

# Seconds that a desk has for anything, and in which it answers a second client if it ever does.
LIMIT, PROBE = 900, 5
LINE = b"listening 127.0.0.1:"


class Program:
    """A program that serves desks: its name, and the words that begin its command line."""

    def __init__(self, name, words):
        self.name, self.words = name, words

    def fail(self, why):
        """Ends the script."""
        sys.exit(f"heavy: {self.name}: {why}")

    def settle(self, file, requests):
        """Has `pipe` settle these requests on a file, each of which it has to accept."""
        words = [*self.words, "pipe", "--at", f"{AT}", "--step", f"{STEP}", "--db", file]
        ran = subprocess.run(words, input=requests, stdout=subprocess.PIPE,
                             stderr=subprocess.DEVNULL, timeout=LIMIT, check=False)
        accepted = ran.stdout.count(b"HTTP/1.1 200")
        if ran.returncode != 0 or accepted != requests.count(b"HTTP/1.1\r\n"):
            self.fail(f"pipe ends with {ran.returncode} and {accepted} accepted requests")

    def look(self, *words):
        """The progress of a command that ends with status 0, or None if it ends with another one,
        as if the program has no such command."""
        looking = Progress([*self.words, *words])
        try:
            status = looking.process.wait(LIMIT)
        finally:
            looking.process.kill()
        return looking.so_far() if status == 0 else None


class Progress:
    """A process, and the moments at which it says on standard error how far it is."""

    def __init__(self, words, output=subprocess.DEVNULL):
        self.begun, self.moments = time.monotonic(), []
        self.process = subprocess.Popen(words, stdin=subprocess.DEVNULL, stdout=output,
                                        stderr=subprocess.PIPE)
        self.reader = threading.Thread(target=self.read, daemon=True)
        self.reader.start()

    def read(self):
        """Notes when such a line comes."""
        for line in self.process.stderr:
            if PROGRESS.fullmatch(line):
                self.moments.append(time.monotonic())

    def so_far(self):
        """The seconds until now, the lines so far, and the longest time without one."""
        now = time.monotonic()
        if self.process.poll() is not None:
            self.reader.join(1)
        moments = [self.begun, *self.moments, now]
        silence = max(after - before for before, after in zip(moments, moments[1:]))
        return now - self.begun, len(self.moments), silence


class Desk:
    """A desk of a program that serves a file."""

    def __init__(self, program, file):
        words = [*program.words, "serve", "--listen", "127.0.0.1:0", "--db", file,
                 "--connections", "1000000"]
        self.program = program
        self.progress = Progress(words, subprocess.PIPE)
        self.process = self.progress.process
        line = self.first_line()
        self.opening = self.progress.so_far()
        if not line.startswith(LINE):
            self.stop()
            program.fail(f"does not listen: {line!r}")
        self.port = int(line[len(LINE):])

    def __enter__(self):
        return self

    def __exit__(self, *_):
        self.stop()

    def first_line(self):
        """The first line that it prints, or nothing if that takes too long."""
        with selectors.DefaultSelector() as waiting:
            waiting.register(self.process.stdout, selectors.EVENT_READ)
            return self.process.stdout.readline() if waiting.select(LIMIT) else b""

    def stop(self):
        """Ends it."""
        self.process.kill()
        self.process.wait()

    def is_busy(self):
        """Whether it runs or is to run."""
        with open(f"/proc/{self.process.pid}/stat", encoding="ascii") as stat:
            return stat.read().rsplit(")", 1)[1].split()[0] not in "SD"

    def rest(self, seconds):
        """Waits until it waits, at most so long."""
        until = time.monotonic() + seconds
        while self.is_busy() and time.monotonic() < until:
            time.sleep(0.0003)

    def processor(self):
        """The milliseconds of a processor that it has taken. The system counts them as it begins to
        wait, which it soon does."""
        self.rest(2)
        return processor_of(self.process.pid)

    def peak(self):
        """The MiB that it has had at most."""
        with open(f"/proc/{self.process.pid}/status", encoding="utf-8") as status:
            high = next(line for line in status if line.startswith("VmHWM"))
        return int(high.split()[1]) / 1024

    def serves_many(self):
        """Whether it answers one client while another one is connected."""
        with Client(self.port), Client(self.port, PROBE) as second:
            try:
                second.ask(b"GET /services/good HTTP/1.1\r\n\r\n")
                return True
            except OSError:
                return False


class Client:
    """A client with a connection of its own, which waits for each reply."""

    def __init__(self, port, seconds=LIMIT):
        self.socket = socket.create_connection(("127.0.0.1", port), seconds)
        self.socket.setsockopt(socket.IPPROTO_TCP, socket.TCP_NODELAY, 1)

    def __enter__(self):
        return self

    def __exit__(self, *_):
        self.socket.close()

    def ask(self, message):
        """The status and the body of the reply to a message."""
        self.socket.sendall(message)
        found = b""
        while (size := length_of(found)) is None or len(found) < size:
            more = self.socket.recv(1 << 20)
            if not more:
                raise ConnectionError("the desk ended the connection")
            found += more
        return int(found[9:12]), found[found.index(b"\r\n\r\n") + 4:]


def processor_of(process):
    """The milliseconds of a processor that are counted of a process."""
    with open(f"/proc/{process}/schedstat", encoding="ascii") as file:
        return int(file.read().split()[0]) / 1e6


def length_of(reply):
    """How many bytes a reply has in all, or None if its head is not whole."""
    end = reply.find(b"\r\n\r\n")
    if end < 0:
        return None
    field = reply[:end].lower().index(b"content-length:") + len(b"content-length:")
    return end + 4 + int(reply[field:end].split(b"\r\n")[0])


def size_of(path):
    """The bytes of a desk's file and of its log."""
    return sum(os.path.getsize(path + end) for end in ("", "-wal") if os.path.exists(path + end))
