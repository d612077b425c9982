"""What systemd is told of a desk by examples/operations/serve-and-notify: started.py PROGRAM
FOLDER. A socket of this test stands for that of systemd (sd_notify(3)), and where no systemd is, a
script for systemd-notify(1)."""
import contextlib
import os
import queue
import re
import shutil
import signal
import socket
import subprocess
import sys
import threading

from story_words import Wrong, expect

ROOT = os.path.join(os.path.dirname(os.path.realpath(__file__)), "../..")
SCRIPT = os.path.join(ROOT, "examples/operations/serve-and-notify")
SECONDS = 60
# How long nothing is told of a desk that does not listen yet.
SILENT = 1
LISTENING = re.compile(rb"listening 127\.0\.0\.1:(\d+)\n")
SERVE = ["serve", "--listen", "127.0.0.1:0", "--db", "desk.db"]
# A program that does not listen until its pipe is opened.
LATE = ["sh", "-c", "read line < gate; echo listening 127.0.0.1:1; exec sleep 60"]
STAND_IN = f"""#!{sys.executable}
import os, socket
with socket.socket(socket.AF_UNIX, socket.SOCK_DGRAM) as notified:
    notified.sendto(b"READY=1", os.environ["NOTIFY_SOCKET"])
"""


class Place:
    """A new folder with the socket of systemd, and its programs alone."""

    def __init__(self, above, tools=("systemd-notify",)):
        self.folder = os.path.join(above, "started")
        shutil.rmtree(self.folder, ignore_errors=True)
        os.makedirs(os.path.join(self.folder, "bin"))
        os.mkdir(os.path.join(self.folder, "tmp"))
        for tool in (*tools, "sh", "mktemp", "mkfifo", "rm", "sleep"):
            self.take(tool)
        self.address = os.path.join(self.folder, "notify")
        self.socket = socket.socket(socket.AF_UNIX, socket.SOCK_DGRAM)
        self.socket.bind(self.address)
        self.told = queue.Queue()
        threading.Thread(target=self.listen, daemon=True).start()

    def take(self, tool):
        """Gives the folder of programs that tool, or what stands for it."""
        path, found = os.path.join(self.folder, "bin", tool), shutil.which(tool)
        if found:
            os.symlink(found, path)
            return
        with open(path, "w", encoding="ascii") as script:
            script.write(STAND_IN)
        os.chmod(path, 0o755)

    def begin(self, *words, stdout=subprocess.PIPE, **environment):
        """The script with these words. Its process is to become the program's."""
        environment = {"PATH": os.path.join(self.folder, "bin"),
                       "TMPDIR": os.path.join(self.folder, "tmp"),
                       "NOTIFY_SOCKET": self.address, **environment}
        return subprocess.Popen([SCRIPT, *words], cwd=self.folder, env=environment,
                                stdin=subprocess.DEVNULL, stdout=stdout,
                                stderr=subprocess.PIPE)

    def listen(self):
        """Notes what systemd is told. Who waits until it has read that sends a descriptor with
        another message, and waits until it is closed."""
        while True:
            text, descriptors, _, _ = socket.recv_fds(self.socket, 4096, 8)
            for descriptor in descriptors:
                os.close(descriptor)
            if text != b"BARRIER=1":
                self.told.put(text.strip())

    def expect_ready(self, row):
        try:
            expect(f"{row}: systemd is told", self.told.get(timeout=SECONDS), b"READY=1")
        except queue.Empty:
            raise Wrong(f"{row}: systemd is told nothing") from None

    def expect_nothing(self, row, seconds=0.0):
        """systemd is told nothing within so many seconds."""
        with contextlib.suppress(queue.Empty):
            raise Wrong(f"{row}: systemd is told {self.told.get(timeout=seconds)!r}")

    def end(self, row, running, number=signal.SIGTERM):
        """A signal ends the program; its output ends, and nothing is left in the folders."""
        running.send_signal(number)
        written, errors = running.communicate(timeout=SECONDS)
        expect(f"{row}: its end", (running.returncode, written, errors), (-number, b"", b""))
        expect(f"{row}: its pipes", os.listdir(os.path.join(self.folder, "tmp")), [])
        self.expect_nothing(row)


def try_late(_program, folder):
    """As long as the program does not listen, systemd is told nothing."""
    row, place = "a desk that listens late", Place(folder)
    gate = os.path.join(place.folder, "gate")
    os.mkfifo(gate)
    running = place.begin(*LATE)
    place.expect_nothing(row, SILENT)
    with open(gate, "wb") as opened:
        opened.write(b"\n")
    expect(f"{row}: its line", running.stdout.readline(), b"listening 127.0.0.1:1\n")
    place.expect_ready(row)
    place.end(row, running)


def try_desk(program, folder):
    """A desk: whoever is told that it is ready can connect. The process that was begun is the
    desk's, and has no children."""
    for number in (signal.SIGTERM, signal.SIGKILL):
        row, place = "a desk", Place(folder)
        running = place.begin(program, *SERVE)
        place.expect_ready(row)
        line = LISTENING.fullmatch(running.stdout.readline())
        if line is None:
            raise Wrong(f"{row}: it does not listen")
        socket.create_connection(("127.0.0.1", int(line[1])), timeout=SECONDS).close()
        expect(f"{row}: its program", os.path.realpath(f"/proc/{running.pid}/exe"), program)
        with open(f"/proc/{running.pid}/task/{running.pid}/children", encoding="ascii") as children:
            expect(f"{row}: its children", children.read(), "")
        place.end(row, running, number)


def try_fault(program, folder):
    """A desk that cannot serve: its exit status, and systemd is told nothing."""
    row, place = "a desk whose file is none", Place(folder)
    os.mkdir(os.path.join(place.folder, "desk.db"))
    running = place.begin(program, *SERVE)
    written, errors = running.communicate(timeout=SECONDS)
    expect(row, (running.returncode, written, errors), (1, b"", b"canary: storage\n"))
    place.expect_nothing(row)
    running = place.begin(program, "serve")
    running.communicate(timeout=SECONDS)
    expect("a desk without words", running.returncode, 2)
    place.expect_nothing(row)


def try_untold(program, folder):
    """Without a socket of systemd the desk serves; without systemd-notify it does not begin."""
    row, place = "a desk without systemd", Place(folder, ())
    running = place.begin(program, *SERVE, NOTIFY_SOCKET="")
    if not LISTENING.fullmatch(running.stdout.readline()):
        raise Wrong(f"{row}: it does not listen")
    place.expect_nothing(row)
    refused = place.begin(program, *SERVE)
    written, errors = refused.communicate(timeout=SECONDS)
    expect("a desk without systemd-notify", (refused.returncode, written, errors),
           (1, b"", b"serve-and-notify: there is no systemd-notify\n"))
    place.end(row, running)


def try_full(program, folder):
    """systemd is told also if the output and the folder for temporary files are full."""
    row, place = "a desk whose output is full", Place(folder)
    with open("/dev/full", "wb") as full:
        running = place.begin(program, *SERVE, stdout=full, TMPDIR="/nowhere",
                              RUNTIME_DIRECTORY=os.path.join(place.folder, "tmp"))
    place.expect_ready(row)
    running.terminate()
    running.communicate(timeout=SECONDS)
    expect(f"{row}: its end", (running.returncode, os.listdir(os.path.join(place.folder, "tmp"))),
           (-signal.SIGTERM, []))


def main():
    program, folder = os.path.realpath(sys.argv[1]), sys.argv[2]
    try:
        for part in (try_late, try_desk, try_fault, try_untold, try_full):
            part(program, folder)
    except (Wrong, subprocess.TimeoutExpired) as fault:
        sys.exit(f"files: {fault}")


main()
