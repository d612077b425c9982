"""A desk whose standard error nobody reads: unread.py PROGRAM. It has to serve on, to drop lines,
and to report how many. Prints what is wrong, and ends with status 1 then."""
import fcntl
import os
import re
import socket
import subprocess
import sys
import time

# Addresses, from each of which come two clients.
ADDRESSES = 240
LAST = b"canary: truncated 127.0.0.250\n"
LINE = re.compile(rb"canary: (?:truncated 127\.0\.0\.\d+(?: \((\d+) times\))?"
                  rb"|(\d+) lines dropped)\n")


def cut_off(port, number):
    """A client of an address of its own that goes in the midst of a message."""
    with socket.create_connection(("127.0.0.1", port), 10, (f"127.0.0.{number}", 0)) as client:
        client.sendall(b"GET /serv")


def status_of_answer(port):
    """The status of the answer to a client that comes now."""
    with socket.create_connection(("127.0.0.1", port), 10) as client:
        client.sendall(b"GET /services/nobody HTTP/1.1\r\nConnection: close\r\n\r\n")
        return client.recv(65536).split(b" ")[1]


def told(pipe, seconds, is_all=lambda _: False):
    """What is in the pipe, and comes within so many seconds, or until that is all."""
    os.set_blocking(pipe, False)
    found, end = b"", time.monotonic() + seconds
    while time.monotonic() < end and not is_all(found):
        try:
            found += os.read(pipe, 65536)
        except BlockingIOError:
            time.sleep(0.05)
    return found


def lines_of(text):
    """The text as lines; what is no line of a desk is wrong."""
    lines = text.splitlines(keepends=True)
    for line in lines[1:]:
        if not LINE.fullmatch(line):
            sys.exit(f"no line of a desk, or a torn one: {line!r}")
    return lines


def count_told(lines):
    """How many clients these lines are about, with those of which lines were dropped."""
    found = [LINE.fullmatch(line) for line in lines]
    return sum(int(it[1] or it[2] or 1) for it in found)


def try_desk(port, pipe):
    """Fills the pipe, and reads it."""
    for number in range(2, 2 + ADDRESSES):
        for _ in range(2):
            cut_off(port, number)
        if number % 40 == 0:
            time.sleep(1.1)
    time.sleep(2.5)
    if status_of_answer(port) != b"404":
        sys.exit("the desk does not serve on while nobody reads its standard error")
    before = lines_of(told(pipe, 0.2))
    if not 50 < len(before) < ADDRESSES:
        sys.exit(f"{len(before)} lines are in a pipe of 8,192 bytes, of {ADDRESSES}")
    cut_off(port, 250)
    text = told(pipe, 10, lambda found: b" lines dropped\n" in found and LAST in found)
    after = lines_of(b"first\n" + text + told(pipe, 2))
    if not any(it.endswith(b" lines dropped\n") for it in after) or LAST not in after:
        sys.exit(f"no line says how many were dropped, or none of the last client: {after!r}")
    if (count := count_told(before[1:] + after[1:])) != 2 * ADDRESSES + 1:
        sys.exit(f"lines are about {count} clients, with those dropped, of {2 * ADDRESSES + 1}")


def main():
    reads, writes = os.pipe()
    # Two pages, of which the desk fills one: a page that has something is taken as full.
    fcntl.fcntl(writes, fcntl.F_SETPIPE_SZ, 8192)
    words = [sys.argv[1], "serve", "--listen", "127.0.0.1:0"]
    with subprocess.Popen(words, stdin=subprocess.DEVNULL, stdout=subprocess.PIPE,
                          stderr=writes) as desk:
        os.close(writes)
        try:
            port = int(desk.stdout.readline().split(b":")[1])
            try_desk(port, reads)
        finally:
            desk.kill()


main()
