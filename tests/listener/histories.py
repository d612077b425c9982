"""Clients that ask for long histories beside others: histories.py PART PORT DESK, with the desk's
process. The desk answers one history after each round of what is asked else, in the order in which
they came. The clients begin while the desk stands still, so that it finds all of them at once.
Prints what is wrong, and ends with status 1 then."""
import os
import re
import selectors
import signal
import socket
import struct
import subprocess
import sys
import tempfile
import time

STEPS = ",".join(f'{{"setWeight":{it}}}' for it in range(1, 61))
SERVICE = ('{"service":{"version":"v0","manifest":{"metadata":{"name":"web"},"spec":{"strategy":'
           '{"canary":{"steps":[' + STEPS + ',{"pause":{}}]}}}}}}')
HISTORY = b"GET /services/web/history HTTP/1.1\r\n\r\n"
SECONDS = 25
CLIENTS = 30
# How long it takes to answer a history at least, and how many releases it has at most.
LONG = 0.03
MOST = 400
# How many histories may come while one message is waited for.
BESIDE = 3


def put(caller, number, command):
    """A request of this caller."""
    head = f"PUT /callers/{caller}/requests/{number} HTTP/1.1\r\nContent-Length: {len(command)}"
    return f"{head}\r\n\r\n{command}".encode()


TICK = '{"tick":{"service":"web"}}'
CHEAP = b"GET /services/web HTTP/1.1\r\n\r\n"
SHORT = b"GET /services/short/history HTTP/1.1\r\n\r\n"


class Client:
    """A connection, and what came on it. A reply's length is in its head."""

    def __init__(self, port):
        self.socket = socket.create_connection(("127.0.0.1", port), SECONDS)
        self.got = b""

    def begin(self, sent):
        self.socket.sendall(sent)

    def is_answered(self, count=1):
        """Whether so many whole replies of one length have come; it reads what is there, or waits
        for something."""
        some = self.socket.recv(1 << 20)
        if not some:
            sys.exit("a connection ended without its reply")
        self.got += some
        head, found, _ = self.got.partition(b"\r\n\r\n")
        length = [it for it in head.split(b"\r\n") if it.startswith(b"Content-Length: ")]
        return bool(found) and len(self.got) >= count * (len(head) + 4 + int(length[0].split()[1]))

    def ask(self, sent):
        """Sends something, and reads its reply, whose status it gives."""
        self.got = b""
        self.begin(sent)
        while not self.is_answered():
            pass
        return self.got.split(b" ")[1]

    def release(self, number):
        """A release of the service from its begin to its end, by these requests."""
        start = '{"start":{"service":"web","version":"v%d"}}' % number
        for at, command in enumerate((start, '{"promote":{"service":"web"}}')):
            if self.ask(put("ops", 2 * number + at, command)) != b"200":
                sys.exit(f"release {number}: {self.got}")

    def reset(self):
        """Ends the connection in both directions."""
        self.socket.setsockopt(socket.SOL_SOCKET, socket.SO_LINGER, struct.pack("ii", 1, 0))
        self.socket.close()


def make_history(port):
    """A service with a history of which a reply takes long, or with as many releases as it has at
    most. Gives the seconds that it takes."""
    client, number, spent = Client(port), 0, 0.0
    if client.ask(put("ops", 1, SERVICE)) != b"200":
        sys.exit(f"no service: {client.got}")
    while spent < LONG and number < MOST:
        number += 1
        client.release(number)
        if number % 5 == 0 and (spent := seconds_of(client)) >= LONG:
            # one that waited for a processor seems to take long
            spent = min(spent, seconds_of(client), seconds_of(client))
    return spent


def seconds_of(client):
    """How long it takes until a history comes."""
    begun = time.monotonic()
    client.ask(HISTORY)
    return time.monotonic() - begun


class Crowd:
    """Clients of which each has asked for a history, or so often for this one, by their numbers,
    and who was answered."""

    def __init__(self, port, desk, asked=HISTORY, times=1):
        self.times = times
        self.clients = [Client(port) for _ in range(CLIENTS)]
        for client in self.clients:
            # The desk has accepted it.
            client.ask(b"GET /services/nobody HTTP/1.1\r\n\r\n")
            client.got = b""
        self.answered = []
        self.ready = selectors.DefaultSelector()
        for number, client in enumerate(self.clients):
            self.ready.register(client.socket, selectors.EVENT_READ, number)
        os.kill(desk, signal.SIGSTOP)
        time.sleep(0.2)
        for client in self.clients:
            client.begin(times * asked)
            time.sleep(0.002)

    def look(self, seconds=0):
        """Notes the replies that have come, or that come within so many seconds if none has."""
        came = []
        for key, _ in self.ready.select(seconds):
            if self.clients[key.data].is_answered(self.times):
                came.append(key.data)
                self.ready.unregister(key.fileobj)
        self.answered += came
        return came

    def leave(self, number):
        """A client goes while it waits."""
        self.ready.unregister(self.clients[number].socket)
        self.clients[number].reset()

    def want_rest(self, gone=()):
        """All others are answered, each once."""
        wanted = [it for it in range(CLIENTS) if it not in gone]
        until = time.monotonic() + SECONDS
        while len(self.answered) < len(wanted):
            self.look(1)
            if time.monotonic() > until:
                sys.exit(f"late: {len(self.answered)} of {len(wanted)} histories came")
        if sorted(self.answered) != wanted:
            sys.exit(f"histories came to {self.answered}")


def try_ticks(port, desk, _):
    """One that ticks waits for a history or two, each time, and so do its other queries."""
    other = Client(port)
    other.ask(put("tick", 1, TICK))
    crowd = Crowd(port, desk)
    waited = []
    for at in range(10):
        other.got = b""
        before = len(crowd.answered)
        other.begin(CHEAP if at % 2 else put("tick", at // 2 + 2, TICK))
        os.kill(desk, signal.SIGCONT)
        while not other.is_answered():
            pass
        crowd.look()
        waited.append(len(crowd.answered) - before)
    if len(crowd.answered) == CLIENTS:
        sys.exit("late: all histories came before ten other messages were answered")
    # If this process waits for a processor, more come meanwhile.
    if sorted(waited)[-3] > BESIDE:
        sys.exit(f"late: so many histories came before each other message: {waited}")
    crowd.want_rest()


class Tracer:
    """The writes of a process, as strace sees them."""

    def __init__(self, process):
        with tempfile.NamedTemporaryFile(delete=False) as calls:
            self.calls = calls.name
        words = ["strace", "-f", "-o", self.calls, "-e", "trace=write,sendto", "-p", str(process)]
        self.strace = subprocess.Popen(words, stderr=subprocess.PIPE)
        if b"attached" not in self.strace.stderr.readline():
            sys.exit("strace does not attach to the desk")

    def heads(self):
        """The descriptors on which a reply's head was written, in this order, until now."""
        self.strace.send_signal(signal.SIGINT)
        self.strace.communicate()
        with open(self.calls, encoding="utf-8", errors="replace") as calls:
            found = re.findall(r'^\d+ +(?:write|sendto)\((\d+), "HTTP/1\.1 200', calls.read(), re.M)
        os.unlink(self.calls)
        return [int(it) for it in found]


def try_order(port, desk, _):
    """Histories are answered in the order in which they were asked for, and none twice at once for
    one client. Each client was accepted after the one before it, so its descriptor in the desk is a
    higher one. A history of one line is unsent for no time, so nothing else makes clients wait."""
    other = Client(port)
    other.ask(put("short", 1, SERVICE.replace('"web"', '"short"')))
    for asked, times in ((HISTORY, 1), (SHORT, 2)):
        crowd = Crowd(port, desk, asked, times)
        tracer = Tracer(desk)
        os.kill(desk, signal.SIGCONT)
        crowd.want_rest()
        heads = tracer.heads()
        first = heads[:CLIENTS]
        is_whole = len(heads) == times * CLIENTS and sorted(heads) == sorted(times * first)
        if not is_whole or first != sorted(set(first)):
            sys.exit(f"histories were written to the descriptors {heads}, in this order")


def try_gone(port, desk, seconds):
    """Those that reset their connections while they wait take no time from the others."""
    crowd = Crowd(port, desk)
    os.kill(desk, signal.SIGCONT)
    while not crowd.look(1):
        pass
    # on a busy machine more of them may be answered by now
    crowd.look()
    gone = [number for number in range(5, CLIENTS - 1) if number not in crowd.answered]
    if len(gone) < CLIENTS // 2:
        sys.exit(f"late: {len(crowd.answered)} of {CLIENTS} histories came before a client left")
    for number in gone:
        crowd.leave(number)
    begun = time.monotonic()
    crowd.want_rest(gone)
    spent = time.monotonic() - begun
    if spent > CLIENTS / 2 * seconds:
        sys.exit(f"late: the others were answered after {spent:.3f} s, one takes {seconds:.3f} s")


def try_killed(port, desk, _):
    """A process whose clients wait is killed, and the others are answered."""
    crowd = Crowd(port, desk)
    words = [sys.executable, __file__, "held", str(port), str(desk)]
    with subprocess.Popen(words, stdout=subprocess.PIPE) as held:
        if held.stdout.readline() != b"asked\n":
            sys.exit("the clients that are to be killed did not ask")
        os.kill(desk, signal.SIGCONT)
        while not crowd.look(1):
            pass
        held.kill()
    crowd.want_rest()


def memory_of(process):
    """The bytes of memory that a process has."""
    with open(f"/proc/{process}/status", encoding="ascii") as status:
        return 1024 * int(re.search(r"VmRSS:\s+(\d+) kB", status.read())[1])


def try_memory(port, desk, _):
    """Once a client has taken a long history, its memory is given back, though the client stays."""
    clients = [Client(port) for _ in range(CLIENTS + 1)]
    clients[0].ask(HISTORY)
    before = memory_of(desk)
    for client in clients[1:]:
        client.ask(HISTORY)
    more, length = memory_of(desk) - before, len(clients[0].got)
    if more > CLIENTS // 2 * length:
        sys.exit(f"{more} bytes of memory more after {CLIENTS} histories of {length} bytes")


def hold(port):
    """Clients that ask for a history each and read nothing, until this process is killed."""
    clients = [Client(port) for _ in range(10)]
    for client in clients:
        client.begin(HISTORY)
    print("asked", flush=True)
    time.sleep(SECONDS)


PARTS = {"ticks": try_ticks, "order": try_order, "gone": try_gone, "killed": try_killed,
         "memory": try_memory}


def main():
    part, port, desk = sys.argv[1], int(sys.argv[2]), int(sys.argv[3])
    try:
        if part == "held":
            hold(port)
        else:
            PARTS[part](port, desk, make_history(port))
    except TimeoutError:
        sys.exit(f"late: no reply in {SECONDS} seconds")


if __name__ == "__main__":
    main()
