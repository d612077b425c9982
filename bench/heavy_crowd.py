"""Part 1 of bench/heavy: how long a good client's tick takes beside clients that ask for much."""
import collections
import contextlib
import multiprocessing
import selectors
import socket
import time

from heavy_desks import Client, length_of, processor_of
from heavy_messages import HISTORY, NAMES, TICK, put

PATIENCE = 60
# A crowd: its place among all crowds of a desk, and how many of its clients ask for what.
Crowd = collections.namedtuple("Crowd", "place histories bodies")


class Asking:
    """A client of the crowd: it sends its next message once it has the reply to the one before."""

    def __init__(self, port, next_message, keeps):
        self.port, self.next_message, self.keeps = port, next_message, keeps
        self.replies, self.lost, self.socket = 0, 0, None

    def begin(self, events):
        """Connects, if it has no connection, and begins to send its next message."""
        if self.socket is None:
            self.socket = socket.socket()
            self.socket.setblocking(False)
            self.socket.connect_ex(("127.0.0.1", self.port))
            events.register(self.socket, selectors.EVENT_WRITE, self)
        else:
            events.modify(self.socket, selectors.EVENT_WRITE, self)
        self.unsent, self.head, self.left = self.next_message(), b"", None

    def go_on(self, events, mask):
        """Sends or reads what it can; a lost connection is counted, and made anew."""
        try:
            if mask & selectors.EVENT_WRITE:
                self.send(events)
            elif self.read():
                self.replies += self.head[9:12] in (b"200", b"422")
                self.end(events, self.keeps)
        except OSError:
            self.lost += 1
            self.end(events, False)

    def send(self, events):
        """Sends what its connection takes."""
        self.unsent = self.unsent[self.socket.send(self.unsent):]
        if not self.unsent:
            events.modify(self.socket, selectors.EVENT_READ, self)

    def read(self):
        """Reads what has come: whether that is the end of the reply."""
        piece = self.socket.recv(1 << 20)
        if not piece:
            raise ConnectionError("the desk ended the connection")
        if self.left is None:
            self.head += piece
            size = length_of(self.head)
            if size is None:
                return False
            self.left, piece = size - len(self.head), b""
        self.left -= len(piece)
        return self.left <= 0

    def end(self, events, keeps):
        """Goes on with the next message, on this connection or on a new one."""
        if not keeps:
            events.unregister(self.socket)
            self.socket.close()
            self.socket = None
        self.begin(events)


class Bodies:
    """The bodies of 64 KB that a client sends: one that is accepted, one that is refused, and the
    first one again."""

    def __init__(self, client):
        self.caller, self.client = f"crowd-{client}", client
        self.sent = self.settled = 0

    def message(self):
        """The next one."""
        round_, turn = divmod(self.sent, 3)
        self.sent += 1
        if turn == 2:
            return NAMES.put(self.caller, 1, self.name(0))
        self.settled += 1
        return NAMES.put(self.caller, self.settled, self.name(0 if turn else round_))

    def name(self, place):
        """The name of a service."""
        return f"service-{self.client:03}-{place:06}"


def ending(message):
    """The same message, after which the desk ends the connection."""
    line = message.index(b"\r\n") + 2
    return message[:line] + b"Connection: close\r\n" + message[line:]


def crowd_of(port, crowd, keeps):
    """The clients of a crowd."""
    asked = HISTORY if keeps else ending(HISTORY)
    first = crowd.place * crowd.bodies
    senders = [Bodies(client) for client in range(first, first + crowd.bodies)]
    asks = [lambda: asked] * crowd.histories
    sends = [sender.message if keeps else lambda sender=sender: ending(sender.message())
             for sender in senders]
    return [Asking(port, next_message, keeps) for next_message in asks + sends]


def ask_on(port, crowd, keeps, is_over, counts):
    """Has a crowd ask until it is over; then `counts` gets its replies a second, and how many
    messages it lost."""
    clients = crowd_of(port, crowd, keeps)
    begun = time.monotonic()
    with selectors.DefaultSelector() as events:
        for client in clients:
            client.begin(events)
        while not is_over.is_set():
            for key, mask in events.select(0.2):
                key.data.go_on(events, mask)
    replies = sum(client.replies for client in clients)
    counts.send((replies / (time.monotonic() - begun), sum(client.lost for client in clients)))


def tick(port, client, request):
    """Sends a tick, on a connection of its own if there is no client; the milliseconds until its
    reply has come, PATIENCE if none comes."""
    begun = time.perf_counter()
    try:
        if client is not None:
            status, _ = client.ask(request)
        else:
            with Client(port, PATIENCE) as alone:
                status, _ = alone.ask(ending(request))
    except OSError:
        return PATIENCE * 1e3
    if status != 200:
        raise ValueError(f"a tick gets {status}")
    return (time.perf_counter() - begun) * 1e3


def waits_of_good(desk, caller, seconds, keeps):
    """How long each tick takes to a client that sends the next once it has its reply, and the
    milliseconds of a processor that the desk has taken meanwhile."""
    waits, end = [], time.monotonic() + seconds
    with Client(desk.port, PATIENCE) if keeps else contextlib.nullcontext() as client:
        while not waits or time.monotonic() < end and waits[-1][0] < PATIENCE * 1e3:
            request, before = put(caller, len(waits) + 1, TICK), processor_of(desk.process.pid)
            wait = tick(desk.port, client, request)
            waits.append((wait, processor_of(desk.process.pid) - before))
    return waits


def beside(desk, crowd, seconds):
    """The waits of a good client beside a crowd, which is a process of its own, and whose replies a
    second and lost messages come next."""
    is_over, (counts, sender) = multiprocessing.Event(), multiprocessing.Pipe(False)
    keeps = desk.serves_many()
    asking = multiprocessing.Process(target=ask_on, daemon=True,
                                     args=(desk.port, crowd, keeps, is_over, sender))
    asking.start()
    time.sleep(0.5)
    try:
        waits = waits_of_good(desk, f"good-{crowd.place}", seconds, keeps)
    finally:
        is_over.set()
    told = counts.recv() if counts.poll(PATIENCE) else (0, 0)
    asking.join(PATIENCE)
    asking.kill()
    return waits, *told
