"""The story as one client sends it to a desk that listens, of which one allocation may be refused:
a part of refused.py."""
import re
import socket
import subprocess
import time

from story_tables import tables_of
from story_words import STORY, B, Wrong, answer, command, expect, put

NO_MEMORY = answer("503 no-memory")
OUT_OF_MEMORY = b"canary: memory\n"
LISTENING = re.compile(rb"listening 127\.0\.0\.1:(\d+)\n")


def story_now():
    """The requests of the story, each with its reply; what is measured is measured now."""
    for told, wanted in STORY:
        caller, number, asked = told.split(" ", 2)
        body = command(asked).replace(str(B).encode(), str(int(time.time())).encode())
        yield put(caller, number, body), answer(wanted)


def is_whole(found):
    """Whether these are the bytes of a reply, to its end."""
    head, end, body = found.partition(b"\r\n\r\n")
    length = re.search(rb"Content-Length: (\d+)", head)
    return end != b"" and length is not None and len(body) >= int(length[1])


class Client:
    """A client that connects anew if its connection is lost before the first reply on it, which may
    happen once if an allocation is refused, as may one 503 in place of that."""

    def __init__(self, row, port, may_lose):
        self.row, self.port, self.may_lose = row, port, may_lose
        self.connect()

    def connect(self):
        self.stream = socket.create_connection(("127.0.0.1", self.port), timeout=30)
        self.replies = 0

    def lose(self, what):
        if not self.may_lose:
            raise Wrong(f"{self.row}: {what}")
        self.may_lose = False

    def told(self, message):
        """The bytes of the reply to a message, as far as they come."""
        found = b""
        try:
            self.stream.sendall(message)
            while not is_whole(found) and (some := self.stream.recv(1 << 14)):
                found += some
        except ConnectionError:
            pass
        except TimeoutError:
            raise Wrong(f"{self.row}: no reply comes, only {found!r}") from None
        return found

    def ask(self, message, wanted):
        found = self.told(message)
        if found == b"" and self.replies == 0:
            self.lose("the connection was lost")
            self.stream.close()
            self.connect()
            found = self.told(message)
        elif found == NO_MEMORY:
            self.lose("a second refusal, or one without a cause")
            found = self.told(message)
        expect(self.row, found, wanted)
        self.replies += 1


def at_story_moment(value, first, last):
    """A value of a row, with the moments of the conversation put at that of the story."""
    if isinstance(value, int) and first <= value <= last:
        return B
    if isinstance(value, str):
        return re.sub(r"\b\d{10}\b", lambda found: str(at_story_moment(int(found[0]), first, last)),
                      value)
    return value


def converse_with_desk(row, program, file, environment, may_refuse):
    """Sends the story to a desk on this file, and kills the desk. The tables that it leaves, with
    their moments at that of the story; none if the desk ended for memory before it listened."""
    begun = int(time.time())
    desk = subprocess.Popen([program, "serve", "--listen", "127.0.0.1:0", "--db", file],
                            stdin=subprocess.DEVNULL, stdout=subprocess.PIPE,
                            stderr=subprocess.PIPE, env=environment)
    try:
        line = desk.stdout.readline()
        if line == b"" and may_refuse:
            _, errors = desk.communicate(timeout=30)
            expect(row, (desk.returncode, errors), (1, OUT_OF_MEMORY))
            return None
        listening = LISTENING.fullmatch(line)
        if listening is None:
            raise Wrong(f"{row}: it says {line!r}")
        client = Client(row, int(listening[1]), may_refuse)
        for message, wanted in story_now():
            client.ask(message, wanted)
        client.stream.close()
        expect(f"{row}: the desk's end", desk.poll(), None)
    finally:
        desk.kill()
        desk.communicate()
    last = int(time.time())
    return {name: [tuple(at_story_moment(value, begun, last) for value in found) for found in rows]
            for name, rows in tables_of(file).items()}
