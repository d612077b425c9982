"""A proxy between a client and a desk that loses, repeats late and cuts: chaos.py PORT SEED.

It prints the port on which it listens. By a die with that seed it loses a request before it comes
to the desk at PORT, loses the reply, gives the request to the desk again some time later, cuts the
reply short, or passes both. At the end of its standard input it waits until nothing is under way
any more, and says what it did: how many messages came, and what became of them."""
import collections
import random
import socket
import sys
import threading
import time

LOST, UNANSWERED, REPEATED, CUT = .2, .45, .6, .7
counts = collections.Counter()
under_way = set()


def read_message(stream):
    """A whole message, or what came of it before the stream ended."""
    stream.settimeout(10)
    data = b""
    while b"\r\n\r\n" not in data:
        piece = stream.recv(65536)
        if not piece:
            return data
        data += piece
    head, body = data.split(b"\r\n\r\n", 1)
    length = 0
    for line in head.split(b"\r\n"):
        if line.lower().startswith(b"content-length:"):
            length = int(line.split(b":")[1])
    while len(body) < length and (piece := stream.recv(65536)):
        body += piece
    return head + b"\r\n\r\n" + body


def ask(port, message):
    """The reply of the desk, or nothing."""
    try:
        with socket.create_connection(("127.0.0.1", port), 10) as desk:
            desk.sendall(message)
            return read_message(desk)
    except OSError:
        return b""


def ask_later(port, message, seconds):
    time.sleep(seconds)
    counts["came late"] += ask(port, message) != b""


def pass_on(port, client, roll, die):
    """What becomes of one message, by the number that was rolled."""
    message = read_message(client)
    counts["messages"] += 1
    if not message or roll < LOST:
        counts["lost"] += 1
        return
    reply = ask(port, message)
    if roll < UNANSWERED:
        counts["unanswered"] += 1
        return
    if roll < REPEATED:
        for _ in range(die.randint(1, 3)):
            begin(ask_later, port, message, die.random() * 3)
    elif roll < CUT:
        counts["cut"] += 1
        reply = reply[:die.randint(0, 60)]
    client.sendall(reply)


def serve(port, client, roll, die):
    with client:
        try:
            pass_on(port, client, roll, die)
        except OSError:
            pass


def begin(function, *words):
    def run():
        try:
            function(*words)
        finally:
            under_way.discard(threading.current_thread())

    thread = threading.Thread(target=run, daemon=True)
    under_way.add(thread)
    thread.start()


def take_all(server, port, die):
    while True:
        client, _ = server.accept()
        begin(serve, port, client, die.random(), die)


def main(port, seed):
    with socket.create_server(("127.0.0.1", 0), backlog=64) as server:
        print(server.getsockname()[1], flush=True)
        taking = threading.Thread(target=take_all, args=(server, port, random.Random(seed)),
                                  daemon=True)
        taking.start()
        sys.stdin.read()
        while under_way:
            time.sleep(.05)
    print(", ".join(f"{count} {name}" for name, count in sorted(counts.items())), flush=True)


main(int(sys.argv[1]), int(sys.argv[2]))
