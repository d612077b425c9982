"""A client that sends urgent bytes (RFC 9293, section 3.8.5) among its requests: urgent.py PORT
DESK, with the desk's process. An urgent byte is not part of the stream, and a read stops before it,
though more has come: the desk has to read on. A second one, before the first was reached, would
make the first one part of the stream, so each request has one. Prints what is wrong, and ends with
status 1 then."""
import os
import signal
import socket
import sys
import time

REQUEST = b"GET /services/nobody HTTP/1.1\r\n\r\n"
SECONDS = 8


def reply(client, row):
    """The status of the next reply."""
    try:
        found = client.recv(65536)
    except TimeoutError:
        sys.exit(f"late: {row}: no reply in {SECONDS} seconds")
    return found.split(b" ")[1]


def send(client, parts):
    """Sends both parts with an urgent byte between them, each in a segment of its own."""
    for at, part in enumerate(parts):
        if at > 0:
            client.send(b"!", socket.MSG_OOB)
            time.sleep(0.002)
        client.sendall(part)
        time.sleep(0.002)


def try_parts(port, row, parts):
    with socket.create_connection(("127.0.0.1", port), SECONDS) as client:
        client.setsockopt(socket.IPPROTO_TCP, socket.TCP_NODELAY, 1)
        for turn in range(3):
            send(client, parts)
            if reply(client, f"{row}, request {turn + 1}") != b"404":
                sys.exit(f"{row}: another reply")


def try_at_once(port, stop, parts):
    """The same, while the desk stands still: it finds all of it at once."""
    row = f"{len(parts[0])} bytes, urgent, {len(parts[1])}, at once"
    with socket.create_connection(("127.0.0.1", port), SECONDS) as client:
        client.setsockopt(socket.IPPROTO_TCP, socket.TCP_NODELAY, 1)
        for turn in range(3):
            stop(True)
            send(client, parts)
            stop(False)
            if reply(client, f"{row}, request {turn + 1}") != b"404":
                sys.exit(f"{row}: another reply")


def main():
    port, desk = int(sys.argv[1]), int(sys.argv[2])

    def stop(is_stopped):
        os.kill(desk, signal.SIGSTOP if is_stopped else signal.SIGCONT)
        time.sleep(0.05)

    for parts in ([REQUEST[:9], REQUEST[9:]], [REQUEST[:20], REQUEST[20:]], [b"", REQUEST],
                  [REQUEST, b""]):
        try_at_once(port, stop, parts)
        try_parts(port, f"{len(parts[0])} bytes, urgent, {len(parts[1])}", parts)


main()
