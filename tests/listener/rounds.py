"""Clients that send many requests at once beside others: rounds.py PORT DESK, with the process of a
desk on a file. The system takes long to sync what a request leaves, so a turn takes longer than its
share of the time of a round, and ends after one message. Prints what is wrong, and ends with status
1 then."""
import os
import re
import signal
import subprocess
import sys
import tempfile
import time

from histories import Client, put

CLIENTS, REQUESTS = 20, 40
# The microseconds that the system takes more for a sync: twice the share of one of these clients.
TAKES = 2_000
REPLIES = r'^\d+ +(?:write|sendto)\(\d+, "HTTP/1\.1 .* = (\d+)$'
NOBODY = '{"promote":{"service":"nobody"}}'


def sizes_in(calls):
    """How many bytes of replies each call sent, by the file of a tracer."""
    with open(calls, encoding="utf-8", errors="replace") as found:
        return [int(it) for it in re.findall(REPLIES, found.read(), re.M)]


def main():
    port, desk = int(sys.argv[1]), int(sys.argv[2])
    clients = [Client(port) for _ in range(CLIENTS)]
    for at, client in enumerate(clients):
        client.ask(put(f"c{at}", 1, NOBODY))
        length = len(client.got)
    with tempfile.NamedTemporaryFile(delete=False) as calls:
        words = ["strace", "-f", "-o", calls.name, "-e", "trace=write,sendto,fsync,fdatasync",
                 "-e", f"inject=fsync,fdatasync:delay_enter={TAKES}", "-p", str(desk)]
    with subprocess.Popen(words, stderr=subprocess.PIPE) as tracer:
        if b"attached" not in tracer.stderr.readline():
            sys.exit("strace does not attach to the desk")
        os.kill(desk, signal.SIGSTOP)
        time.sleep(0.2)
        for at, client in enumerate(clients):
            client.got = b""
            client.begin(b"".join(put(f"c{at}", 2 + it, NOBODY) for it in range(REQUESTS)))
        os.kill(desk, signal.SIGCONT)
        for client in clients:
            while not client.is_answered(REQUESTS):
                pass
        wanted, until = CLIENTS * REQUESTS * length, time.monotonic() + 10
        # A client has the last reply before the tracer has seen the end of its call.
        while sum(sizes_in(calls.name)) < wanted and time.monotonic() < until:
            time.sleep(0.05)
        tracer.send_signal(signal.SIGINT)
        tracer.communicate()
    sizes = sizes_in(calls.name)
    os.unlink(calls.name)
    if sum(sizes) != wanted:
        sys.exit(f"{sum(sizes)} bytes of replies in place of {wanted}")
    # The last clients share the time among fewer, so some turns have more than one.
    if 2 * len(sizes) < CLIENTS * REQUESTS:
        sys.exit(f"{CLIENTS * REQUESTS} requests of {CLIENTS} clients took {len(sizes)} turns")


try:
    main()
except TimeoutError:
    sys.exit("late: no reply in time")
