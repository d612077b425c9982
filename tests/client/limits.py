"""Defaults, limits and spellings that a call has to keep to the number: parts of client.py."""
import concurrent.futures
import re
import socket
import subprocess
import time

from journals import records
from replies import reply
from reports import NOT_IN_TIME
from sends import HEADER
from strangers import JSON, serving, silent_after
from world import (
    DONE, FOREIGN, LOST, NO_DESK, PENDING, REFUSED, STARTED, UNREACHABLE, add, answering, ask,
    environment, expect, free_port, process, shows, soonest, timed, want, want_all_said,
)

OK = shows("web", *STARTED)
# Milliseconds between ten messages: they double up to five seconds.
PAUSES = [100, 200, 400, 800, 1600, 3200, 5000, 5000, 5000]
# The calls by which a program connects, and by which it sleeps; neither comes to anything here.
CALLS = "trace=socket,connect,nanosleep,clock_nanosleep"
WITHOUT_PAUSES = "inject=nanosleep,clock_nanosleep:retval=0"
# How each fault of this machine is shown (docs/CLIENT.md), beside the call that has it.
HINDERED = "this machine cannot connect, and tries again: "
OWN = [("socket", "EMFILE", "no file descriptor is left (EMFILE or ENFILE)"),
       ("socket", "ENFILE", "no file descriptor is left (EMFILE or ENFILE)"),
       ("socket", "ENOBUFS", "no memory is left for a connection (ENOMEM or ENOBUFS)"),
       ("socket", "EAFNOSUPPORT", "the protocol is not there, as IPv6 (EAFNOSUPPORT)"),
       ("connect", "EADDRNOTAVAIL", "no local port or address is left (EADDRNOTAVAIL)"),
       ("connect", "EPERM", "the connection is not permitted (EPERM or EACCES)"),
       ("connect", "EACCES", "the connection is not permitted (EPERM or EACCES)"),
       ("connect", "ENETUNREACH", "no way leads to the network (ENETUNREACH or ENETDOWN)")]


def run_without_network(world, place, words, call="connect", fault="ECONNREFUSED"):
    """How a call ends whose messages go nowhere and whose pauses are over at once, to which
    addresses it connects, and how many milliseconds it pauses."""
    log = place / "calls"
    without = ["-e", CALLS, "-e", f"inject={call}:error={fault}", "-e", WITHOUT_PAUSES]
    with process(["strace", "-f", "-o", str(log), *without, world.program, *words],
                 cwd=place, env=environment(), stdin=subprocess.DEVNULL, stdout=subprocess.PIPE,
                 stderr=subprocess.PIPE) as client:
        output, errors = client.communicate(timeout=60)
    told = log.read_text(encoding="utf-8")
    connected = [f"{address}:{port}" for port, address in re.findall(
        r'connect\(.*sin_port=htons\((\d+)\), sin_addr=inet_addr\("([0-9.]+)"\)', told)]
    slept = [int(seconds) * 1000 + int(rest) // 1_000_000 for seconds, rest in re.findall(
        r"sleep\(.*?\{tv_sec=(\d+), tv_nsec=(\d+)\}", told)]
    return client.returncode, output.decode(), errors.decode(), connected, slept


def try_defaults(world):
    """Without options and variables each call sends ten messages to 127.0.0.1:8080, after pauses
    that double up to five seconds; with --tries as many as that says."""
    place = world.place("defaults")
    (place / "rows.csv").write_text(HEADER + "agent,1,web,1,m,1,5,5,\n")
    asks = ["do", "--as", "ops", "--journal", "ops.journal"]
    for words in (["get", "web"], ["watch", "web"], ["due", "web"], ["send", "rows.csv"],
                  [*asks, "promote", "web"]):
        for tries in ([], ["--tries", "7"], ["--tries", "1"]):
            (place / "ops.journal").write_bytes(
                records([{"begun": {"caller": "ops", "settled": 0}}]) + b"-")
            count = int(tries[1]) if tries else 10
            status, output, errors, connected, slept = run_without_network(
                world, place, [words[0], *tries, *words[1:]])
            row = f"{words} {tries}"
            expect(row, (status, output), (PENDING, ""))
            expect(f"{row}: what it said", errors.count(UNREACHABLE), count - 1)
            expect(f"{row}: messages", connected, ["127.0.0.1:8080"] * count)
            expect(f"{row}: pauses", slept, PAUSES[:count - 1])


def try_hindered(world):
    """This machine cannot begin a connection: a call says so, and not that nobody answers there. It
    tries again, and no answer came."""
    place = world.place("hindered")
    for call, fault, text in OWN:
        status, output, errors, _, slept = run_without_network(
            world, place, ["get", "--tries", "3", "web"], call, fault)
        expect(fault, (status, output), (PENDING, ""))
        expect(f"{fault}: what it said", errors.splitlines(),
               [f"canary: {HINDERED}{text}"] * 2 + [f"canary: {NO_DESK}"])
        expect(f"{fault}: pauses", slept, PAUSES[:2])
    return f"{len(OWN)} errors"


def field_lines(count):
    """So many fields of a head."""
    return "".join(f"X-{at}: y\r\n" for at in range(count))


def try_spellings(world):
    """The length of a reply counts in whatever case its name is written, and so does a head of 64
    fields; one of 65 is no desk's."""
    place = world.place("spellings")
    whole = reply(200, OK, JSON)
    length = b"Content-Length: "
    for row, sent in (("lower case", whole.replace(length, b"content-length: ")),
                      ("upper case", whole.replace(length, b"CONTENT-LENGTH: ")),
                      ("no space", whole.replace(length, b"content-length:")),
                      ("two spaces and a tab", whole.replace(length, b"content-length: \t ")),
                      ("9 fields", reply(200, OK, field_lines(8))),
                      ("64 fields", reply(200, OK, field_lines(63)))):
        with serving(sent) as port:
            want(row, world.run(["get", "--desk", f"127.0.0.1:{port}", "--tries", "1", "web"],
                                place), DONE, OK + "\n")
    with serving(reply(200, OK, field_lines(64))) as port:
        found = world.run(["get", "--desk", f"127.0.0.1:{port}", "--tries", "2", "web"], place)
        want_all_said("65 fields", found, FOREIGN, NO_DESK)
        expect("65 fields", (found.status, found.output), (PENDING, ""))


def in_two_pieces(whole, first):
    """A server whose reply comes in two pieces, of which the first has so many bytes."""
    def answer(client):
        client.recv(65536)
        client.sendall(whole[:first])
        time.sleep(.2)
        client.sendall(whole[first:])
    return answering(answer)


def try_longest_heads(world):
    """A head of 16,384 bytes is one, and one of a byte more is no desk's, in whatever pieces it
    comes."""
    place = world.place("longest-heads")
    front = reply(200, OK, JSON + "X: ").partition(b"X: ")[0]
    room = 16_384 - len(reply(200, OK, JSON + "X: \r\n")) + len(OK)
    for more, status, output in ((0, DONE, OK + "\n"), (1, PENDING, ""), (16_384, PENDING, "")):
        whole = reply(200, OK, f"{JSON}X: {'x' * (room + more)}\r\n")
        expect(more, whole.index(b"\r\n\r\n") + 4, 16_384 + more)
        for first in (len(whole), len(front), 16_384):
            with in_two_pieces(whole, first) as port:
                found = world.run(["get", "--desk", f"127.0.0.1:{port}", "--tries", "2", "web"],
                                  place)
            expect(f"{more} {first}", (found.status, found.output), (status, output))
            want_all_said(f"{more} {first}", found,
                          *((FOREIGN, NO_DESK) if status == PENDING else ()))


def try_longest_replies(world):
    """A body of 64 MiB is waited for, and one of a byte more is no desk's."""
    place = world.place("longest-replies")
    for length, said in ((1 << 26, LOST), ((1 << 26) + 1, FOREIGN)):
        with serving(b"HTTP/1.1 200 OK\r\nContent-Length: %d\r\n\r\n{" % length) as port:
            found = world.run(["get", "--desk", f"127.0.0.1:{port}", "--tries", "2", "web"], place)
            want_all_said(length, found, said, NO_DESK)
            expect(length, (found.status, found.output), (PENDING, ""))


def try_addresses(world):
    """An address of IPv6 is one, with brackets around it."""
    place = world.place("addresses")
    found = world.run(["get", "--desk", f"[::1]:{free_port()}", "--tries", "2", "web"], place)
    want_all_said("nobody", found, UNREACHABLE, NO_DESK)
    expect("nobody", (found.status, found.output), (PENDING, ""))
    try:
        server = socket.create_server(("::1", 0), family=socket.AF_INET6)
    except OSError:
        return "passed, without IPv6"
    with server, concurrent.futures.ThreadPoolExecutor(1) as pool:
        def answer():
            with server.accept()[0] as client:
                client.recv(65536)
                client.sendall(reply(200, OK, JSON))
        answered = pool.submit(answer)
        want("a server", world.run(
            ["get", "--desk", f"[::1]:{server.getsockname()[1]}", "--tries", "1", "web"], place),
            DONE, OK + "\n")
        answered.result(20)
    return None


def stalling_first(desk):
    """A server before a desk that never answers the first message."""
    come = []

    def answer(client):
        come.append(client.recv(65536))
        if len(come) == 1:
            client.recv(1)
        else:
            client.sendall(ask(desk.port, come[-1]))
    return answering(answer)


def try_default_times(world):
    """Without --timeout a reply is waited for five seconds. So it is by `watch` and `due --wait`,
    whose --timeout is that of the whole call: a stalled reply does not take all of it."""
    with world.desk("default-times") as desk:
        add(desk)
        rows = ((["get", "--tries", "1", "web"], PENDING, silent_after()),
                (["watch", "--timeout", "60", "--until", "Paused", "web"], DONE,
                 stalling_first(desk)),
                (["due", "--wait", "--timeout", "60", "web"], REFUSED, stalling_first(desk)))

        def run(words, status, server):
            with server as port:
                found = timed(words, 4.9, 15, lambda: world.run(
                    [words[0], "--desk", f"127.0.0.1:{port}", *words[1:]], desk.folder))
                expect(words, found.status, status)

        with concurrent.futures.ThreadPoolExecutor(len(rows)) as pool:
            for row in [pool.submit(run, *row) for row in rows]:
                row.result()


def try_last_second(world):
    """A whole call ends with its last second, and not with the one after that."""
    with world.desk("last-second") as desk:
        add(desk)
        found = soonest("watch", 1.9, 2.8, lambda: desk.ask("watch", "--timeout", "2", "web"))
        want("watch", found, PENDING, "web Paused, step 1, weight 20%, version v2,"
             " waits for a promotion\n", NOT_IN_TIME)


def try_slow_calls(world):
    """A connection that takes a second has that much less for its reply. Nothing is sent or read
    without a time of its own."""
    place, log = world.place("slow-calls"), world.folder / "slow-calls" / "log"
    traced = ["strace", "-f", "-o", str(log), "-e", "trace=connect,setsockopt,sendto,recvfrom",
              "-e", "inject=connect:delay_exit=1000000"]

    def call(port):
        with process([*traced, world.program, "get", "--desk", f"127.0.0.1:{port}", "--timeout",
                      "2", "--tries", "1", "web"], cwd=place, env=environment(),
                     stdin=subprocess.DEVNULL, stdout=subprocess.PIPE,
                     stderr=subprocess.PIPE) as client:
            client.communicate(timeout=60)
            return client.returncode

    with silent_after() as port:
        expect("slow", soonest("slow", 1.9, 2.8, lambda: call(port)), PENDING)
    found = re.findall(r"SO_SNDTIMEO|SO_RCVTIMEO|sendto\(|recvfrom\(", log.read_text())
    expect("times of calls", found, ["SO_SNDTIMEO", "sendto(", "SO_RCVTIMEO", "recvfrom("])
