"""What gdb runs for tests/trace/run: `gdb -x stops.py PROGRAM`. It starts the program as a desk,
makes a service of it that stands at a pause, and stops at each function of the crates once while it
answers a Promote. It writes the symbols of the functions to the file TRACE_TO, a line each.

The desk is stopped each time that it begins to wait for clients. Only there this sends something,
so what the desk calls until it waits again is the way of what was sent, and of nothing else. To set
the stops takes longer than a second. So a repeat goes before the Promote, and has the desk do what
it does once a second; its stops are set again, which takes no time."""
import contextlib
import errno
import json
import os
import re
import socket

import gdb

WORK, PROGRAM, TO = (os.environ[name] for name in ("TRACE_WORK", "TRACE_PROGRAM", "TRACE_TO"))
WAITS = "epoll_wait epoll_pwait"
# A line of `info functions` about a function with no debugging symbols.
SYMBOL = re.compile(r"^(0x[0-9a-f]+)  (\S.*)$", re.MULTILINE)
STEPS = [{"setWeight": 20}, {"pause": {}}, {"setWeight": 50}, {"pause": {}}]
SERVICE = {"metadata": {"name": "web"}, "spec": {"strategy": {"canary": {"steps": STEPS}}}}
COMMANDS = [{"service": {"manifest": SERVICE, "version": "v1"}},
            {"start": {"service": "web", "version": "v2"}},
            {"promote": {"service": "web"}}]
INT3 = b"\xcc"


def request(number, command):
    body = json.dumps(command)
    head = f"PUT /callers/ops/requests/{number} HTTP/1.1\r\nContent-Length: {len(body)}\r\n\r\n"
    return (head + body).encode()


def is_waiting():
    """Whether the desk has stopped as a call of the system begins, and not as it returns."""
    return int(gdb.parse_and_eval("$rax")) == -errno.ENOSYS


class Stops:
    """A stop at the first call of each function. gdb takes minutes to set so many, so each one
    is the instruction `int3` in the place of a first byte, until it is met."""

    def __init__(self, functions):
        self.desk = gdb.selected_inferior()
        self.symbols = functions
        self.bytes = {}
        self.called = []
        for address in functions:
            self.bytes[address] = bytes(self.desk.read_memory(address, 1))
            self.desk.write_memory(address, INT3)

    def meet(self):
        """The desk stands after such an instruction: it goes on from where it stood. Whether it
        does."""
        address = int(gdb.parse_and_eval("$pc")) - len(INT3)
        if address not in self.bytes:
            return False
        self.called.append(self.symbols[address])
        self.desk.write_memory(address, self.bytes.pop(address))
        gdb.execute(f"set $pc = {address}")
        return True

    def set_again(self):
        """Sets those stops again that were met."""
        met = self.symbols.keys() - self.bytes.keys()
        for address in met:
            self.bytes[address] = bytes(self.desk.read_memory(address, 1))
            self.desk.write_memory(address, INT3)
        self.called = []


def go_on(stops):
    """The desk runs until it begins to wait."""
    gdb.execute("continue")
    while stops.meet() or not is_waiting():
        gdb.execute("continue")


def status_of(client, stops):
    """The status of the next reply, for which the desk runs."""
    held = b""
    while not held:
        go_on(stops)
        with contextlib.suppress(BlockingIOError):
            held = client.recv(65536)
    return held.split(b" ")[1]


def settle(client, stops, number, command):
    """Sends a request, and waits for its reply."""
    client.sendall(request(number, command))
    if status_of(client, stops) != b"200":
        raise gdb.GdbError(f"the desk refuses {command}")


def functions():
    """The symbols of the functions of all crates, by their addresses."""
    listed = gdb.execute("info functions ^canary_", to_string=True)
    return {int(address, 16): symbol for address, symbol in SYMBOL.findall(listed)}


def main():
    gdb.execute(f"file {PROGRAM}", to_string=True)
    for setting in ("pagination off", "confirm off", "width 0"):
        gdb.execute(f"set {setting}")
    gdb.execute(f"catch syscall {WAITS}", to_string=True)
    told = f"{WORK}/told"
    gdb.execute(f"run serve --listen 127.0.0.1:0 --db {WORK}/desk.db > {told} < /dev/null",
                to_string=True)
    with open(told, encoding="utf-8") as lines:
        port = int(lines.read().split(":")[1])
    client = socket.create_connection(("127.0.0.1", port))
    client.setblocking(False)
    stops = Stops({})
    for number, command in enumerate(COMMANDS, 1):
        if command is COMMANDS[-1]:
            # What came before the last command is not its way.
            stops = Stops(functions())
            settle(client, stops, number - 1, COMMANDS[-2])
            stops.set_again()
        settle(client, stops, number, command)
    with open(TO, "w", encoding="utf-8") as file:
        file.write("".join(f"{symbol}\n" for symbol in stops.called))
    gdb.execute("kill", to_string=True)


main()
