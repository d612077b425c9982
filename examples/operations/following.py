"""What follow-haproxy, follow-nginx and notify share: the words of a call, a table of services, how
one stands by `canary watch`, how many stand by one connection, and files that are replaced."""
import contextlib
import json
import os
import re
import socket
import stat
import subprocess
import sys
import threading
import time
from typing import NamedTuple

# `canary watch` ends with this program, however that ends.
WATCH = ["setpriv", "--pdeathsig", "TERM", "canary", "watch", "--forever", "--json", "--"]
VERSION = re.compile("[A-Za-z0-9._-]{1,63}")
SERVICE = re.compile("[a-z0-9](?:[a-z0-9-]{0,61}[a-z0-9])?")
# Of a backend, an upstream or a server.
NAME = re.compile("[A-Za-z0-9._-]{1,100}")
ADDRESS = re.compile(r"(?:[0-9]{1,3}(?:\.[0-9]{1,3}){3}|\[[0-9A-Fa-f:.]{2,45}\]):([0-9]{1,5})")
# The most bytes of a line: one of `canary watch` has some hundred. And those of a table.
MAX_LINE, MAX_TABLE = 200_000, 1_000_000
# The seconds between two looks at the desk, and those that all answers of a look may take.
PERIOD, PATIENCE = .9, 5
# How many queries the desk is sent before its answers are read.
BATCH = 50
# What the head and the body of a reply may have.
MAX_HEAD, MAX_BODY = 16_384, 64 << 20
# Replies of a desk to a query that are no service.
REFUSALS = {(404, "unknown-service"), (400, "bad-name"), (503, "storage"), (503, "no-memory")}
STATUSES = ("Healthy", "Degraded", "Paused", "Progressing")
HOLDS = ("none", "step", "background", "both")
# How old the file of a report may be.
REPORT_SECONDS = 10


def stand_of(line):
    """How a service stands, with versions and a weight that are such. ValueError, KeyError or
    TypeError if it is no line of `canary watch`."""
    return checked(json.loads(line))


def checked(stand):
    """The same of its value."""
    if not (VERSION.fullmatch(stand["stable"]) and VERSION.fullmatch(stand["version"])):
        raise ValueError("no version")
    return {**stand, "weight": range(101).index(stand["weight"])}


def shares_of(line):
    """The stable version, and the share of each in percent; all of it is the stable one's if the
    release is aborted."""
    return shares_by(stand_of(line))


def shares_by(stand):
    """The same of a service that stands so."""
    stable, version = stand["stable"], stand["version"]
    weight = 0 if stand["status"] == "Degraded" else stand["weight"]
    return stable, {version: weight, stable: 100 if version == stable else 100 - weight}


def say(text):
    """Says it on standard error, if that is open and somebody reads it. What a terminal would obey,
    as in words of a proxy, is escaped."""
    shown = "".join(mark if mark.isprintable() else repr(mark)[1:-1] for mark in f"{text}")
    with contextlib.suppress(OSError, ValueError):
        print(shown, file=sys.stderr, flush=True)


def words_of(page, counts, counts_of_table=None, options=()):
    """The words and the options with which a program was called: with `--table` a word may be one
    of `options` before each file. With --help it prints its page, whose first line has the words,
    and ends; with fewer or more words it says that line, and ends with status 2."""
    words, line, found = sys.argv[1:], page.split(":")[0], {}
    if words in (["--help"], ["-h"]):
        with contextlib.suppress(OSError, AttributeError):
            print(page, flush=True)
        sys.exit()
    while counts_of_table and words[1:] and words[0] in ("--table", *options):
        found[words[0]], words = words[1], words[2:]
    least, most = counts_of_table if "--table" in found else counts
    is_option = bool(found) != ("--table" in found) or any(word[:1] == "-" for word in words[:1])
    if is_option or not least <= len(words) <= most:
        say(f"usage: {line}")
        sys.exit(2)
    return words, found


# ---- one service, by `canary watch`


def follow(service, act, read=shares_of):
    """Calls `act` with what `read` makes of the last line, each second from the first line on, and
    says what it answers, if it answers something else than before. While no desk answers, that is
    the last one. What a desk says is text from outside: only versions and weights pass."""
    watch = subprocess.Popen([*WATCH, service], stdin=subprocess.DEVNULL, stdout=subprocess.PIPE)
    os.set_blocking(watch.stdout.fileno(), False)
    stand, said, rest = None, None, b""
    while (piece := watch.stdout.read()) != b"":
        *lines, rest = (rest + (piece or b"")).split(b"\n")
        if len(rest) > MAX_LINE:
            lines, rest = [*lines, rest[:MAX_LINE]], b""
        for line in lines:
            try:
                stand = read(line)
            except (ValueError, KeyError, TypeError, RecursionError):
                say(f"no line of canary watch: {line[:200]!r}")
        try:
            told = stand and act(*stand)
        except (OSError, ValueError, subprocess.SubprocessError) as error:
            told = f"{type(error).__name__}: {error}"
        if told and told != said:
            say(told)
        said = told
        time.sleep(1)
    sys.exit("canary watch has ended")


# ---- a table of services


class Row(NamedTuple):
    """A service of a table: the name of its backend or the beginning of its upstreams' names, and
    the servers of each version, each with its address, or None. Without versions each server has a
    version as its name."""

    service: str
    backend: str
    versions: dict | None


def table_of(text):
    """The row of each service. ValueError says the line, and what is wrong with it."""
    if not text.endswith("\n"):
        raise ValueError("its last line has no end")
    table = {}
    for number, line in enumerate(text.split("\n"), 1):
        try:
            add_line(table, line)
        except ValueError as error:
            raise ValueError(f"line {number}: {error}") from error
    if not table:
        raise ValueError("it has no service")
    return table


def words_in(line):
    """The words of a line; none of a comment. ValueError if it has other marks between them than
    blanks and tabs."""
    if not line.replace("\t", " ").isprintable():
        raise ValueError("there is a control character")
    return [] if line.lstrip().startswith("#") else line.split()


def add_line(table, line):
    """Adds the version of a line to the row of its service."""
    if not (words := words_in(line)):
        return
    if len(words) < 3:
        raise ValueError("SERVICE BACKEND VERSION [SERVER[=ADDRESS]..] is wanted")
    service, backend, version, *servers = words
    for kind, form, word in (("service", SERVICE, service), ("backend", NAME, backend),
                             ("version", VERSION, version)):
        if not form.fullmatch(word):
            raise ValueError(f"{word} is no name of a {kind}")
    for row in table.values():
        if (row.service == service) != (row.backend == backend):
            raise ValueError(f"{row.service} has the backend {row.backend}")
    versions = table.setdefault(service, Row(service, backend, {})).versions
    if version in versions:
        raise ValueError(f"{service} has the version {version} twice")
    others = [name for names in versions.values() for name in names]
    versions[version] = servers_in_words(servers or [version], others)


def servers_in_words(words, others):
    """The servers of a version, each with its address, or None."""
    servers = {}
    for word in words:
        name, is_at, address = word.partition("=")
        found = ADDRESS.fullmatch(address)
        if not NAME.fullmatch(name):
            raise ValueError(f"{name} is no name of a server")
        if is_at and not (found and 1 <= int(found[1]) <= 65535):
            raise ValueError(f"{address} is no IP:PORT")
        if name in servers or name in others:
            raise ValueError(f"the server {name} stands twice")
        servers[name] = address or None
    return servers


def services_of(text):
    """The first words of a table, each once: services."""
    rows = [words_in(line) for line in text.split("\n")]
    services = {row[0]: None for row in rows if row}
    if not services or not all(map(SERVICE.fullmatch, services)):
        raise ValueError("a line has no service")
    return services


class TableFile:
    """A table in a file, which is read again once the file is another one."""

    def __init__(self, path, read):
        self.path, self.read, self.seen, self.table = path, read, None, None

    def look(self):
        """The table as it was read last, and a line that says why it is not read now, or None."""
        try:
            return self.looked(), None
        except OSError as error:
            fault = error.strerror
        except ValueError as error:
            fault = "it is not UTF-8" if isinstance(error, UnicodeError) else error
        return self.table, f"{self.path}: {fault}"

    def looked(self):
        # a FIFO that nobody writes to would not be opened otherwise
        descriptor = os.open(self.path, os.O_RDONLY | os.O_NONBLOCK | os.O_CLOEXEC)
        try:
            found = os.fstat(descriptor)
            if not stat.S_ISREG(found.st_mode):
                raise ValueError("it is no file")
            seen = (found.st_dev, found.st_ino, found.st_size, found.st_mtime_ns)
            if seen != self.seen:
                with open(descriptor, "rb", closefd=False) as file:
                    text = file.read(MAX_TABLE + 1)
                if len(text) > MAX_TABLE:
                    raise ValueError(f"it has more than {MAX_TABLE} bytes")
                self.table, self.seen = self.read(text.decode()), seen
            return self.table
        finally:
            os.close(descriptor)


# ---- many services, by one connection


class Timed:
    """A connection whose answers have to come until a moment."""

    def __init__(self, connected, until):
        self.socket, self.rest, self.until = connected, b"", until

    def wait(self):
        if (left := self.until - time.monotonic()) <= 0:
            raise TimeoutError("no whole answer in time")
        self.socket.settimeout(left)

    def send(self, message):
        self.wait()
        self.socket.sendall(message)

    def receive(self):
        """Further bytes; none at the end."""
        self.wait()
        return self.socket.recv(65536)

    def read(self):
        """Further bytes, which stand after the others."""
        if not (part := self.receive()):
            raise ConnectionError("the answer ends before its end")
        self.rest += part

    def reply(self):
        """The status and the body of a reply of HTTP/1.1, and whether it is the last one."""
        while b"\r\n\r\n" not in self.rest:
            if len(self.rest) > MAX_HEAD:
                raise ValueError("no reply of HTTP")
            self.read()
        head, _, self.rest = self.rest.partition(b"\r\n\r\n")
        first, *lines = head.decode("latin-1").split("\r\n")
        fields = [line.lower().partition(":")[::2] for line in lines]
        values = {name: value.strip() for name, value in fields}
        status = re.fullmatch(r"HTTP/1\.1 ([1-5][0-9]{2})(?: .*)?", first)
        length = values.get("content-length", "")
        if not status or len(values) < len(fields) or "transfer-encoding" in values \
                or not re.fullmatch("[0-9]{1,8}", length) or int(length) > MAX_BODY:
            raise ValueError("no reply of HTTP")
        return int(status[1]), self.body(int(length)), "close" in values.get("connection", "")

    def body(self, length):
        """So many bytes; of a long body its end."""
        while len(self.rest) < length:
            if (more := len(self.rest) - MAX_LINE) > 0:
                self.rest, length = self.rest[more:], length - more
            self.read()
        found, self.rest = self.rest[:length], self.rest[length:]
        return found


def place_of(text):
    """The host and the port of HOST:PORT. ValueError if it has none."""
    host, _, port = text.rpartition(":")
    if not host or not re.fullmatch("[0-9]{1,5}", port) or not 1 <= int(port) <= 65535:
        raise ValueError(f"{text} is no HOST:PORT")
    return host.removeprefix("[").removesuffix("]"), int(port)


class Web:
    """A server of HTTP/1.1, by a connection that stays open."""

    def __init__(self, text):
        self.name, self.place, self.open = text, place_of(text), None

    def ask(self, paths):
        """The status and the body for each path, as far as it answers, and why not further, or
        None. It is asked again by another connection if one ends that had answered before."""
        found, until = [], time.monotonic() + PATIENCE
        while len(found) < len(paths):
            is_kept, before = self.open is not None, len(found)
            try:
                if not is_kept:
                    self.open = Timed(socket.create_connection(self.place, PATIENCE), until)
                self.open.until = until
                self.exchange(paths[before:before + BATCH], found)
            except (OSError, ValueError) as error:
                self.close()
                if len(found) == before and not is_kept:
                    return found, error
        return found, None

    def exchange(self, paths, found):
        heads = [f"GET {path} HTTP/1.1\r\nHost: {self.name}\r\n\r\n" for path in paths]
        self.open.send("".join(heads).encode())
        for _ in paths:
            status, body, is_last = self.open.reply()
            found.append((status, body))
            if is_last:
                return self.close()
        return None

    def close(self):
        if self.open is not None:
            self.open.socket.close()
            self.open = None


def stand_in(service, status, body):
    """How the service stands by such a reply. ValueError, KeyError or TypeError if it does not say
    so."""
    value = json.loads(body)
    if (status, value["code"]) in REFUSALS:
        raise ValueError(f"the desk answers {status} {value['code']}")
    if status != 200 or value["code"] != "ok" or value["service"] != service \
            or value["status"] not in STATUSES or value["hold"] not in HOLDS \
            or not isinstance(value["step"], int):
        raise ValueError("this is no reply of a desk")
    return checked(value)


class Desk(Web):
    """The desk at CANARY_DESK."""

    def __init__(self):
        super().__init__(os.environ.get("CANARY_DESK") or "127.0.0.1:8080")

    def look(self, services):
        """How each service stands of which the desk says so, and lines that say why it does not
        say so of others, in no word of its own."""
        found, fault = self.ask([f"/services/{service}" for service in services])
        stands, told = {}, []
        for service, (status, body) in zip(services, found):
            try:
                stands[service] = stand_in(service, status, body)
            except (ValueError, KeyError, TypeError, RecursionError) as error:
                is_told = f"{error}".startswith("the desk answers ")
                told.append(f"{service}: {error if is_told else 'this is no reply of a desk'}")
        if fault:
            told.append(f"the desk {self.name}: {getattr(fault, 'strerror', None) or fault}")
        return stands, told


class Looking(threading.Thread):
    """Looks at the services of a table time and again. The router has its weights also while a desk
    takes its time."""

    def __init__(self, services, look):
        super().__init__(daemon=True)
        self.services, self.look, self.looked = [*services], look, threading.Event()
        # How each stands, the moment since 1970 at which the desk said so, and what went wrong.
        self.stands, self.moments, self.told = {}, {}, []

    def run(self):
        try:
            while True:
                begun = time.monotonic()
                stands, self.told = self.look(self.services)
                self.stands = {**self.stands, **stands}
                self.moments = {**self.moments, **dict.fromkeys(stands, time.time())}
                self.looked.set()
                time.sleep(max(0, begun + PERIOD - time.monotonic()))
        except Exception as error:  # pylint: disable=broad-exception-caught
            say(f"{type(error).__name__}: {error}")
        finally:
            # nobody would look any more
            os._exit(1)


def follow_table(options, read, act, look=None):
    """Calls `act` about once a second with the table, how its services stand, and when the desk
    said so; and says each line that it answers, and did not the time before. It ends with status 2
    if there is no table at first; later it goes on with the last one."""
    file = TableFile(options["--table"], read)
    table, fault = file.look()
    if fault:
        say(fault)
        sys.exit(2)
    looking, said = Looking(table, look or desk_or_end().look), []
    looking.start()
    while True:
        table, fault = file.look()
        looking.services = [*table]
        told = [*([fault] if fault else []), *looking.told]
        try:
            told += act(table, looking.stands, looking.moments)
        except (OSError, ValueError, subprocess.SubprocessError) as error:
            told.append(f"{type(error).__name__}: {error}")
        told += touch(options.get("--health"))
        for line in told:
            if line not in said:
                say(line)
        said = told
        looking.looked.wait(1)
        looking.looked.clear()


def desk_or_end(kind=Desk):
    """The desk; this ends with status 2 if CANARY_DESK is no HOST:PORT."""
    try:
        return kind()
    except ValueError as error:
        say(f"CANARY_DESK: {error}")
        sys.exit(2)


# ---- files


def put_whole(path, text, mode=0o644):
    """The file has this text, or what it had: a link or a FIFO of its name is replaced, and what
    has the name of its part is not written to. OSError if it is a folder, or cannot be written."""
    part = f"{path}.part"
    with contextlib.suppress(FileNotFoundError):
        os.remove(part)
    try:
        with open(part, "x", encoding="utf-8") as new:
            new.write(text)
            new.flush()
            os.fchmod(new.fileno(), mode)
            os.fsync(new.fileno())
        os.replace(part, path)
    except OSError:
        with contextlib.suppress(OSError):
            os.remove(part)
        raise


def touch(path):
    """Touches the file of the watchdog, if there is to be one: makes it for its owner alone, or
    gives it the present time. A line that says that it cannot."""
    if path is None:
        return []
    try:
        if not os.path.lexists(path):
            os.close(os.open(path, os.O_WRONLY | os.O_CREAT | os.O_EXCL | os.O_CLOEXEC, 0o600))
        if not stat.S_ISREG(os.lstat(path).st_mode):
            return [f"{path}: it is no file"]
        os.utime(path, follow_symlinks=False)
        return []
    except OSError as error:
        return [f"{path}: {error.strerror}"]


FAMILIES = {
    "canary_router_weight_percent":
        "The share of requests of a version by the weights that the router said it has.",
    "canary_router_server_weight": "The weight that the router said a server has.",
    "canary_router_server_up": "Whether the router said that it sends a server requests.",
    "canary_router_desk_seconds": "When the desk last said how a service stands, since 1970.",
}


class Report:
    """A file for the textfile collector of node_exporter. All samples are gauges."""

    def __init__(self, path):
        self.path, self.written, self.until = path, None, 0

    def write(self, samples):
        """Writes samples, each with its family and its labels, if they differ from those that the
        file has, or if it would be too old. Names of a table, versions and numbers need no
        escape."""
        without_time = [sample for sample in samples if "seconds" not in sample[0]]
        if self.path is None or (self.written == without_time and time.monotonic() < self.until):
            return
        lines = []
        for family, text in FAMILIES.items():
            lines += [f"# HELP {family} {text}", f"# TYPE {family} gauge"]
            for _, labels, value in filter(lambda sample: sample[0] == family, samples):
                shown = ",".join(f'{name}="{value}"' for name, value in labels.items())
                lines.append(f"{family}{{{shown}}} {value:.12g}")
        put_whole(self.path, "\n".join(lines) + "\n")
        self.written, self.until = without_time, time.monotonic() + REPORT_SECONDS


def samples_of(row, weights, stand, moment):
    """The samples of a service: the share of each version by the sums of its servers' weights, also
    of those that the desk names and the router does not have."""
    versions = dict.fromkeys([*weights, *((stand["version"], stand["stable"]) if stand else ())], 0)
    versions.update(weights)
    whole = sum(versions.values()) or 1
    return [*(("canary_router_weight_percent", {"service": row.service, "version": version},
               100 * weight / whole) for version, weight in versions.items()),
            ("canary_router_desk_seconds", {"service": row.service}, moment)]
