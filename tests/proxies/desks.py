"""Several desks behind HAProxy, by examples/operations/desks.haproxy.cfg: a part of proxies.py."""
import concurrent.futures
import contextlib
import http.client
import json
import random
import threading
import time

from parts import OPERATIONS, HAProxy, filled
from world import (
    ABORTED, ADDED, ENDED, PROMOTED, STARTED, Late, Wrong, expect, free_port, shows, two_pauses,
    wait_until,
)

GROUPS = ("shop", "pay", "mail", "edge")
NOBODY = (421, "no desk has this name\n")


def long_manifest(name, length):
    """A service with two pauses, whose name stands behind so long a note: HAProxy has to see it."""
    note = {"annotations": {"note": "x" * length}}
    return {**two_pauses(name), "metadata": {**note, "name": name}}


class Group:
    """The caller and the service of a group, and what a desk that has this group alone answers, by
    the rules of docs/API.md."""

    def __init__(self, name, seed):
        self.caller, self.service = f"{name}-ops", f"{name}-web"
        self.others = [other for other in GROUPS if other != name]
        self.random = random.Random(f"{name} {seed}")
        self.settled, self.place, self.version, self.stable = [], None, "v0", "v0"

    def next(self):
        """The method, the path and the command of the next request, and the reply to it. The status
        of a service has a moment, which is left out."""
        kind = self.random.choice(("new",) * 6 + ("kept", "reused", "ahead", "get", "get", "none"))
        if kind == "new" or not self.settled:
            command, reply = self.new_command()
            self.settled.append((command, reply))
            return self.put(len(self.settled), command, reply)
        if kind == "get":
            return "GET", f"/services/{self.service}", None, (200, self.stands())
        if kind == "none":
            return self.random.choice(self.nobodys())
        return self.old(kind)

    def put(self, number, command, reply):
        return "PUT", f"/callers/{self.caller}/requests/{number}", command, reply

    def old(self, kind):
        """A request under a number that is not the next one."""
        if kind == "ahead":
            count = len(self.settled)
            return self.put(count + 2, {"tick": {"service": self.service}},
                            (409, f'{{"code":"ahead","expected":{count + 1}}}'))
        number = self.random.randrange(len(self.settled))
        command, reply = self.settled[number]
        if kind == "reused":
            command, reply = {"retry": {"service": "other"}}, (409, '{"code":"reused"}')
        return self.put(number + 1, command, reply)

    def nobodys(self):
        """What no desk has, or not this one."""
        other = self.random.choice(self.others)
        added = {"service": {"version": "v0", "manifest": long_manifest(f"{other}-new", 40000)}}
        return [
            ("GET", f"/services/{self.service}-2", None, (404, '{"code":"unknown-service"}')),
            ("GET", "/services/other-web", None, NOBODY),
            ("PUT", "/callers/other-ops/requests/1", added, NOBODY),
            self.put(len(self.settled) + 1, added, NOBODY),
            ("GET", "/", None, NOBODY),
        ]

    def new_command(self):
        """The next command, and the reply to it."""
        if self.place is None:
            return self.adds()
        kind = self.random.choice(("start", "start", "promote", "promote", "promoteFull", "abort",
                                   "retry", "tick", "other"))
        if kind == "other":
            # one of another group, which this desk does not have
            other = self.random.choice(self.others)
            return {"promote": {"service": f"{other}-web"}}, (422, '{"code":"unknown-service"}')
        command = {kind: {"service": self.service}}
        if kind == "start":
            command[kind]["version"] = f"v{self.random.randrange(1000)}"
        code = self.code_of(kind, command[kind].get("version"))
        if code:
            return command, (422, f'{{"code":"{code}"}}')
        self.act(kind, command[kind].get("version"))
        return command, (200, shows(self.service, *self.place))

    def adds(self):
        self.place = ADDED
        manifest = long_manifest(self.service, 60000)
        return ({"service": {"version": "v0", "manifest": manifest}},
                (200, shows(self.service, *self.place)))

    def code_of(self, kind, version):
        """The code by which the rules refuse the command, or none."""
        is_done, is_aborted = self.place[0] == "Healthy", self.place[0] == "Degraded"
        if kind == "start":
            if is_done:
                return "already-stable" if version == self.stable else None
            return None if is_aborted else "in-progress"
        if kind == "retry":
            return None if is_aborted else "not-aborted"
        if kind == "tick":
            return None
        return "not-in-progress" if is_done or is_aborted else None

    def act(self, kind, version):
        """What the command does to a service with two pauses without an end."""
        if kind in ("start", "retry"):
            self.place, self.version = STARTED, version or self.version
            if version == self.stable:
                self.place = ENDED
        elif kind == "promoteFull" or kind == "promote" and self.place == PROMOTED:
            self.place, self.stable = ENDED, self.version
        elif kind == "promote":
            self.place = PROMOTED
        elif kind == "abort":
            self.place = (ABORTED[0], self.place[1], ABORTED[2])

    def stands(self):
        """The reply to the query of the service, without its moment."""
        status, step, weight = self.place
        return {"code": "ok", "hold": "none", "open": [], "runs": 0, "service": self.service,
                "stable": self.stable, "status": status, "step": step, "version": self.version,
                "weight": weight}


class Sender:
    """Sends the requests of a group, each until a desk answers."""

    def __init__(self, group, port):
        self.group, self.port, self.connection = group, port, None
        self.sent = self.again = 0
        self.slowest = 0.0
        # What was sent, and the reply to it.
        self.exchanges = []

    def ask(self, method, path, command):
        """The status and the body of the reply; 503 if there is none."""
        if self.connection is None:
            self.connection = http.client.HTTPConnection("127.0.0.1", self.port, timeout=30)
        try:
            self.connection.request(method, path, None if command is None else json.dumps(command))
            reply = self.connection.getresponse()
            return reply.status, reply.read().decode()
        except (OSError, http.client.HTTPException):
            self.connection.close()
            self.connection = None
            return 503, ""

    def send(self, count, is_over):
        """So many requests, and further ones until it is over."""
        while self.sent < count or not is_over.is_set():
            method, path, command, wanted = self.group.next()
            begun = time.monotonic()
            while (found := self.ask(method, path, command))[0] in (502, 503, 504):
                self.again += 1
                if time.monotonic() > begun + 60:
                    raise Late(f"{method} {path}: no desk answers")
                time.sleep(.02)
            self.slowest = max(self.slowest, time.monotonic() - begun)
            if isinstance(wanted[1], dict):
                found = without_moment(found)
            expect(f"{method} {path} {json.dumps(command)[:200]}", found, wanted)
            self.exchanges.append((method, path, command, found))
            self.sent += 1


def without_moment(found):
    """The status and the body of a reply to the query of a service."""
    return found[0], {name: value for name, value in json.loads(found[1]).items()
                      if name != "moment"}


def want_same_alone(world, name, sender):
    """A desk that has this group alone, and no proxy before it, gives each request of the group the
    same reply, but where HAProxy gave it to no desk."""
    with world.desk(f"alone-{name}") as desk:
        alone = Sender(None, desk.port)
        for method, path, command, through in sender.exchanges:
            if through == NOBODY:
                continue
            found = alone.ask(method, path, command)
            if isinstance(through[1], dict):
                found = without_moment(found)
            expect(f"alone: {method} {path} {json.dumps(command)[:200]}", found, through)


@contextlib.contextmanager
def four_desks(world, part):
    """Four desks by desks.haproxy.cfg, each by the name of its group, and HAProxy's port."""
    with contextlib.ExitStack() as stack:
        desks = {name: stack.enter_context(world.desk(f"{part}-{name}")) for name in GROUPS}
        folder, port = world.place(part), free_port()
        places = [(f"127.0.0.1:{8101 + at}", f"127.0.0.1:{desks[name].port}")
                  for at, name in enumerate(GROUPS)]
        text = filled("desks.haproxy.cfg", ("127.0.0.1:8080", f"127.0.0.1:{port}"),
                      ("/etc/canary/added-service.lua", OPERATIONS / "added-service.lua"), *places)
        stack.enter_context(HAProxy(folder, port, text))
        yield desks, port


def kill_for_a_while(desk, senders, has_ended):
    """Kills a desk, and starts it again a second later, once each of the other groups has had 100
    answers meanwhile, or a sender has ended."""
    desk.kill()
    time.sleep(1)
    before = [sender.sent for sender in senders]
    try:
        wait_until("the others go on", lambda: has_ended() or all(
            sender.sent > sent + 100 for sender, sent in zip(senders, before)))
    finally:
        desk.start()


def try_desks(world):
    """Through HAProxy each request gets the reply that a desk of its group alone gives, by the
    rules and by such a desk. While one desk is away, those of the other groups are answered, and
    none of them is sent again."""
    count, is_over = 2500 if world.is_whole else 250, threading.Event()
    with four_desks(world, "desks") as (desks, port):
        senders = {name: Sender(Group(name, count), port) for name in GROUPS}
        others = [sender for name, sender in senders.items() if name != "pay"]
        with concurrent.futures.ThreadPoolExecutor(len(GROUPS)) as pool:
            sending = [pool.submit(sender.send, count, is_over) for sender in senders.values()]

            def has_ended():
                return any(each.done() for each in sending)

            try:
                wait_until("a third is sent",
                           lambda: has_ended() or senders["pay"].sent > count // 3)
                kill_for_a_while(desks["pay"], others, has_ended)
            finally:
                is_over.set()
            for each in sending:
                each.result()
        if senders["pay"].slowest < 1 and not senders["pay"].again:
            raise Wrong("no request of the desk that was killed had to wait")
        expect("the others are answered at once", [sender.again for sender in others], [0, 0, 0])
    for name, sender in senders.items():
        want_same_alone(world, name, sender)


def spellings(own, other):
    """Bodies that add a service, by what is odd about each: in some of them one reader of JSON finds
    the name `own`, and another one `other`."""
    plain = json.dumps({"service": {"version": "v0", "manifest": two_pauses(other)}})
    named = f'"name": "{other}"'
    outer = json.dumps(two_pauses(own))
    twice = {
        "a name": (named, f'"name": "{own}", {named}'),
        "a name, the other way round": (named, f'{named}, "name": "{own}"'),
        "a name, once by an escape": (named, f'"n\\u0061me": "{own}", {named}'),
        "the metadata": ('"metadata": ', f'"metadata": {{"name": "{own}"}}, "metadata": '),
        "the manifest": ('"manifest": ', f'"manifest": {outer}, "manifest": '),
        "the service": ('{"service": ', f'{{"service": {{"version": "v0", "manifest": {outer}}}, '
                        '"service": '),
    }
    escaped = {
        "service": ('"service"', '"\\u0073ervice"'),
        "manifest": ('"manifest"', '"manif\\u0065st"'),
        "metadata": ('"metadata"', '"\\u006D\\u0065tadata"'),
        "name": (named, f'"nam\\u0065": "{other}"'),
        "the first letter of the name": (f'"{other}"', f'"\\u{ord(other[0]):04x}{other[1:]}"'),
        "the hyphen": (f'"{other}"', '"' + other.replace("-", "\\u002d") + '"'),
    }
    beside = {
        "a long list": f'"annotations": {{"note": {[1] * 20000}}}, ',
        "a deep list": f'"annotations": {{"note": {"[" * 90}{"]" * 90}}}, ',
        "a list too deep": f'"annotations": {{"note": {"[" * 110}{"]" * 110}}}, ',
        "a name in a text": f'"annotations": {{"note": "\\"name\\": \\"{own}\\""}}, ',
        "the end of a text escaped": '"annotations": {"note": "\\\\"}, ',
        "numbers": '"annotations": {"note": [-0.0, 1E+5, 1e-05, true, null]}, ',
        "the name of something else": f'"ownerReferences": [{{"name": "{own}"}}], ',
        "a letter beyond ASCII": '"annotations": {"note": "\u00e9\\ud83d\\ude00"}, ',
    }
    found = {"plain": plain, "spaces": plain.replace(":", "\t:\r\n").replace("{", "{ ")}
    changes = {**{f"twice: {row}": it for row, it in twice.items()},
               **{f"escaped: {row}": it for row, it in escaped.items()},
               **{f"beside it: {row}": (named, it + named) for row, it in beside.items()}}
    for row, (old, new) in changes.items():
        expect(f"{row}: places", plain.count(old) >= 1, True)
        found[row] = plain.replace(old, new, 1)
    return found


def try_spellings(world):
    """However the JSON of a service is spelled, no desk gets one of another group; and a service of
    the caller's own group is added, unless a key occurs twice or its lists are too deep."""
    with four_desks(world, "spelled") as (desks, port):
        sent = {name: 0 for name in GROUPS}
        rows = spellings("shop-1", "pay-1")
        for at, row in enumerate(rows):
            for own, other in (("shop", "pay"), ("pay", "pay")):
                body = spellings(f"{own}-{own}{at}", f"{other}-{own}{at}")[row]
                found = ask_spelled(port, f"/callers/{own}-ops/requests/{sent[own] + 1}", body)
                is_odd = own != other or "twice" in row or "too deep" in row
                expect(f"{row}: {own} adds one of {other}", found, NOBODY[0] if is_odd else 200)
                sent[own] += not is_odd
        for name, desk in desks.items():
            added = [it for it, in desk.rows("SELECT name FROM service ORDER BY name")]
            expect(f"the services of {name}", [it for it in added if not it.startswith(name)], [])
            expect(f"the count of {name}", len(added), sent[name])


def ask_spelled(port, path, body):
    """The status of the reply to a body that is sent as it is."""
    connection = http.client.HTTPConnection("127.0.0.1", port, timeout=30)
    with contextlib.closing(connection):
        connection.request("PUT", path, body.encode())
        return connection.getresponse().status
