"""A network that loses, repeats late and cuts, and both ends killed at random: parts of
client.py."""
import contextlib
import pathlib
import random
import re
import subprocess
import sys
import time

from world import (
    ADDED, DONE, ENDED, LATE, PENDING, PROMOTED, REFUSED, STARTED, Caller, Wrong, environment,
    expect, process, shown, two_pauses, want, want_delivered,
)

HERE = pathlib.Path(__file__).parent
# What the proxy makes of some messages.
FATES = ("lost", "unanswered", "cut", "came late")
# How many services each storm has: in the gate, and with --all.
SERVICES = {False: 12, True: 50}


@contextlib.contextmanager
def chaos(desk, seed):
    """The proxy before a desk. Its port, and a function that ends it and has what it did."""
    with process([sys.executable, str(HERE / "chaos.py"), str(desk.port), str(seed)],
                 stdin=subprocess.PIPE, stdout=subprocess.PIPE) as proxy:
        port = int(proxy.stdout.readline())

        def done():
            proxy.stdin.close()
            told = proxy.stdout.read().decode().strip()
            if missing := [fate for fate in FATES if not re.search(rf"\d {fate}\b", told)]:
                raise Wrong(f"of no message the proxy says: {', '.join(missing)}: {told!r}")
            return told

        yield port, done


class Storm:
    """Calls of the client through the proxy, of which some are killed, as the desk is."""

    def __init__(self, world, desk, port, die):
        self.world, self.desk, self.port, self.die = world, desk, port, die
        self.calls = self.client_kills = self.desk_kills = 0

    def call(self, *words, options=(), tries=3):
        """One call. Its status, none if it was killed, and its output."""
        self.calls += 1
        line = self.desk.words(*words, port=self.port, tries=tries, timeout=2, options=options)
        with process([self.world.program, *line], cwd=self.desk.folder, env=environment(),
                     stdin=subprocess.DEVNULL, stdout=subprocess.PIPE,
                     stderr=subprocess.DEVNULL) as client:
            if self.die.random() < .5:
                time.sleep(self.die.random() * .05)
                client.kill()
            if self.die.random() < .15:
                self.desk.restart()
                self.desk_kills += 1
            output = client.communicate()[0].decode()
            if client.returncode < 0:
                self.client_kills += 1
                return None, output
            return client.returncode, output

    def until(self, statuses, *words, **more):
        """Calls again until a call ends with one of these statuses."""
        while True:
            status, output = self.call(*words, **more)
            if status in statuses:
                return status, output
            if status not in (None, PENDING):
                raise Wrong(f"{words}: status {status}")

    def told(self):
        return (f"{self.calls} calls, {self.client_kills} clients and {self.desk_kills} desks"
                " killed")


def try_storm(world):
    """Each command is settled once, and what the client printed of it is the reply that both the
    journal and the desk have."""
    services = SERVICES[world.is_whole]
    die = random.Random(1)
    with world.desk("storm") as desk, chaos(desk, 5) as (port, done):
        storm = Storm(world, desk, port, die)
        wanted = {"service": ADDED, "start": STARTED, "promote": PROMOTED,
                  "abort": ("Degraded", 3, 0)}
        for at in range(services):
            name = f"s{at}"
            desk.write(f"{name}.json", two_pauses(name))
            for words in (("service", f"{name}.json", "v1"), ("start", name, "v2"),
                          ("promote", name), ("abort", name)):
                found = storm.until((DONE, REFUSED), *words, options=("--once", "-".join(words)))
                expect(words, found, (DONE, shown(wanted[words[0]], name)))
        told = done()
        expect("storm: settled", want_delivered("storm", desk), 4 * services)
        expect("storm: keys", len({each.key for each in desk.journal().kept}), 4 * services)
        names = {f"s{at}": 1 for at in range(services)}
        expect("storm: promotions", desk.count("promote"), names)
        expect("storm: aborts", desk.count("abort"), names)
    for kills in (storm.client_kills, storm.desk_kills):
        if kills < services // 4:
            raise Wrong(f"the storm was no storm: {storm.told()}")
    return f"{4 * services} commands, {storm.told()}; the proxy: {told}"


def try_storm_of_others(world):
    """Commands that take the place of others, in the same storm: of each pair one acted."""
    services = SERVICES[world.is_whole]
    die = random.Random(2)
    with world.desk("storm-instead") as desk, chaos(desk, 5) as (port, done):
        storm = Storm(world, desk, port, die)
        setup, acted, late = Caller(desk, "setup"), {}, 0
        want("the journal begins", desk.do("tick", "none"), REFUSED,
             '{"code":"unknown-service"}\n')
        for at in range(services):
            name = f"s{at}"
            setup.send({"service": {"version": "v1", "manifest": two_pauses(name)}})
            setup.send({"start": {"service": name, "version": "v2"}})
            storm.call("promote-full", name, tries=1)
            waits = desk.journal().pending
            status, output = storm.until((DONE, REFUSED, LATE), "abort", name,
                                         options=("--instead",))
            late += status == LATE
            if status == LATE:
                expect(name, output, shown(ENDED, name))
            acted[name] = status, waits is not None
        told = done()
        want_delivered("storm of others", desk)
        full, aborts = desk.count("promote full"), desk.count("abort")
        for name, (status, was_pending) in acted.items():
            both = full.get(name, 0), aborts.get(name, 0)
            wanted = {DONE: [(0, 1)], LATE: [(1, 0)], REFUSED: [(1, 0)]}[status]
            if both not in wanted:
                raise Wrong(f"{name}: status {status}, was pending: {was_pending}, acted {both}")
        if not any(was_pending for _, was_pending in acted.values()):
            raise Wrong("no command waited when another one came in its place")
    return f"{services} pairs, {late} of them too late, {storm.told()}; the proxy: {told}"
