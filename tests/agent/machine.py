"""Faults of the agent's own machine, which are no failures of a provider: parts of agent.py."""
import errno
import os
import resource
import signal
import subprocess
import time

from agents import (
    Agent, agent_of, beside, count_measured, desk_for, journals_of, listed, measured,
    measured_beside, metric, of_web, provider, reply, template, wait_measured, wait_until,
    want_once, want_rest)
from rows import silent
from world import DONE, LOCAL, PENDING, Late, Wrong, answering, expect

HINDERED = ("this machine cannot ask a provider, which is tried again, and nothing is reported of"
            " it")
UNCONNECTED = "this machine cannot connect to the desk"
# What is said of each error as a connection is begun.
OWN = {
    errno.EMFILE: "EMFILE", errno.ENFILE: "EMFILE", errno.ENOBUFS: "ENOMEM",
    errno.ENOMEM: "ENOMEM", errno.EAGAIN: "ENOMEM", errno.ENOSPC: "ENOMEM",
    errno.EADDRNOTAVAIL: "EADDRNOTAVAIL", errno.EPERM: "EPERM", errno.EACCES: "EPERM",
    errno.ENETUNREACH: "ENETUNREACH", errno.ENETDOWN: "ENETUNREACH",
    errno.EAFNOSUPPORT: "EAFNOSUPPORT", errno.EPROTONOSUPPORT: "EAFNOSUPPORT",
}
# Errors that say something of the provider, or of the way to it.
OF_PROVIDER = (errno.ECONNREFUSED, errno.ECONNRESET, errno.ETIMEDOUT, errno.EHOSTUNREACH,
               errno.EINVAL)
EAI_AGAIN, EAI_NONAME, EAI_FAIL, EAI_MEMORY, EAI_SYSTEM = -3, -2, -4, -10, -11
# How many messages have a connection at a time (docs/AGENT.md, "Limits").
CONNECTIONS = 64


def services(port, *names, host="127.0.0.1", interval="1s"):
    """A service whose metrics are 0.25 by a server."""
    metrics = [metric(name, {"web": {"url": f"http://{host}:{port}/{name}"}}, interval=interval,
                      successCondition="result < 1") for name in names or ("m",)]
    return [template("of", *metrics), measured_beside("web", "of")]


def library_of(world):
    """The library that fails calls."""
    library = world.folder / "hindered.so"
    source = os.path.join(os.path.dirname(os.path.abspath(__file__)), "hindered.c")
    if not library.exists():
        made = f"{library}.{os.getpid()}"
        subprocess.run(["cc", "-O1", "-shared", "-fPIC", "-o", made, source], check=True)
        os.replace(made, library)
    return library


class Hindered(Agent):
    """An agent whose calls fail as long as the file `while` has an error: from its beginning, if
    there are numbers."""

    def __init__(self, desk, library, *numbers, faster=1, files=(), **more):
        self.file = desk.folder / "while"
        if numbers:
            self.hinder(*numbers)
        variables = {"LD_PRELOAD": str(library), "WHILE": str(self.file), "FASTER": str(faster)}
        super().__init__(desk, *files, variables=variables, **more)

    def hinder(self, *numbers):
        made = self.file.with_suffix(".new")
        made.write_text(" ".join(map(str, numbers)), encoding="utf-8")
        os.replace(made, self.file)

    def release(self):
        self.file.unlink()


def try_hindered(world):
    """No descriptor, no memory, no local port, no way to the network, and the like, as a connection
    begins: nothing is reported, which is said once for each, and measured again once it works. What
    is the provider's is a failure."""
    library = library_of(world)
    with provider(lambda *_: reply("0.25")) as server, \
            desk_for(world, "hindered", *services(server.port, interval="2s")) as desk:
        agent = Hindered(desk, library)
        wait_measured(desk, 2)
        agent.hinder(errno.EMFILE, server.port)
        # what was under way may be measured still
        want_rest("measured no more", lambda: count_measured(desk)["m.e6n"], 3)
        before = count_measured(desk)["m.e6n"]
        for number in OWN:
            agent.hinder(number, server.port)
            agent.wait_said(OWN[number])
            time.sleep(1.5)
            expect(f"{errno.errorcode[number]}: measured", count_measured(desk)["m.e6n"], before)
        for word in {*OWN.values()}:
            want_said("hindered", agent, word)
        agent.release()
        wait_measured(desk, before + 2)
        expect("failures", failures_of(desk), [])
        for number in OF_PROVIDER:
            before = len(failures_of(desk))
            agent.hinder(number, server.port)
            wait_until(errno.errorcode[number],
                       lambda before=before: len(failures_of(desk)) > before + 1)
        expect("how they go", {failure[:9] for failure in failures_of(desk)}, {"no answer"})
        agent.must_run()
        agent.kill()
        want_once("hindered", measured(desk))
    return f"{len(OWN) + len(OF_PROVIDER)} errors"


def try_begun(world):
    """A connection that was begun and is refused then is a failure that says so."""
    library = library_of(world)
    with provider(lambda *_: reply("0.25")) as server, \
            desk_for(world, "begun", *services(server.port, interval="3s")) as desk:
        agent = Hindered(desk, library)
        wait_measured(desk, 2)
        agent.hinder(errno.ECONNREFUSED, -1)
        wait_until("failures", lambda: len(failures_of(desk)) > 1)
        agent.release()
        expect("how they go", {failure[:9] for failure in failures_of(desk)}, {"no answer"})
        agent.must_run()
        agent.kill()


def try_hindered_desk(world):
    """No descriptor, no way to the network, and the like, as a connection to the desk begins: that
    is said once for each, and the agent goes on once it works. With --once the status is 3."""
    library = library_of(world)
    with provider(lambda *_: reply("0.25")) as server, \
            desk_for(world, "hindered-desk", *services(server.port, interval="2s")) as desk:
        agent = Hindered(desk, library)
        wait_measured(desk, 2)
        for number in (errno.EMFILE, errno.EACCES, errno.ENETUNREACH):
            agent.hinder(number, desk.port)
            agent.wait_said(f"{UNCONNECTED}: ")
            agent.wait_said(OWN[number])
            time.sleep(2)
            expect(f"{number}: said", [OWN[number] in line for line in agent.errors().splitlines()
                                       if UNCONNECTED in line].count(True), 1)
        agent.release()
        before = count_measured(desk)["m.e6n"]
        wait_measured(desk, before + 2)
        agent.must_run()
        agent.kill()
        agent = Hindered(desk, library, errno.EPERM, desk.port, options=("--once",))
        wait_until("the end", agent.has_ended)
        expect("--once", (agent.process.returncode, agent.errors().count("EPERM")), (PENDING, 2))
        want_once("hindered desk", measured(desk))


def try_exhausted(world):
    """No memory is left for a connection that was begun, each time: the provider is asked again
    after a second, and not at once. Once there is memory, all goes on."""
    library, begun = library_of(world), []
    with answering(lambda client: begun.append(client.recv(1))) as port, \
            provider(lambda *_: reply("0.25")) as server, \
            desk_for(world, "exhausted", *services(server.port, interval="2s")) as desk:
        agent = Hindered(desk, library)
        wait_measured(desk, 1)
        moved = listed(*services(port, interval="2s"))
        agent.hinder(errno.ENOBUFS, -port)
        desk.write("manifests.json", moved)
        agent.wait_said("ENOMEM")
        count, seconds = len(begun), 6
        time.sleep(seconds)
        count = len(begun) - count
        if not 2 <= count <= 2 * seconds:
            raise (Late if count < 2 else Wrong)(f"{count} connections in {seconds} seconds")
        desk.write("manifests.json", listed(*services(server.port, interval="2s")))
        before = count_measured(desk)["m.e6n"]
        wait_measured(desk, before + 2)
        expect("failures", failures_of(desk), [])
        agent.must_run()
        agent.kill()
        want_once("exhausted", measured(desk))
    return f"{count} connections in {seconds} seconds"


def try_slow_provider(world):
    """While a provider takes its time the agent waits for it, and does nothing else: it takes no
    time of a processor."""
    def answer(*_):
        time.sleep(6)
        return reply("0.25")

    with provider(answer) as server, \
            desk_for(world, "slow-provider", *services(server.port, interval="20s")) as desk, \
            agent_of(desk) as agent:
        wait_until("it is asked", lambda: server.asked)
        before = seconds_of(agent.process)
        time.sleep(4)
        taken = seconds_of(agent.process) - before
        if taken > 1:
            raise Wrong(f"it took {taken} seconds of a processor in 4 seconds")
        wait_measured(desk, 1)
        expect("failures", failures_of(desk), [])
    return f"{taken:.2f} seconds of a processor in 4 seconds"


def seconds_of(process):
    """The seconds of a processor that a process has taken."""
    with open(f"/proc/{process.pid}/stat", encoding="ascii") as stat:
        fields = stat.read().rpartition(")")[2].split()
    return (int(fields[11]) + int(fields[12])) / os.sysconf("SC_CLK_TCK")


def try_crowded(world):
    """Providers that do not answer have all connections, after another fault that is over: that
    messages wait for one until their time is over is said by its own cause."""
    library = library_of(world)
    with provider(lambda _, client: silent()(client)) as server:
        long, short = ([f"{name}-{at}" for at in range(count)]
                       for name, count in (("long", CONNECTIONS), ("short", 4)))
        made = [entry for names, interval in ((long, "30s"), (short, "1s")) for entry in (
            template(names[0], metric("m", of_web(server.port), interval=interval,
                                      successCondition="result < 1")),
            *(measured_beside(name, names[0]) for name in names))]
        with desk_for(world, "crowded", *made) as desk:
            agent = Hindered(desk, library, errno.EMFILE, server.port)
            agent.wait_said("EMFILE")
            agent.release()
            agent.wait_said("providers that do not answer have all connections")
            agent.must_run()
            agent.kill()


def try_other_provider(world):
    """Of two metrics of a run the second has a provider that this machine cannot reach: the first
    one's measurements count, and the second is measured once it is reached."""
    library = library_of(world)
    with provider(lambda *_: reply("0.25")) as one, provider(lambda *_: reply("0.5")) as two:
        of = template("of", *(metric(name, of_web(server.port), interval="3s",
                                     successCondition="result < 1")
                              for name, server in (("one", one), ("two", two))))
        with desk_for(world, "other-provider", of, measured_beside("web", "of")) as desk:
            agent = Hindered(desk, library)
            wait_measured(desk, 1)
            agent.hinder(errno.EADDRNOTAVAIL, two.port)
            # what was under way may be measured still
            want_rest("the second is measured no more", lambda: count_measured(desk)["two.e6n"], 4)
            before = count_measured(desk)
            wait_until("the first", lambda: count_measured(desk)["one.e6n"] > before["one.e6n"] + 1)
            expect("the second", count_measured(desk)["two.e6n"], before["two.e6n"])
            agent.release()
            wait_measured(desk, before["one.e6n"] + 4)
            agent.must_run()
            agent.kill()
            expect("failures", failures_of(desk), [])
            want_once("other provider", measured(desk))


def try_beside_slow(world):
    """Of two metrics of a run one has a provider that takes four seconds for each answer, and the
    other one a provider that this machine cannot reach: that one is begun anew again and again, and
    the first one is asked once for each of its measurements."""
    library = library_of(world)

    def answer(*_):
        time.sleep(4)
        return reply("0.25")

    with provider(answer) as one, provider(lambda *_: reply("0.5")) as two:
        rows = ("one", one, "9s"), ("two", two, "2s")
        of = template("of", *(metric(name, of_web(server.port), interval=interval,
                                     successCondition="result < 1")
                              for name, server, interval in rows))
        with desk_for(world, "beside-slow", of, measured_beside("web", "of")) as desk:
            agent = Hindered(desk, library, errno.EADDRNOTAVAIL, two.port)
            wait_until("the slow one", lambda: count_measured(desk)["one.e6n"] > 1)
            expect("the other one", count_measured(desk)["two.e6n"], 0)
            agent.release()
            wait_measured(desk, 3)
            agent.must_run()
            agent.kill()
            asked, came = len(one.asked), count_measured(desk)["one.e6n"]
            expect("asked for what came, and at most once more", asked - came in (0, 1), True)
            expect("failures", failures_of(desk), [])
            want_once("beside slow", measured(desk))


def try_stopped_within(world):
    """An agent that is stopped after it asked, until the time of the measurement is over: the reply
    that came meanwhile counts."""
    agents = []

    def answer(_, client):
        if agents and len(server.asked) % 3 == 0:
            agents[0].signal(signal.SIGSTOP)
            client.sendall(reply("0.5"))
            time.sleep(3.5)
            agents[0].signal(signal.SIGCONT)
            return None
        return reply("0.25")

    with provider(answer) as server, \
            desk_for(world, "stopped-within", *services(server.port, interval="3s")) as desk, \
            agent_of(desk) as agent:
        agents.append(agent)
        wait_until("three that it was stopped for",
                   lambda: [each.result for each in measured(desk)].count("500000") > 2
                   or failures_of(desk) or agent.must_run(), 120)
        expect("failures", failures_of(desk), [])
        want_once("stopped within", measured(desk))


def failures_of(desk):
    return [each.failure for each in measured(desk) if each.failure]


def want_said(row, agent, word):
    """It is said once, and why."""
    said = [line for line in agent.errors().splitlines() if HINDERED in line]
    if len([line for line in said if word in line]) != 1:
        raise Wrong(f"{row}: {word} is said so: {said}")


def try_unresolved(world):
    """A resolver that gives no answer now, or finds no descriptor: nothing is reported. One that
    knows no such name: a failure."""
    library = library_of(world)
    rows = {"again": ((EAI_AGAIN, 0), "EAI_AGAIN"), "descriptor": ((EAI_SYSTEM, 24), "EMFILE"),
            "memory": ((EAI_MEMORY, 12), "ENOMEM"), "unknown": ((EAI_NONAME, 0), None),
            "failed": ((EAI_FAIL, 0), None)}
    with provider(lambda *_: reply("0.25")) as server:
        beside(lambda row: want_unresolved(world, library, server.port, row, *rows[row]), rows)


def want_unresolved(world, library, port, row, numbers, word):
    made = services(port, host="measures.example", interval="3s")
    with desk_for(world, f"unresolved-{row}", *made) as desk:
        agent = Hindered(desk, library, *numbers)
        if word is None:
            wait_measured(desk, 1)
            expect(f"{row}: a failure", {"not known" in each.failure for each in measured(desk)},
                   {True})
            agent.kill()
            return
        agent.wait_said(word)
        time.sleep(3)
        found = measured(desk)
        expect(f"{row}: measured meanwhile", [each for each in found if each.failure], [])
        want_said(row, agent, word)
        agent.release()
        before = len(found)
        wait_measured(desk, before + 2)
        expect(f"{row}: failures", [each for each in measured(desk) if each.failure], [])
        agent.kill()


def try_two_addresses(world):
    """Of a name with an address of IPv6 and one of IPv4 the second is asked; and the address that a
    name had counts while the resolver gives no answer, also once it was known for a minute."""
    library = library_of(world)
    with provider(lambda *_: reply("0.25")) as server, \
            desk_for(world, "two-addresses",
                     *services(server.port, host="both.example", interval="8s")) as desk:
        # by its clock a provider has two seconds for its answer
        agent = Hindered(desk, library, faster=4)
        wait_measured(desk, 1)
        agent.hinder(EAI_AGAIN, 0)
        time.sleep(16)
        before = count_measured(desk)["m.e6n"]
        wait_measured(desk, before + 2)
        expect("failures", failures_of(desk), [])
        expect("said", agent.errors().count(HINDERED), 0)
        agent.must_run()
        agent.kill()


def try_unresolved_once(world):
    """With --once, and a resolver that gives no answer now: nothing is reported, and the status is
    5, also beside what is less."""
    library = library_of(world)
    with provider(lambda *_: reply("0.25")) as server:
        made = services(server.port, host="measures.example")
        for row, more in (("alone", ()), ("beside", (measured_beside("x" * 60, "of"),))):
            with desk_for(world, f"unresolved-once-{row}", *made, *more) as desk:
                agent = Hindered(desk, library, EAI_AGAIN, 0, options=("--once",))
                wait_until("the end", agent.has_ended)
                expect(f"{row}: {agent.errors()}", agent.process.returncode, LOCAL)
                expect(f"{row}: measured", measured(desk), [])
                agent.kill()


def want_hindered(row, desk, agent, status, results):
    """An agent that has no descriptor, for a moment if it is to end well, ends with this status,
    and these results were measured."""
    agent.wait_said("EMFILE")
    if status == DONE:
        agent.release()
    wait_until("the end", agent.has_ended)
    expect(f"{row}: {agent.errors()}", agent.process.returncode, status)
    expect(f"{row}: measured", [each.result for each in measured(desk)], results)
    want_said(row, agent, "EMFILE")


def try_hindered_once(world):
    """With --once: the connection is tried again until the time of the measurement is over. Then
    nothing is reported, and the status is 5; if it works in time, all is reported, of two metrics
    each."""
    library = library_of(world)
    with provider(lambda *_: reply("0.25")) as server:
        made = services(server.port, "m", "n", interval="6s")
        with desk_for(world, "once-until-its-end", *made) as desk:
            agent = Hindered(desk, library, errno.EMFILE, server.port, options=("--once",))
            want_hindered("until its end", desk, agent, LOCAL, [])
            expect("nothing is pending", journals_of(desk)["agent-web"].pending, None)
        with desk_for(world, "once-for-a-moment", *made) as desk:
            agent = Hindered(desk, library, errno.EMFILE, server.port, options=("--once",))
            want_hindered("for a moment", desk, agent, DONE, ["250000"] * 2)


def free_descriptors(process, count):
    """Leaves a process so many descriptors beside those that it has all the time."""
    used = set(range(1000))
    for _ in range(40):
        used &= {int(name) for name in os.listdir(f"/proc/{process.pid}/fd")}
        time.sleep(.05)
    missing = sorted(set(range(max(used) + 2 + count)) - used)
    most = resource.prlimit(process.pid, resource.RLIMIT_NOFILE)[1]
    resource.prlimit(process.pid, resource.RLIMIT_NOFILE, (missing[count], most))
    return most


def try_few_descriptors(world):
    """An agent with two descriptors left for its providers: all are measured, one after another,
    and no failure is reported."""
    names = [f"m{number}" for number in range(6)]

    def answer(*_):
        time.sleep(.1)
        return reply("0.25")

    with provider(answer) as server, \
            desk_for(world, "few-descriptors",
                     *services(server.port, *names, interval="3s")) as desk, \
            agent_of(desk) as agent:
        wait_measured(desk, 1)
        free_descriptors(agent.process, 2)
        before = min(count_measured(desk).values())
        wait_measured(desk, before + 3, seconds=80)
        found = measured(desk)
        expect("failures", [each for each in found if each.failure], [])
        want_once("few descriptors", found)
        agent.wait_said("EMFILE")
        return f"{len(found)} measurements"


def try_no_descriptor(world):
    """An agent without any descriptor: its folder of manifests cannot be read, which is said once,
    the desk is not reached, and nothing is reported. With descriptors all goes on as before."""
    with provider(lambda *_: reply("0.25")) as server, \
            desk_for(world, "no-descriptor", *services(server.port, interval="2s")) as desk:
        folder = desk.folder / "manifests"
        folder.mkdir()
        os.rename(desk.folder / "manifests.json", folder / "web.json")
        with agent_of(desk, "manifests") as agent:
            wait_measured(desk, 2)
            most = free_descriptors(agent.process, 0)
            agent.wait_said("manifests: the folder cannot be read")
            time.sleep(3)
            expect("said once", agent.errors().count("cannot be read"), 1)
            resource.prlimit(agent.process.pid, resource.RLIMIT_NOFILE, (most, most))
            before = count_measured(desk)["m.e6n"]
            wait_measured(desk, before + 3, seconds=80)
        found = measured(desk)
        expect("failures", [each for each in found if each.failure], [])
        want_once("no descriptor", found)
