"""Providers that are silent, agents that were stopped, and desks that were away: parts of
agent.py."""
import json
import signal
import time

from agents import (
    agent_of, analysis, begin, desk_for, history, measured, measured_beside, metric, of_web,
    provider, reply, rollout, run_agent, status, template, wait_measured, wait_status,
    wait_until, want_once)
from machine import Hindered, library_of
from replies import run_on_terminal
from rows import silent
from world import REFUSED, Late, Wrong, answering, expect
from world import ask as ask_bytes

# Of a kind that no agent asks; another program is to measure it, and does not.
NOBODY = {"datadog": {"query": "avg:errors"}}
LATE = "late by"


def timed(name, of, seconds):
    """A release that time alone promotes, beside its analysis."""
    return rollout(name, {"setWeight": 20}, {"pause": {"duration": f"{seconds}s"}},
                   {"setWeight": 60}, {"pause": {"duration": "1s"}}, analysis=analysis(of))


def never(asked, client):
    """A provider that takes each message, and answers none."""
    return silent()(client)


def try_silent_provider(world):
    """A provider that never answers gives failures in time, and the fifth in a row ends the
    release, as in Argo; another service is measured meanwhile."""
    with provider(never) as server, provider(lambda *_: reply("0.25")) as other:
        made = [template("quiet", metric("m", of_web(server.port), successCondition="result < 1",
                                         consecutiveErrorLimit=4)),
                template("good", metric("m", of_web(other.port), successCondition="result < 1")),
                timed("web", "quiet", 60), measured_beside("other", "good")]
        with desk_for(world, "silent-provider", *made) as desk, agent_of(desk):
            wait_status(desk, "Degraded")
            found = measured(desk)
            expect("failures", [bool(each.failure) for each in found], [True] * 5)
            if not all("timeout" in each.failure for each in found):
                raise Wrong(f"the failures: {found}")
            expect("how it ended", history(desk)[-1], "abort run 1")
            wait_measured(desk, 6, "other")
            moments = [each.taken for each in measured(desk, "other")]
            if max(two - one for one, two in zip(moments, moments[1:])) > 3 * world.slowness:
                raise Late(f"the other service was measured at {moments}")
    return "5 failures, then an abort"


def try_slow_metric(world):
    """A metric whose provider takes six seconds for each answer delays no other one of its run,
    and its answers count."""
    def answer(asked, _):
        time.sleep(6 if asked.target == "/slow" else 0)
        return reply("0.25")

    with provider(answer) as server:
        of = template("of", *(metric(name, of_web(server.port, name), interval=interval,
                                     successCondition="result < 1")
                              for name, interval in (("quick", "2s"), ("slow", "12s"))))
        with desk_for(world, "slow-metric", of, measured_beside("web", "of")) as desk, \
                agent_of(desk):
            wait_measured(desk, 2)
            found = measured(desk)
            expect("results", {each.result for each in found}, {"250000"})
            moments = [each.taken for each in found if each.metric == "quick.e6n"]
            gaps = [two - one for one, two in zip(moments, moments[1:])]
            if len(gaps) < 5 or max(gaps) > 5:
                raise Late(f"the quick one was measured at {moments}")
            want_once("slow metric", found)


def try_slow_services(world):
    """Two services whose providers take two seconds for each answer, at two intervals: an answer
    comes while the other service waits for one that was asked for later. Each has its own
    results."""
    rows = (("one", "6s", "0.25"), ("two", "5s", "0.5"))
    said = {f"/{name}": result for name, _, result in rows}

    def answer(asked, _):
        time.sleep(2)
        return reply(said[asked.target])

    with provider(answer) as server:
        made = [entry for name, interval, _ in rows for entry in (
            template(name, metric("m", of_web(server.port, name), interval=interval,
                                  successCondition="result < 1")),
            measured_beside(f"of-{name}", name))]
        with desk_for(world, "slow-services", *made) as desk, agent_of(desk) as agent:
            for name, _, result in rows:
                wait_measured(desk, 4, f"of-{name}")
                found = measured(desk, f"of-{name}")
                expect(name, {(each.result, each.failure) for each in found},
                       {(str(round(1_000_000 * float(result))), "")})
                want_once(name, found)
            agent.must_run()


def unmeasured(seconds):
    """A release that time promotes after so many seconds, and a metric that no agent measures."""
    return [template("quiet", metric("m", NOBODY, successCondition="result < 1")),
            timed("web", "quiet", seconds)]


def try_nobody_measures(world):
    """Metrics whose provider no agent asks, and that no other program measures: standard error says
    of each that its measurement is late, once, and time promotes the release."""
    made = unmeasured(9)
    made[0]["spec"]["metrics"].append({**made[0]["spec"]["metrics"][0], "name": "n"})
    with desk_for(world, "nobody", *made) as desk, agent_of(desk) as agent:
        wait_status(desk, "Healthy", seconds=50)
        expect("nothing was measured", measured(desk), [])
        late = sorted(line for line in agent.errors().splitlines() if LATE in line)
        if len(late) != 2 or not all(line.startswith(f"canary: web run 1 {name}")
                                     for name, line in zip("mn", late)):
            raise Wrong(f"what is late: {agent.errors()!r}")


def try_abort_late(world):
    """With --abort-late the same release is aborted before its pause ends, once, and shown; another
    attempt is aborted as well."""
    with desk_for(world, "abort-late", *unmeasured(110)) as desk, \
            agent_of(desk, options=("--abort-late", "3")) as agent:
        wait_status(desk, "Degraded", seconds=100)
        time.sleep(3)
        expect("aborted once", desk.count("abort"), {"web": 1})
        expect("what it shows", [line for line in agent.lines() if "abort" in line],
               [{"abort": "web", "code": "ok", "status": "Degraded"}])
        if world.is_whole:
            begin(desk, "web", version="v3")
            wait_status(desk, "Degraded", seconds=100)
            expect("aborted again", desk.count("abort"), {"web": 2})
        return "aborted, as nobody measures"


def try_abort_late_away(world):
    """The minute for which a measurement is seen to be due begins anew if the desk is away. That it
    is late is said again after a minute. The agent has a clock that is ten times as fast."""
    library = library_of(world)
    with desk_for(world, "abort-late-away", *unmeasured(110)) as desk:
        begun = time.monotonic()
        agent = Hindered(desk, library, faster=10, options=("--abort-late", "3"))
        agent.wait_said(LATE)
        time.sleep(2)
        desk.kill()
        agent.wait_said("no desk")
        time.sleep(4)
        # from before it is back: seen later, it would seem to be aborted too soon
        back = time.monotonic()
        desk.start()
        wait_status(desk, "Degraded")
        if time.monotonic() - back < 6:
            raise Wrong(f"aborted {time.monotonic() - back} seconds after the desk was back")
        count = agent.errors().count(LATE)
        minutes = (time.monotonic() - begun) / 6
        if not 1 < count <= 1 + minutes:
            raise Wrong(f"what is late in {minutes} minutes: {agent.errors()!r}")
        agent.kill()


class Looks:
    """What an agent's looks at web find, through a server before the desk. As long as it is so
    asked, another client reports what is due after each."""

    def __init__(self, desk):
        self.desk, self.moment, self.since, self.is_reporting = desk, 0, None, True

    def answer(self, client):
        message = client.recv(65536)
        found = ask_bytes(self.desk.port, message)
        client.sendall(found)
        body = json.loads(found.split(b"\r\n\r\n", 1)[-1] or b"{}")
        if message.startswith(b"GET /services/web "):
            self.moment = body["moment"]
        if message.startswith(b"GET /services/web/runs/1 "):
            self.take(body["metrics"][0]["due"] <= self.moment)

    def take(self, is_due):
        """A look found it due or not; since when each did."""
        self.since = (self.since or time.monotonic()) if is_due else None
        if is_due and self.is_reporting:
            self.desk.do("report", "web", "1", "m.e6n", "250000", caller="other",
                         journal="other.journal")


def try_abort_late_others(world):
    """What another client measures after each look is due anew at the next: the minute is that of
    one measurement, and begins with each. The agent has a clock that is four times as fast."""
    library = library_of(world)
    with desk_for(world, "abort-late-others", *unmeasured(110)) as desk:
        looks = Looks(desk)
        with answering(looks.answer) as port:
            agent = Hindered(desk, library, faster=4, port=port, options=("--abort-late", "3"))
            wait_until("a minute of looks that find it due", lambda: looks.since is not None
                       and time.monotonic() - looks.since > 16, 80)
            looks.is_reporting = False
            time.sleep(8)
            expect("it goes on", (status(desk), desk.count("abort")), ("Paused", {}))
            agent.must_run()
            agent.kill()
        want_once("others", measured(desk))


def try_abort_late_once(world):
    """--once with --abort-late, as cron may call it, and on a terminal: what nobody measures is
    aborted if it is late by more, and not before; what can be measured is measured, however late it
    is."""
    with provider(lambda *_: reply("0.25")) as server:
        made = [*unmeasured(60),
                template("good", metric("m", of_web(server.port), successCondition="result < 1")),
                timed("good", "good", 60)]
        with desk_for(world, "abort-late-once", *made) as desk:
            ended = run_agent(desk, options=("--once", "--abort-late", "3600"))
            expect(f"not late so far: {ended}", status(desk), "Paused")
            time.sleep(4.5)
            _, shown = run_on_terminal(desk, "--once", "--abort-late", "3")
            expect(f"late: {shown}", (status(desk), status(desk, "good")), ("Degraded", "Paused"))
            expect("what a terminal shows", [line for line in shown.splitlines()
                                             if line.startswith("web abort")],
                   ["web abort Degraded"])
            expect("what was measured", [each.service for each in measured(desk, "web", "good")],
                   ["good", "good"])
            expect("once", desk.count("abort"), {"web": 1})


def try_no_file(world):
    """A run's metric that no file has: standard error says so once, and the others are measured;
    --once has status 1 then, and with --abort-late the release is aborted."""
    with provider(lambda *_: reply("0.25")) as server:
        of = metric("m", of_web(server.port), successCondition="result < 1")
        made = [template("of", of, {**of, "name": "gone"}), measured_beside("web", "of")]
        with desk_for(world, "no-file", *made) as desk:
            desk.write("less.json", {"kind": "List", "items": [template("of", of), made[1]]})
            with agent_of(desk, "less.json") as agent:
                agent.wait_said("no file has")
                wait_measured_of(desk, "m.e6n", 4)
                expect("said of it", agent.errors().count("no file has"), 1)
                expect("it is there still", status(desk), "Paused")
            time.sleep(2)
            ended = run_agent(desk, "less.json", options=("--once",))
            expect(f"not measured: {ended}", ended.status, REFUSED)
            run_agent(desk, "less.json", options=("--once", "--abort-late", "2"))
            expect("as it is late", status(desk), "Degraded")
            expect("it was not measured", {each.metric for each in measured(desk)}, {"m.e6n"})


def wait_measured_of(desk, label, count):
    wait_until(f"{label} has {count} measurements",
               lambda: len([each for each in measured(desk) if each.metric == label]) >= count)


def try_stopped_agent(world):
    """An agent that was stopped for long, or gone: as it goes on, what can be measured at once is
    measured, and not aborted, also with --abort-late. A bad version is aborted by its
    measurements then."""
    values = {"/good": "0.25", "/bad": "0.5"}
    with provider(lambda asked, _: reply(values[asked.target])) as server:
        made = [entry for name in ("good", "bad") for entry in (
            template(name, metric("m", of_web(server.port, name), successCondition="result < 1",
                                  failureLimit=2)),
            rollout(name, {"setWeight": 20}, {"pause": {"duration": f"{40 * world.slowness}s"}},
                    analysis=analysis(name)))]
        with desk_for(world, "stopped", *made) as desk:
            options = ("--abort-late", "3")
            with agent_of(desk, options=options) as agent:
                wait_measured(desk, 1, "good")
                wait_measured(desk, 1, "bad")
                agent.signal(signal.SIGSTOP)
                time.sleep(6)
                agent.signal(signal.SIGCONT)
                want_going_on(desk, "stopped")
            time.sleep(6)
            with agent_of(desk, options=options, name="next"):
                want_going_on(desk, "gone")
                values["/bad"] = "7"
                wait_status(desk, "Degraded", "bad")
                wait_status(desk, "Healthy", "good", 60 * world.slowness)
                expect("why", history(desk, "bad")[-1], "abort run 1")
            expect("no abort by a command", desk.count("abort"), {})


def want_going_on(desk, row):
    """Each service is measured anew, and in its release still."""
    before = {name: len(measured(desk, name)) for name in ("good", "bad")}
    for name, count in before.items():
        wait_measured(desk, count + 1, name)
        expect(f"{row}: {name}", status(desk, name), "Paused")
        want_once(row, measured(desk, name))


def try_desk_away(world):
    """A desk that was away for long: as it comes back, what can be measured at once is measured,
    and no release is aborted."""
    with provider(lambda *_: reply("0.25")) as server:
        made = [template("of", metric("m", of_web(server.port), successCondition="result < 1")),
                measured_beside("web", "of")]
        with desk_for(world, "desk-away", *made) as desk, \
                agent_of(desk, options=("--abort-late", "3")) as agent:
            wait_measured(desk, 2)
            desk.kill()
            time.sleep(7)
            desk.start()
            before = len(measured(desk))
            wait_measured(desk, before + 3)
            expect("it goes on", (status(desk), desk.count("abort")), ("Paused", {}))
            said = [line for line in agent.errors().splitlines() if "no desk" in line]
            expect("said once", len(said), 1)
            want_once("desk away", measured(desk))
