"""Releases that a real Prometheus measures: parts of agent.py."""
import json
import random
import time

from agents import (
    Agent, agent_of, desk_for, history, journals_of, listed, measured, metric, of_prometheus,
    release, reported, rollout, run_agent, template, wait_status, want_once, want_reported)
from toy import QUERY, prometheus, toy
from world import Unsafe, Wrong, expect

# The share of the errors of a good and of a bad version; and the least share of the others that is
# taken.
GOOD, BAD, LEAST = .01, .3, "0.95"


def success_rate(port, **more):
    """The template of Argo's documents, with an address of a Prometheus."""
    made = metric("success-rate", of_prometheus(port, QUERY), failureLimit=1,
                  successCondition=f"result[0] >= {LEAST}")
    return {**template("success-rate", {**made, **more}),
            "spec": {"args": [{"name": "service-name"}], "metrics": [{**made, **more}]}}


def judged(name):
    return {"templates": [{"templateName": "success-rate"}],
            "args": [{"name": "service-name", "value": name}]}


def in_step(name):
    """A release that waits for its analysis before it goes on."""
    return rollout(name, {"setWeight": 20}, {"analysis": judged(name)}, {"setWeight": 60},
                   {"pause": {"duration": "1s"}})


def beside(name):
    """A release that is promoted by time, if nothing is bad."""
    return rollout(name, {"setWeight": 20}, {"pause": {"duration": "12s"}}, analysis=judged(name))


def want_shares(row, found, share):
    """What was measured is the share of good requests, as far as rates are exact."""
    for each in found:
        if each.failure or abs(int(each.result) / 1_000_000 - (1 - share)) > .05:
            raise Wrong(f"{row}: {each} of a share of {1 - share}")


def try_releases(world):
    """A Prometheus scrapes a service: its good versions are promoted, and those with 30 % of errors
    are aborted within three measurements, in a step and beside steps."""
    names = ("good-step", "good-beside", "bad-step", "bad-beside")
    shares = {name: GOOD if name.startswith("good") else BAD for name in names}
    with toy(**shares) as port, prometheus(world.place("releases-prometheus"), port) as real, \
            desk_for(world, "releases") as desk:
        for name in names:
            real.wait_for(name)
        release(desk, listed(
            success_rate(real.port, interval="3s", count=3),
            *((in_step if name.endswith("step") else beside)(name) for name in names)))
        with agent_of(desk) as agent:
            for name in names:
                wait_status(desk, "Healthy" if shares[name] == GOOD else "Degraded", name)
            agent.must_run()
        for name in names:
            found = measured(desk, name)
            want_shares(name, found, shares[name])
            want_once(name, found)
            expect(f"{name}: how it ended", history(desk, name)[-1],
                   "done v2" if shares[name] == GOOD else "abort run 1")
            # failureLimit 1: the second failed measurement ends it
            expect(f"{name}: measurements", len(found), 3 if shares[name] == GOOD else 2)
        want_reported("releases", desk, measured(desk, *names))
    return "two were promoted, and two aborted after two measurements"


def kill_and_start(rng, real, desk, agents):
    """Kills one of the three, and starts it again a little later."""
    killed = rng.choice(("prometheus", "desk", "agent", "agent", "two"))
    if killed in ("desk", "two"):
        desk.kill()
    if killed in ("agent", "two"):
        agents[-1].kill()
    if killed == "prometheus":
        real.kill()
    time.sleep(rng.uniform(0, .7))
    if killed in ("desk", "two"):
        desk.start()
    if killed in ("agent", "two"):
        agents.append(Agent(desk))
    if killed == "prometheus":
        real.start()
    return killed


def try_kills(world):
    """A Prometheus, the agent and the desk are killed at random moments, and started again: each
    measurement is there once, none is lost that was reported, and the releases end as they have
    to."""
    rng = random.Random(world.share)
    names = ("good-1", "good-2", "bad-1", "bad-2")
    shares = {name: GOOD if name.startswith("good") else BAD for name in names}
    seconds = 120 if world.is_whole else 20
    with toy(**shares) as port, prometheus(world.place("kills-prometheus"), port) as real, \
            desk_for(world, "kills") as desk:
        for name in names:
            real.wait_for(name)
        release(desk, listed(
            success_rate(real.port, count=seconds * 2 // 3, failureLimit=seconds // 2),
            *map(in_step, names)))
        agents, killed, until = [Agent(desk)], [], time.monotonic() + seconds
        while time.monotonic() < until:
            time.sleep(rng.expovariate(1.2))
            killed.append(kill_and_start(rng, real, desk, agents))
        for name in names:
            wait_status(desk, "Healthy" if shares[name] == GOOD else "Degraded", name,
                        60 * world.slowness)
        agents[-1].must_run()
        agents[-1].kill()
        want_after_kills(desk, names)
        # what is pending is settled at the next start, and nothing is measured any more
        before = measured(desk, *names)
        expect("the next start", run_agent(desk, options=("--once",)).status, 0)
        found = measured(desk, *names)
        expect("nothing more is measured", found, before)
        want_reported("kills", desk, found)
        want_shown(agents[-1], found)
    return f"{len(killed)} kills, {len(found)} measurements"


def want_after_kills(desk, names):
    found = measured(desk, *names)
    want_once("kills", found)
    for journal in journals_of(desk).values():
        if lost := set(reported(journal)[0]) - set(found):
            raise Unsafe(f"reported and lost: {lost}")
    for name in names:
        share = GOOD if name.startswith("good") else BAD
        want_shares(name, [each for each in found if each.service == name and each.result], share)


def want_shown(agent, found):
    """Each measurement that an output says was recorded is there; a kill may cut a line."""
    known = {(each.service, each.run, each.metric, each.ordinal, each.taken) for each in found}
    shown = 0
    for line in agent.output.read_text(encoding="utf-8").splitlines():
        try:
            told = json.loads(line)
        except ValueError:
            continue
        key = tuple(told.get(name) for name in ("service", "run", "metric", "ordinal", "taken"))
        shown += "phase" in told
        if "phase" in told and key not in known:
            raise Unsafe(f"shown and lost: {told}")
    if shown == 0:
        raise Wrong(f"no line of {len(found)} measurements")
