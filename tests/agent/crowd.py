"""Many services that one agent measures on one core: a part of agent.py."""
import collections
import os
import time

from agents import (
    agent_of, ask, begin, desk_for, listed, measured, measured_beside, metric, of_web, provider,
    release, reply, template, want_once)
from world import Late, expect

SERVICES = 200
# Seconds, and how many of them a measurement may be late.
INTERVAL, MOST_LATE = 10, 2


def lateness(desk, names, found, interval):
    """By how many seconds each measurement was taken after the moment at which it was due: the
    first one as its run began, the others an interval after the one before."""
    late, last = [], {}
    for each in found:
        due = last[each.service] + interval if each.service in last \
            else ask(desk, f"/services/{each.service}/runs/1")["started"]
        last[each.service] = each.taken
        late.append(each.taken - due)
    expect("services that were measured", sorted(last), sorted(names))
    return late


def seconds_of(agent):
    """The processor's time that an agent has taken, in seconds."""
    with open(f"/proc/{agent.process.pid}/stat", encoding="utf-8") as file:
        fields = file.read().rsplit(")", 1)[1].split()
    return (int(fields[11]) + int(fields[12])) / os.sysconf("SC_CLK_TCK")


def try_crowd(world):
    """200 services, each with an interval of 10 seconds, by one agent on one core: each is measured
    each time, two seconds late at most."""
    names, interval = [f"s-{at}" for at in range(SERVICES)], INTERVAL * world.slowness
    with provider(lambda asked, client: reply("0.5")) as server, \
            desk_for(world, "crowd") as desk:
        of = template("load", metric("load", of_web(server.port, "load"), interval=f"{interval}s",
                                     successCondition="result < 0.75"))
        manifests = [of, *(measured_beside(name, "load") for name in names)]
        release(desk, listed(*manifests), is_begun=False)
        with agent_of(desk) as agent:
            os.sched_setaffinity(agent.process.pid, {min(os.sched_getaffinity(0))})
            time.sleep(1)
            begin(desk, *names)
            time.sleep((6 if world.is_whole else 2) * interval + 2 * world.slowness)
            took = seconds_of(agent)
        found = measured(desk, *names)
        late = lateness(desk, names, found, interval)
        want_once("crowd", found)
        count = collections.Counter(each.service for each in found)
        if max(late) > MOST_LATE * world.slowness:
            raise Late(f"late by {sorted(late)[-5:]} seconds")
        wanted = 6 if world.is_whole else 2
        if min(count.values()) < wanted:
            raise Late(f"only {min(count.values())} measurements of a service")
    return f"{len(found)} measurements, late by {max(late)} s at most, {took:.1f} s of a processor"
