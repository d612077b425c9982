"""Runs of one service that are due at once: a part of agent.py."""
from agents import (
    agent_of, analysis, desk_for, measured, metric, of_web, provider, reply, rollout, template,
    wait_measured, wait_status, want_once)
from world import expect

# What a provider says of the metric of each template, and what is reported of it.
SAID = {"beside": "0.25", "within": "0.75"}
REPORTED = {"beside": "250000", "within": "750000"}
# How many measurements end the step.
COUNT = 6


def manifests(port):
    """A release with an analysis beside its steps and one in its first step, due every 2 s."""
    def one(name, **more):
        return template(name, metric(name, of_web(port, name), interval="2s",
                                     successCondition="result < 1", **more))
    return [one("beside"), one("within", count=COUNT),
            rollout("web", {"analysis": analysis("within")}, {"pause": {}},
                    analysis=analysis("beside"))]


def try_two_runs(world):
    """A service has two runs that are due at once: each report has what its own run's providers
    say, and no other, so the desk refuses none; and the step ends after its own count."""
    def answer(asked, _):
        return reply(SAID[asked.target[1:]])

    with provider(answer) as server, \
            desk_for(world, "two-runs", *manifests(server.port)) as desk:
        with agent_of(desk) as agent:
            for run in (1, 2):
                wait_measured(desk, COUNT - 1, run=run)
            wait_status(desk, "Paused")
            agent.must_run()
            lines = agent.lines()
        found = measured(desk)
    want_once("two runs", found)
    expect("results", {(each.metric, each.result) for each in found},
           {(f"{name}.e6n", result) for name, result in REPORTED.items()})
    of_run = {run: {each.metric for each in found if each.run == run} for run in (1, 2)}
    expect("metrics of each run", sorted(map(len, of_run.values())), [1, 1])
    expect("measurements of the step", sum(each.metric == "within.e6n" for each in found), COUNT)
    expect("phases, or codes of refusals", {line["phase"] for line in lines}, {"Successful"})
    return f"{len(found)} measurements of two runs"
