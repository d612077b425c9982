"""Versions that infinities, NaN and texts decide: a part of agent.py."""
import collections

from agents import (
    agent_of, desk_for, measured, measured_in_step, metric, of_prometheus, of_web, provider, reply,
    template, vector, wait_status)
from rows import GREATEST, NAN
from world import expect

# How many measurements end a good version; one that is Failed ends a bad one.
COUNT = 4
GOOD, BAD = "Healthy", "Degraded"
SUCCESS, FAILURE = "successCondition", "failureCondition"
# What a provider says in turn, what is reported of it, and what becomes of the version, as of one
# that Argo judges by that condition.
Row = collections.namedtuple("Row", "name key condition says reported status")
BELOW, SHARE = "result[0] < 500", "asFloat(result) >= 0.95"
HUNDRED = ["100000000"]
SERIES = [
    Row("plain", SUCCESS, BELOW, ["100"] * COUNT, HUNDRED * COUNT, GOOD),
    Row("inf", SUCCESS, BELOW, ["100", "+Inf", "100", "100"], [*HUNDRED, GREATEST], BAD),
    Row("minus-inf", SUCCESS, "result[0] >= 0.95", ["1", "-Inf", "1", "1"],
        ["1000000", f"-{GREATEST}"], BAD),
    Row("inf-above", SUCCESS, "result[0] > 5", ["100", "+Inf", "100", "100"],
        [*HUNDRED, GREATEST, *HUNDRED * 2], GOOD),
    Row("inf-of-a-failure", FAILURE, "result[0] >= 500", ["100", "+Inf", "100", "100"],
        [*HUNDRED, GREATEST], BAD),
    Row("nan", SUCCESS, BELOW, ["100", "NaN", "100", "100"], [*HUNDRED, NAN], BAD),
    Row("nan-of-a-failure", FAILURE, "result[0] >= 500", ["100", "NaN", "100", "100"],
        [*HUNDRED, NAN, *HUNDRED * 2], GOOD),
    Row("nan-asked", SUCCESS, f"isNaN(result[0]) || {BELOW}", ["100", "NaN", "100", "100"],
        [*HUNDRED, NAN, *HUNDRED * 2], GOOD),
]
TEXTS = [
    Row("text", SUCCESS, SHARE, ["0.96"] * COUNT, ["960000"] * COUNT, GOOD),
    Row("small-text", SUCCESS, SHARE, ["0.96", "0.94"], ["960000", "940000"], BAD),
    Row("text-of-inf", SUCCESS, SHARE, ["Inf", "-inf"], [GREATEST, f"-{GREATEST}"], BAD),
    Row("text-of-nan", SUCCESS, SHARE, ["1", "NaN"], ["1000000", NAN], BAD),
    Row("whole-text", SUCCESS, "asInt(result) < 5", ["4"] * COUNT, ["4000000"] * COUNT, GOOD),
    Row("great-whole-text", SUCCESS, "asInt(result) < 5", ["4", "5"], ["4000000", "5000000"], BAD),
]


def manifests(row, of):
    """A release that the verdict of an analysis ends."""
    judged = metric("m", of, count=COUNT, failureLimit=0, consecutiveErrorLimit=4,
                    **{row.key: row.condition})
    return template(row.name, judged), measured_in_step(row.name, row.name)


def try_verdicts(world):
    """A version of which an infinity, NaN or a text is measured passes or fails as in Argo."""
    values = {row.name: iter(row.says) for row in (*SERIES, *TEXTS)}

    def answer(asked, _):
        name = asked.target.rsplit("=", 1)[-1].rsplit("/", 1)[-1]
        value = next(values[name], "100")
        return reply({"v": value} if "/api/v1/query" not in asked.target else vector(value))

    with provider(answer) as server:
        made = [each for row in SERIES for each in manifests(
            row, of_prometheus(server.port, row.name))]
        made += [each for row in TEXTS for each in manifests(
            row, of_web(server.port, row.name, jsonPath="{$.v}"))]
        with desk_for(world, "verdicts", *made) as desk:
            with agent_of(desk):
                for row in (*SERIES, *TEXTS):
                    wait_status(desk, row.status, row.name)
            for row in (*SERIES, *TEXTS):
                found = measured(desk, row.name)
                expect(row.name, [each.result or each.failure for each in found], row.reported)
    return f"{len(SERIES) + len(TEXTS)} versions"
