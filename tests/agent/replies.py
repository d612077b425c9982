"""Replies of providers, good and hostile, and what comes of them: parts of agent.py."""
import os
import subprocess
import time

from agents import (
    agent_of, agent_words, desk_for, measured, measured_beside, metric, of_web, provider, reply,
    services_measured, template, wait_until, want_once)
from rows import ANSWERS, FRAMES, STATUSES, VALUES, is_as_wanted, provider_of
from screen import new_terminal, read_terminal
from world import MARKS, Late, Wrong, environment, expect, free_port, process

GOOD = ("good-1", "good-2", "good-3")
# A service whose provider is gone.
GONE = "gone"
# The most seconds between two measurements of an interval of 3.
PATIENCE = 6


def name_of(row):
    return f"{row.kind[0]}-{row.name.replace('.', '-')}"


def answering_rows(rows):
    """What the server of these rows does."""
    known = {row.name: row.answer for row in rows}
    known.update(dict.fromkeys(GOOD, reply("0.25")))

    def answer(asked, client):
        found = known[asked.target.rsplit("=", 1)[-1].rsplit("/", 1)[-1]]
        return found if isinstance(found, bytes) else found(client)
    return answer


def manifests_of(rows, port, slowness):
    """A service for each row, and good ones beside them."""
    made = []
    for row in rows:
        name = name_of(row)
        made += [template(name, metric("m", provider_of(row, port), interval=f"{4 * slowness}s",
                                       successCondition=row.condition)),
                 measured_beside(name, name)]
    for name in (*GOOD, GONE):
        made += [template(name, metric("m", of_web(free_port() if name == GONE else port, name),
                                       interval=f"{3 * slowness}s",
                                       successCondition="result < 0.5")),
                 measured_beside(name, name)]
    return made


def faults_of(row, found):
    """Where what came of a row is not what has to come of it; each failure has a plain text."""
    for each in found or ():
        if each.failure:
            want_text(row.name, each.failure)
        if not is_as_wanted(row, each):
            yield f"{row.name}: {each} in place of {row.value!r} or {row.says!r}"
    if not found:
        yield f"{row.name}: nothing was measured"


def want_text(row, failure):
    """A failure's text has 1 to 200 bytes, and nothing that commands a terminal."""
    if not 1 <= len(failure.encode()) <= 200:
        raise Wrong(f"{row}: a failure of {len(failure.encode())} bytes")
    want_plain(row, failure)


def want_plain(row, text, but=()):
    marks = [mark for mark in text if ord(mark) in MARKS and mark not in but]
    if marks:
        raise Wrong(f"{row}: it has {marks!r} in {text!r}")


def want_in_time(name, found, until, patience):
    """The measurements of a good service went on all the time."""
    moments = [each.taken for each in found]
    for one, other in zip(moments, [*moments[1:], int(until)]):
        if other - one > patience:
            raise Late(f"{name}: {other - one} seconds after the measurement at {one}")


def want_rows(world, name, rows):
    """Each reply of a provider becomes the measurement that it says, or a failure that says what
    came. The agent goes on, others are measured in time, and no output has a control character."""
    with provider(answering_rows(rows)) as server, \
            desk_for(world, name, *manifests_of(rows, server.port, world.slowness)) as desk:
        names = [*map(name_of, rows), *GOOD, GONE]
        with agent_of(desk) as agent:
            time.sleep((30 if world.is_whole else 12) * world.slowness)
            wait_until("each row was measured", lambda: services_measured(desk) == len(names),
                       20 * world.slowness)
            until = time.time()
        found = measured(desk, *names)
        want_each(rows, found, until, PATIENCE * world.slowness)
        want_said(agent, found, len(names))
        time.sleep(4.2 * world.slowness)
        want_shown(desk, names)
    return f"{len(rows)} kinds of reply, {len(found)} measurements"


def try_replies(world):
    """Replies that are framed well or not, cut, slow, endless, or of another status or protocol."""
    return want_rows(world, "replies", [*FRAMES, *STATUSES])


def try_bodies(world):
    """Bodies of `web` and of Prometheus: numbers, lists, texts, faults, and what is no JSON."""
    return want_rows(world, "bodies", [*VALUES, *ANSWERS])


def want_each(rows, found, until, patience):
    by_service = {}
    for each in found:
        by_service.setdefault(each.service, []).append(each)
    wrong = [fault for row in rows for fault in faults_of(row, by_service.get(name_of(row)))]
    if wrong:
        raise Wrong("\n".join(wrong))
    for name in GOOD:
        expect(name, {each.result for each in by_service[name]}, {"250000"})
        want_in_time(name, by_service[name], until, patience)
    for each in by_service[GONE]:
        want_text(GONE, each.failure)
        if "no answer" not in each.failure and "connection" not in each.failure:
            raise Wrong(f"{GONE}: {each}")
    want_once("replies", found)


def want_said(agent, found, most):
    """In a pipe each measurement has a line of JSON, and nothing has a control character."""
    output = agent.output.read_text(encoding="utf-8")
    want_plain("its output", output, "\n")
    want_plain("its errors", agent.errors(), "\n")
    lines = {(line["service"], line["metric"], line["ordinal"], line["taken"],
              line.get("failure", "")) for line in agent.lines()}
    known = {(each.service, each.metric, each.ordinal, each.taken, each.failure) for each in found}
    if not lines <= known or len(known) > len(lines) + most:
        raise Wrong(f"its lines have {[*lines - known][:3]} beside the measurements")


def run_on_terminal(desk, *words, seconds=60):
    """The status of an agent on a terminal, and what it shows."""
    shown, terminal = new_terminal()
    with process([desk.world.program, *agent_words(desk, options=words)], cwd=desk.folder,
                 stdin=subprocess.DEVNULL, stdout=terminal, stderr=terminal,
                 env=environment()) as agent:
        os.close(terminal)
        found = read_terminal(shown, seconds)
        os.close(shown)
        return agent.wait(10), found.decode()


def want_shown(desk, names):
    """On a terminal, once: a plain line for each measurement, without a control character."""
    status, shown = run_on_terminal(desk, "--once")
    expect("--once on a terminal", status, 0)
    want_plain("the terminal", shown, "\r\n")
    lines = shown.replace("\r", "").splitlines()
    for name in names:
        if not any(line.startswith(f"{name} m ") for line in lines):
            raise Wrong(f"{name} has no line on the terminal")
    if "good-1 m 0.25 Successful" not in lines:
        raise Wrong(f"the line of good-1: {[line for line in lines if line[:6] == 'good-1']}")
    if any(line.startswith("{") for line in lines):
        raise Wrong("JSON on a terminal")
