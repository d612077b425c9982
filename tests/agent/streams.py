"""Standard streams: closed, full, without a reader; lines for programs and for people: parts of
agent.py."""
import itertools
import os
import re
import subprocess
import time

from agents import (
    agent_of, agent_words, begin, beside, desk_for, journals_of, listed, measured,
    measured_beside, metric, of_web, provider, reply, run_agent, template, wait_until,
    want_once, want_reported)
from closing import SUBSETS, run_closed
from edges import ONCE, services
from lines import UNREADABLE
from replies import run_on_terminal
from world import DONE, LOCAL, Wrong, environment, expect, process


def run_agent_closed(desk, closed, *files, **more):
    """Runs an agent with these streams closed, and has what came of it."""
    words = [desk.world.program, *agent_words(desk, *files, **more)]
    return run_closed(words, desk.folder, closed)


def try_closed(world):
    """With each set of the three streams closed a measurement is reported once, no journal and no
    connection takes the place of a stream, and an output that is closed is status 5."""
    with provider(lambda *_: reply("0.25")) as server:
        beside(lambda closed: want_closed(world, server.port, closed), SUBSETS)
    return f"{len(SUBSETS)} sets"


def want_closed(world, port, closed):
    row = f"closed-{''.join(map(str, closed))}"
    # a provider has three seconds for its answer
    with desk_for(world, row, *services(port, "web", interval="3s")) as desk:
        # a service that is not at the desk: something is said of it
        desk.write("more.json", listed(*services(port, "web", "unknown", interval="3s")))
        before = (desk.folder / "more.json").read_bytes()
        for turn in (1, 2):
            ended = run_agent_closed(desk, closed, "more.json", options=ONCE)
            expect(f"{row}: {ended}", ended.status, LOCAL if 1 in closed else 1)
            expect(f"{row}: said", "unknown: there is no such service" in ended.errors
                   or 1 in closed, 2 not in closed or 1 in closed)
            found = measured(desk)
            expect(f"{row}: measured", [each.result for each in found], ["250000"] * turn)
            want_once(row, found)
            want_reported(row, desk, found)
            time.sleep(3.1)
        expect(f"{row}: the file", (desk.folder / "more.json").read_bytes(), before)
        want_values_closed(desk, closed, row)


def want_values_closed(desk, closed, row):
    """--values - with a closed input stops no measurement, and reads no journal. That it cannot be
    read is said, if standard error is open, and with --once the status is 5."""
    if 0 in closed and 1 not in closed:
        ended = run_agent_closed(desk, closed, options=(*ONCE, "--values", "-"))
        expect(f"{row}: --values -: {ended}", ended.status, LOCAL)
        expect(f"{row}: said", UNREADABLE in ended.errors, 2 not in closed)
        expect(f"{row}: measured", len(measured(desk)), 3)


def try_outputs(world):
    """An output that is full or has no reader ends the call with status 5, once the report is
    settled. A standard error that is full or has no reader ends nothing."""
    with provider(lambda *_: reply("0.25")) as server, \
            desk_for(world, "outputs", *services(server.port, "web")) as desk:
        for turn, row in enumerate(("full", "no reader"), 1):
            with open_output(row) as output, process(
                    [world.program, *agent_words(desk)], cwd=desk.folder, env=environment(),
                    stdin=subprocess.DEVNULL, stdout=output, stderr=subprocess.DEVNULL) as agent:
                expect(f"output: {row}", agent.wait(20), LOCAL)
            expect(f"{row}: measured", len(measured(desk)), turn)
            want_reported(row, desk, measured(desk))
            time.sleep(1.1)
        desk.write("more.json", listed(*services(server.port, "web", "unknown")))
        for row in ("full", "no reader"):
            with open_output(row) as errors, process(
                    [world.program, *agent_words(desk, "more.json")], cwd=desk.folder,
                    env=environment(), stdin=subprocess.DEVNULL, stdout=subprocess.DEVNULL,
                    stderr=errors) as agent:
                before = len(measured(desk))
                wait_until(f"errors: {row}", lambda: len(measured(desk)) > before + 1)
                expect(f"errors: {row}: it goes on", agent.poll(), None)
        want_once("outputs", measured(desk))


def open_output(row):
    if row == "full":
        return open("/dev/full", "wb")
    read, write = os.pipe()
    os.close(read)
    return os.fdopen(write, "wb")


def try_lines(world):
    """In a pipe a line is an object of JSON with its keys in order, and on a terminal a plain one:
    of a result, a list, a failure, a measurement that the desk refuses, and what is asked."""
    values = {"/one": "0.25", "/two": "[0.25, 2]", "/none": '"\x1b[31m"'}

    def answer(asked, _):
        return reply(values[asked.target])

    with provider(answer) as server:
        conditions = {"one": "result < 1", "two": "result[0] < 1 && result[1] < 1",
                      "none": "result < 1"}
        of = [metric(name, of_web(server.port, name), interval="3s", successCondition=condition)
              for name, condition in conditions.items()]
        with desk_for(world, "lines", template("of", *of), measured_beside("web", "of")) as desk:
            want_json(desk)
            time.sleep(3.1)
            want_plain_lines(desk, server.port)


def want_json(desk):
    ended = run_agent(desk, options=ONCE)
    lines = sorted(ended.output.splitlines())
    forms = [r'{"failure":"(?:[^"\\]|\\.)*u001b(?:[^"\\]|\\.)*","metric":"none\.e6n",'
             r'"ordinal":1,"phase":"Error",'
             r'"run":1,"service":"web","taken":\d+}',
             r'{"metric":"one\.e6n","ordinal":1,"phase":"Successful","result":250000,"run":1,'
             r'"service":"web","taken":\d+}',
             r'{"metric":"two\.e6np2","ordinal":1,"phase":"Failed","result":\[250000,2000000\],'
             r'"run":1,"service":"web","taken":\d+}']
    for line, form in itertools.zip_longest(lines, forms, fillvalue=""):
        if not re.fullmatch(form, line):
            raise Wrong(f"in a pipe: {line!r} in place of {form!r}")


def want_plain_lines(desk, port):
    for options, forms in (
            (("--dry-run",), [rf"web none asks 127\.0\.0\.1:{port}: GET /none",
                              r"web none failure: .*u001b.*:", r"web one 0\.25",
                              rf"web one asks 127\.0\.0\.1:{port}: GET /one",
                              r"web two \[0\.25,2\]",
                              rf"web two asks 127\.0\.0\.1:{port}: GET /two"]),
            (ONCE, [r"web none failure: .*u001b.*: Error", r"web one 0\.25 Successful",
                    r"web two \[0\.25,2\] Failed"])):
        status, shown = run_on_terminal(desk, *options)
        lines = sorted(line for line in shown.replace("\r", "").splitlines()
                       if "late by" not in line)
        expect(f"{options}: its status", status, DONE)
        for line, form in itertools.zip_longest(lines, forms, fillvalue=""):
            if not re.fullmatch(form, line):
                raise Wrong(f"on a terminal: {line!r} in place of {form!r}")


def try_refused(world):
    """What the desk refuses, since somebody else was first or the run is closed, is shown by its
    code, and the agent goes on."""
    refused = []
    with provider(lambda *_: time.sleep(.8) or reply("0.25")) as server, \
            desk_for(world, "refused", *services(server.port, "web")) as desk, \
            agent_of(desk) as agent:
        until = time.monotonic() + 60
        while not refused and time.monotonic() < until:
            wait_until("it is asked", lambda: server.asked)
            server.asked.clear()
            count = len(measured(desk))
            desk.do("report", "web", "1", "m.e6n", "500000", caller="other",
                    journal="other.journal")
            wait_until("one more", lambda: len(measured(desk)) > count)
            time.sleep(1)
            refused = [line["code"] for line in agent.lines() if "code" in line]
        if not refused or not set(refused) <= {"recorded", "out-of-turn", "too-early"}:
            raise Wrong(f"what was refused: {refused}")
        before = len(measured(desk))
        wait_until("it goes on", lambda: len(measured(desk)) > before + 1)
        caller = desk.do("abort", "web", caller="other", journal="other.journal")
        expect("abort", caller.status, DONE)
        time.sleep(2)
        begin(desk, "web", version="v3")
        wait_until("another attempt", lambda: [each for each in measured(desk) if each.run == 2])
        want_once("refused", measured(desk))
        expect("its journal", journals_of(desk)["agent-web"].caller, "agent-web")
