"""Reports, and measurements that are due: parts of client.py."""
import csv
import os
import pathlib
import subprocess
import threading
import time

from book_files import copy
from world import (
    BEHIND, DONE, PENDING, PENDING_SAID, REFUSED, WORDS, Caller, Late, Wrong, answering, ask,
    environment, expect, free_port, install, process, rollout, want, want_delivered, want_seconds,
)

AGENT = pathlib.Path(__file__).resolve().parents[2] / "examples" / "operations" / "report"

NO_SERVICE = "there is no such service"
NO_RUN = "there is no such run"
NO_METRIC = "the run has no such metric"
FAILURE = "why a measurement failed is a text of 1 to 200 bytes"
RUN = "the number of a run is 1 to 1000000000"
RESULT = "the result is neither a whole number nor a list of them, as [1,2]"
NOT_IN_TIME = "what is waited for did not come in time"
COMMAND = ("a command is promote, promote-full, abort, retry or tick SERVICE; start SERVICE"
           " VERSION; template FILE; service FILE VERSION; report SERVICE RUN METRIC RESULT, or"
           " with --failure TEXT in place of RESULT")
BAD_METRIC = "the METRIC has an invalid name: 1 to 63 of A-Z, a-z, 0-9, '.', '_' and '-'"
INVALID_NAME = ("the service has an invalid name: 1 to 63 of a-z, 0-9 and '-', no '-' at an end")
# Neither a whole number of 64 bits nor a list of 1 to 16 of them.
NO_RESULTS = (
    "", " ", " 5", "5\n", "[1, 2]", "five", "5.0", "1e2", "0x5", "05", "-0", "+5", "--5", "-",
    "5 5", "5,6", "null", "true", '"5"', "{}", "[]", "[1,]", "[[1]]", "[1,2", '["1"]', "[1.5]",
    "[-0]", "9223372036854775808", "-9223372036854775809", "[9223372036854775808]",
    "[1,2,3,4,5,6,7,8,9,10,11,12,13,14,15,16,17]", '5,"result":6', '5,"failure":"x"',
    '5},{"metric":"m","ordinal":2,"taken":0,"result":6',
    '5}],"run":2,"entries":[{"metric":"m","ordinal":1,"taken":0,"result":7',
    '5}],"service":"other","entries":[{"metric":"m","ordinal":1,"taken":0,"result":7',
)


def metric(name, interval):
    return {"name": name, "interval": interval, "failureLimit": 500,
            "consecutiveErrorLimit": 500}


def add_measured(desk, *metrics, name="web"):
    """Adds a service whose background measures these, and starts it."""
    setup = Caller(desk, f"setup-{name}")
    setup.send({"template": {"metadata": {"name": f"of-{name}"}, "spec": {"metrics": [*metrics]}}})
    setup.send({"service": {"version": "v1", "manifest": rollout(
        name, {"setWeight": 20}, {"pause": {}},
        analysis={"templates": [{"templateName": f"of-{name}"}]})}})
    setup.send({"start": {"service": name, "version": "v2"}})
    return setup


def recorded(phase, service="web", run=1):
    """The body of the reply to a report of one measurement, at the pause of a background's run."""
    return (f'{{"code":"ok","phases":["{phase}"],"run":{run},"service":"{service}",'
            '"status":"Paused","step":1,"verdict":"Running","weight":20}\n')


def measured(desk, service="web"):
    """The metric, ordinal, result and failure of each measurement, by an export of a copy."""
    copy(desk.folder / "desk.db", desk.folder / "exported.db")
    found = desk.world.run(["export", "--db", "exported.db", "--caller", "a", service], desk.folder)
    expect("export", found.status, 0)
    rows = csv.DictReader(found.output.splitlines(keepends=True))
    return sorted((row["metric"], int(row["ordinal"]), row["result"], row["failure"])
                  for row in rows)


def try_reports(world):
    """A report gets the ordinal that comes next of its metric in its run, and the moment."""
    text = 'he said "no",\nthen \\ left\t; \u00fcber \u2192 5'
    with world.desk("reports") as desk:
        add_measured(desk, metric("m", "0s"), metric("n", "0s"))
        agent = {"caller": "agent", "journal": "agent.journal"}
        begun = int(time.time())
        for words, phase in (
                (("m", "5"), "Successful"), (("m", "[1,2]"), "Successful"),
                (("m", "--failure", text), "Error"), (("n", "--", "-5"), "Successful"),
                (("m", "--failure=-5"), "Error"),
                (("m", "9223372036854775807"), "Successful"),
                (("n", "--", "-9223372036854775808"), "Successful"),
                (("n", "--", "[-1,0,1,2,3,4,5,6,7,8,9,10,11,12,13,14]"), "Successful"),
                (("n", "--failure", "x" * 200), "Error")):
            options = [word for word in words if word.startswith("--failure")]
            options += [words[2]] if "--failure" in words else []
            rest = [word for word in words if word not in options]
            want(words, desk.do("report", "web", "1", *rest, options=options, **agent), DONE,
                 recorded(phase))
        # somebody else reports, too
        other = Caller(desk, "other")
        other.send({"report": {"service": "web", "run": 1, "entries": [
            {"metric": "m", "ordinal": 6, "taken": int(time.time()), "result": 7}]}})
        want("after another", desk.do("report", "web", "1", "m", "8", **agent), DONE,
             recorded("Successful"))
        expect("measurements", measured(desk), [
            ("m", 1, "5", ""), ("m", 2, "[1;2]", ""), ("m", 3, "", text), ("m", 4, "", "-5"),
            ("m", 5, "9223372036854775807", ""), ("m", 6, "7", ""), ("m", 7, "8", ""),
            ("n", 1, "-5", ""), ("n", 2, "-9223372036854775808", ""),
            ("n", 3, "[-1;0;1;2;3;4;5;6;7;8;9;10;11;12;13;14]", ""), ("n", 4, "", "x" * 200)])
        taken = [row[0] for row in desk.rows("SELECT taken FROM measurement")]
        if not begun <= min(taken) <= max(taken) <= time.time():
            raise Wrong(f"the moments are {taken}, from {begun} on")
        want_delivered("reports", desk, "agent", "agent.journal")


def try_pending_report(world):
    """A report that is pending is sent again as it was, with its ordinal and its moment; another
    one gets the ordinal after it."""
    with world.desk("pending-report") as desk:
        add_measured(desk, metric("m", "0s"))

        def answer(client):
            message = client.recv(65536)
            reply = ask(desk.port, message)
            if b"/requests/1 " not in message:
                client.sendall(reply)

        with answering(answer) as port:
            want("first", desk.do("report", "web", "1", "m", "5", port=port, tries=1), PENDING,
                 said=PENDING_SAID)
        body = desk.journal().pending.body_asked
        time.sleep(1.1)
        want("again", desk.do("report", "web", "1", "m", "5"), DONE, recorded("Successful"))
        expect("its bytes", desk.journal().kept[0].body_asked, body)
        expect("one measurement", measured(desk), [("m", 1, "5", "")])
        desk.kill()
        want("no desk", desk.do("tick", "web", tries=1), PENDING, said=PENDING_SAID)
        desk.start()
        want("after it", desk.do("report", "web", "1", "m", "6"), DONE, recorded("Successful"),
             BEHIND)
        expect("two measurements", measured(desk), [("m", 1, "5", ""), ("m", 2, "6", "")])
        want_delivered("pending report", desk)


def losing(desk):
    """A server before a desk that loses the replies to commands: it answers a query, and the
    request by which a journal begins."""
    def answer(client):
        message = client.recv(65536)
        found = ask(desk.port, message)
        if b"/requests/" not in message or b"/requests/1000000000 " in message:
            client.sendall(found)
    return answering(answer)


def try_reports_that_differ(world):
    """Reports of another result, failure, metric or run mean something else: none is taken for the
    one that is pending, so each of them is measured."""
    with world.desk("reports-that-differ") as desk:
        add_measured(desk, metric("m", "0s"), metric("n", "0s"))
        text, other = ("--failure", "none"), ("--failure", "none at all")
        rows = ((("m", "5"), (), ("m", "6"), ()), (("m", "[1]"), (), ("m", "[1,1]"), ()),
                (("m",), text, ("m",), other), (("m", "7"), (), ("m",), text),
                (("m", "8"), (), ("n", "8"), ()))
        for first, options, second, other_options in rows:
            with losing(desk) as port:
                want(first, desk.do("report", "web", "1", *first, port=port, tries=1,
                                    options=options), PENDING, said=PENDING_SAID)
            phase = "Error" if other_options else "Successful"
            want(second, desk.do("report", "web", "1", *second, options=other_options), DONE,
                 recorded(phase), BEHIND)
        expect("measurements", measured(desk), [
            ("m", 1, "5", ""), ("m", 2, "6", ""), ("m", 3, "[1]", ""), ("m", 4, "[1;1]", ""),
            ("m", 5, "", "none"), ("m", 6, "", "none at all"), ("m", 7, "7", ""),
            ("m", 8, "", "none"), ("m", 9, "8", ""), ("n", 1, "8", "")])
        want_delivered("reports that differ", desk)


def try_invalid_results(world):
    """What is no result is refused before anything is sent, and no journal is begun."""
    with world.desk("invalid-results") as desk:
        add_measured(desk, metric("m", "0s"))
        for result in NO_RESULTS:
            want(repr(result), desk.do("report", "web", "1", "m", "--", result), WORDS,
                 said=RESULT)
        for text in ("", "x" * 201, "\u00fc" * 101):
            want(f"a failure of {len(text)}", desk.do("report", "web", "1", "m",
                                                      options=("--failure", text)), WORDS,
                 said=FAILURE)
        for run in ("0", "1000000001", "4294967296", "one", "1.0", "", "-1"):
            want(f"run {run!r}", desk.do("--", "report", "web", run, "m", "5"), WORDS, said=RUN)
        for words, said in ((("report", "web", "1", "m"), COMMAND),
                            (("report", "Web", "1", "m", "5"), INVALID_NAME),
                            (("report", "web", "1", "m m", "5"), BAD_METRIC)):
            want(words, desk.do(*words), WORDS, said=said)
        want("both", desk.do("report", "web", "1", "m", "5", options=("--failure", "x")), WORDS,
             said=COMMAND)
        expect("no journal", (desk.folder / "ops.journal").exists(), False)
        expect("no measurement", desk.rows("SELECT count(*) FROM measurement"), [(0,)])
        expect("no request", desk.kept(), [])


def try_unknown(world):
    """A service, a run or a metric that is not there: nothing is asked."""
    with world.desk("unknown") as desk:
        add_measured(desk, metric("m", "0s"))
        for words, said in ((("none", "1", "m", "5"), NO_SERVICE), (("web", "2", "m", "5"), NO_RUN),
                            (("web", "1", "none", "5"), NO_METRIC)):
            want(words, desk.do("report", *words), REFUSED, said=said)
        found = desk.journal()
        expect("the journal", (found.before, found.kept, found.pending), (0, [], None))
        expect("no request", desk.kept(), [])


def try_agent(world):
    """The agent of examples/operations: it settles what is pending, asks what is due, measures and
    reports that, also if there was no desk meanwhile, if a measurement cannot be taken or is no
    result, or if the name of a metric or a result begins with a dash."""
    with world.desk("agent") as desk:
        add_measured(desk, metric("m", "1s"), metric("n", "1s"), metric("-x", "1s"))
        (desk.folder / "bin").mkdir()
        (desk.folder / "bin" / "canary").symlink_to(world.program)
        install(desk.folder / "bin" / "measure",
                text='#!/bin/sh\n[ "$2" != half ] || exec echo 0.5\n'
                     '[ "$1" = web ] && [ "$2" != n ] && echo -5\n')
        variables = {"PATH": f"{desk.folder}/bin:{os.environ['PATH']}",
                     "CANARY_DESK": f"127.0.0.1:{desk.port}", "AGENT_FOLDER": str(desk.folder)}

        def call(row, status, output, service="web"):
            with process([str(AGENT), service], cwd=desk.folder, env=environment(**variables),
                         stdin=subprocess.DEVNULL, stdout=subprocess.PIPE,
                         stderr=subprocess.PIPE) as agent:
                found = agent.communicate(timeout=120)
                expect(row, (agent.returncode, found[0].decode()), (status, output))

        each = recorded("Successful") + recorded("Error") + recorded("Successful")
        call("first", 0, each)
        desk.kill()
        variables["CANARY_DESK"] = f"127.0.0.1:{free_port()}"
        call("no desk", PENDING, "")
        desk.start()
        variables["CANARY_DESK"] = f"127.0.0.1:{desk.port}"
        time.sleep(1.1)
        call("second", 0, each)
        expect("measurements", measured(desk), [
            ("-x", 1, "-5", ""), ("-x", 2, "-5", ""), ("m", 1, "-5", ""), ("m", 2, "-5", ""),
            ("n", 1, "", "not measured"), ("n", 2, "", "not measured")])
        want_delivered("agent", desk, "agent-web", "web.journal")
        add_measured(desk, metric("slow", "1h"), name="seldom")
        call("of another service", 0, recorded("Error", "seldom"), "seldom")
        call("nothing is due", 0, "", "seldom")
        add_measured(desk, metric("half", "1h"), metric("slow", "1h"), name="halves")
        call("no result before another metric", WORDS, recorded("Error", "halves"), "halves")


def want_too_early(desk, ordinal, interval):
    """The report after the one with this ordinal is refused, before so many seconds are over."""
    found, ended = desk.do("report", "web", "1", "m", "5"), time.time()
    (taken,), = desk.rows("SELECT taken FROM measurement WHERE service = 'web' AND metric = 0"
                          " AND ordinal = ?", ordinal)
    if found.status == DONE and ended >= taken + interval:
        raise Late("a report that is to be too early came too late")
    expect("too early", (found.status, found.output),
           (REFUSED, f'{{"at":0,"code":"too-early","due":{taken + interval}}}\n'))


def try_due(world):
    """What is due, and waiting for it: the report after it is never too early."""
    with world.desk("due") as desk:
        add_measured(desk, metric("m", "3s"), metric("slow", "1h"))
        add_measured(desk, metric("slow", "1h"), name="seldom")
        setup = Caller(desk, "setup")
        setup.send({"service": {"version": "v1", "manifest": rollout("plain", {"pause": {}})}})
        want("both", desk.ask("due", "web"), DONE, "1 m 1\n1 slow 1\n")
        want("one", desk.ask("due", "seldom"), DONE, "1 slow 1\n")
        want("report", desk.do("report", "seldom", "1", "slow", "5"), DONE,
             recorded("Successful", "seldom"))
        want("none", desk.ask("due", "seldom"), REFUSED)
        begun = time.monotonic()
        want("none in time", desk.ask("due", "--wait", "--timeout", "2", "seldom"), PENDING,
             said=NOT_IN_TIME)
        want_seconds("due --timeout 2", time.monotonic() - begun, 2, 20)
        for words in (["plain"], ["--wait", "plain"]):
            want("no run", desk.ask("due", *words), REFUSED)
        for words in (["none"], ["--wait", "none"]):
            want("no service", desk.ask("due", *words), REFUSED, said=NO_SERVICE)
        want("no name", desk.ask("due", "None"), WORDS, said=INVALID_NAME)
        want("slow", desk.do("report", "web", "1", "slow", "5"), DONE, recorded("Successful"))
        for ordinal in (1, 2, 3):
            want(f"ordinal {ordinal}", desk.ask("due", "--wait", "--timeout", "60", "web"), DONE,
                 f"1 m {ordinal}\n")
            want(f"report {ordinal}", desk.do("report", "web", "1", "m", "5"), DONE,
                 recorded("Successful"))
        want_too_early(desk, 3, 3)
        # the run ends while a call waits
        with_wait = ["due", "--wait", "seldom"]
        ending = threading.Timer(.5, lambda: setup.send({"promoteFull": {"service": "seldom"}}))
        ending.start()
        want(with_wait, desk.ask(*with_wait), REFUSED)
        ending.join()
        want_delivered("due", desk)


def add_analysed(desk, name, background, step):
    """A release of a service with a run in the background and one of its step, with a metric
    each."""
    setup = Caller(desk, f"setup-{name}")
    for number, measured_by in enumerate((background, step), 1):
        setup.send({"template": {"metadata": {"name": f"{name}-{number}"},
                                 "spec": {"metrics": [measured_by]}}})
    templates = [{"templates": [{"templateName": f"{name}-{number}"}]} for number in (1, 2)]
    setup.send({"service": {"version": "v1", "manifest": rollout(
        name, {"setWeight": 20}, {"analysis": templates[1]}, analysis=templates[0])}})
    setup.send({"start": {"service": name, "version": "v2"}})


def try_due_of_two_runs(world):
    """What is due of either of two open runs is reported, whichever of them waits."""
    with world.desk("due-of-two-runs") as desk:
        seldom = {**metric("seldom", "1h"), "count": 2}
        often = {**metric("often", "0s"), "count": 9}
        for name, background, step in (("first", often, seldom), ("second", seldom, often)):
            add_analysed(desk, name, background, step)
            run = 2 if name == "first" else 1
            want("both", desk.ask("due", name), DONE,
                 f"1 {background['name']} 1\n2 {step['name']} 1\n")
            expect("one is measured", desk.do("report", name, str(run), "seldom", "5",
                                              caller=name, journal=name).status, DONE)
            for words in (["due"], ["due", "--wait", "--timeout", "20"], ["due", "--wait"]):
                want(f"{words} {name}", desk.ask(*words, name), DONE, f"{3 - run} often 1\n")
        want("both services", desk.ask("due", "first", "second"), DONE,
             "first 1 often 1\nsecond 2 often 1\n")
        expect("it is measured", desk.do("report", "first", "1", "often", "5", caller="first",
                                         journal="first").status, DONE)
