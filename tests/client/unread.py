"""What no desk could read, and what the client cannot: parts of client.py."""
import json
import pathlib
import subprocess

from replies import UNREAD, reply
from reports import NO_METRIC, add_measured, metric
from sends import HEADER
from strangers import JSON, body_with, serving
from world import (
    CONTRADICTION, DONE, LOCAL, REFUSED, REPLACED, STARTED, WORDS, add, answering, environment,
    expect, process, rollout, shown, want, want_all_said, want_delivered,
)

LATE_CLOCK = ("the clock is past the last moment that a desk takes, the end of the year 9998:"
              " nothing was asked")
REPLY_UNREAD = ("the desk's reply cannot be read: the desk is of another version, or something"
                " changed the reply on its way")
LAST_MOMENT = 253_370_764_799
CLOCK = pathlib.Path(__file__).with_name("clock.c")
VARIABLES = ("CANARY_DESK", "CANARY_AS", "CANARY_JOURNAL", "CANARY_JOURNALS")
# What the system makes of it is a byte that no UTF-8 has (PEP 383).
NOT_UTF8 = "\udcff"


def not_utf8(name):
    return f"the variable {name} is not UTF-8: nothing was asked"


def try_variables_not_utf8(world):
    """A variable that is not UTF-8 is refused where it counts, before anything is asked or written:
    no default takes its place. An option counts before it."""
    with world.desk("not-utf8") as desk:
        add(desk)
        right = {"CANARY_DESK": f"127.0.0.1:{desk.port}", "CANARY_AS": "ops",
                 "CANARY_JOURNAL": "ops.journal", "CANARY_JOURNALS": "journals"}
        options = {"CANARY_DESK": "--desk", "CANARY_AS": "--as", "CANARY_JOURNAL": "--journal"}
        desk.write("rows.csv", HEADER)
        calls = {
            "do": (["tick", "web"], VARIABLES[:3]), "get": (["web"], VARIABLES[:1]),
            "watch": (["web"], VARIABLES[:1]), "due": (["web"], VARIABLES[:1]),
            "send": (["rows.csv"], VARIABLES[:1]),
            "agent": (["--once", "none.yaml"], (VARIABLES[0], VARIABLES[3])),
        }
        before = desk.kept()
        rows = [(word, words, name, value) for word, (words, names) in calls.items()
                for name in names for value in (NOT_UTF8, right[name] + NOT_UTF8)]
        for word, words, name, value in rows:
            found = world.run([word, *words], desk.folder, variables={**right, name: value})
            want(f"{word}: {name}", found, WORDS, said=not_utf8(name))
            want_all_said(f"{word}: {name}", found, not_utf8(name))
        expect("what is made", sorted(each.name for each in desk.folder.iterdir()
                                      if "journal" in each.name), [])
        expect("what is asked", desk.kept(), before)
        for name, option in options.items():
            found = world.run(["do", option, right[name], "tick", "web"], desk.folder,
                              variables={**right, name: NOT_UTF8})
            want(f"{option} in the place of {name}", found, DONE, shown(STARTED))
        want_delivered("not UTF-8", desk)


def try_late_clock(world):
    """By a clock past the last moment that a desk takes a report is refused, and its journal is as
    before. By one at that moment the desk settles it, as one of the future."""
    place = world.place("late-clock-library")
    library = place / "clock.so"
    subprocess.run(["cc", "-O1", "-fPIC", "-shared", "-o", library, CLOCK], check=True)
    with world.desk("late-clock") as desk:
        add_measured(desk, metric("m", "1h"))
        want("tick", desk.do("tick", "web"), DONE, shown(STARTED))
        before = (desk.folder / "ops.journal").read_bytes()

        def report(seconds):
            return world.run(desk.words("report", "web", "1", "m", "5"), desk.folder,
                             variables={"LD_PRELOAD": str(library), "SECONDS": str(seconds)})

        for seconds in (LAST_MOMENT + 1, LAST_MOMENT + 2, 2 ** 40):
            want(seconds, report(seconds), LOCAL, said=LATE_CLOCK)
            expect("the journal", (desk.folder / "ops.journal").read_bytes(), before)
        found = report(LAST_MOMENT)
        expect("the last moment", (found.status, json.loads(found.output)["code"]),
               (REFUSED, "future"))
        want("tick", desk.do("tick", "web"), DONE, shown(STARTED))
        want_delivered("late clock", desk)


def run_with(**members):
    """The reply to a query of a run with one metric that has these members, too."""
    of_metric = {"due": 5, "measurements": 2, "name": "m", **members}
    return reply(200, body_with(code="ok", metrics=[of_metric]), JSON)


# Replies of a desk's pair of status and code that `due` cannot read: of a service, and of a run.
SERVICE = reply(200, body_with(code="ok", moment=9, open=[1], service="web"), JSON)
SERVICES_UNREAD = [reply(200, body_with(code="ok", **members), JSON) for members in (
    {}, {"moment": 9}, {"open": [1]}, {"moment": "9", "open": [1]}, {"moment": -9, "open": [1]},
    {"moment": 9, "open": {}}, {"moment": 9, "open": ["1"]}, {"moment": 9, "open": [-1]})]
RUNS_UNREAD = [reply(200, body_with(code="ok", **members), JSON) for members in (
    {}, {"metrics": {}}, {"metrics": [5]}, {"metrics": [{}]},
    {"metrics": [{"measurements": 2, "name": "m"}]})]
RUNS_UNREAD += [run_with(due="5"), run_with(due=-5), run_with(due=False), run_with(name=5),
                run_with(name=None), run_with(measurements="2"), run_with(measurements=-2)]
STANDING = {"code": "ok", "hold": "none", "moment": 9, "service": "web", "status": "Paused",
            "step": 1, "weight": 20}


def try_due_unread(world):
    """A reply that cannot be read is said, and never taken for one by which nothing is due."""
    place = world.place("due-unread")
    for words in (["due"], ["due", "--late", "1"], ["due", "--wait"]):
        for number, served in enumerate([[it] for it in SERVICES_UNREAD]
                                        + [[SERVICE, it] for it in RUNS_UNREAD]):
            with serving(*served) as port:
                found = world.run([*words, "--desk", f"127.0.0.1:{port}", "web"], place)
                want(f"{words} {number}", found, CONTRADICTION, said=REPLY_UNREAD)
                want_all_said(f"{words} {number}", found, REPLY_UNREAD)
    with serving(SERVICE, run_with(due=None)) as port:
        want("nothing is due", world.run(["due", "--desk", f"127.0.0.1:{port}", "web"], place),
             REFUSED)
    return f"{len(SERVICES_UNREAD) + len(RUNS_UNREAD)} replies"


def try_agent_unread(world):
    """Of such a reply the agent says the same, and measures nothing."""
    place = world.place("agent-unread")
    of = {"kind": "AnalysisTemplate", "metadata": {"name": "of"}, "spec": {"metrics": [
        {"name": "m", "successCondition": "result > 1",
         "provider": {"web": {"url": "http://127.0.0.1/"}}}]}}
    web = rollout("web", {"setWeight": 10}, {"analysis": {"templates": [{"templateName": "of"}]}})
    (place / "web.json").write_text(json.dumps({"kind": "List", "items": [of, web]}))
    releases = body_with(code="ok", moment=9, open=[1], service="web", stable="v1", version="v2")
    service = reply(200, releases, JSON)
    served = [[it] for it in SERVICES_UNREAD + [SERVICE]] + [[service, it] for it in RUNS_UNREAD]
    begun = reply(409, body_with(code="ahead", expected=1), JSON)
    for number, replies in enumerate(served):
        with serving(begun, *replies) as port:
            found = world.run(["agent", "--once", "--journals", f"journals-{number}", "--desk",
                               f"127.0.0.1:{port}", "web.json"], place)
            want(number, found, CONTRADICTION, said=f"web: {REPLY_UNREAD}")
    return f"{len(served)} replies"


def try_watch_unread(world):
    """The same of a service and of its history that `watch` cannot read. A call without end says
    so, and goes on."""
    place = world.place("watch-unread")
    standing = reply(200, body_with(**STANDING), JSON)
    lines = reply(200, body_with(code="ok", lines=["2026-01-01T00:00:00Z step 1 pause"]), JSON)
    unread = [[reply(200, body_with(**{**STANDING, **members}), JSON)] for members in (
        {"hold": "odd"}, {"hold": None}, {"status": "Odd"}, {"status": 5}, {"step": "1"},
        {"weight": -20}, {"service": None})]
    unread += [[standing, reply(200, body_with(code="ok", **members), JSON)] for members in (
        {}, {"lines": {}}, {"lines": [5]}, {"lines": ["2026-01-01T00:00:00Z step 1 pause", None]})]
    for words in (["watch"], ["watch", "--json"]):
        for number, served in enumerate(unread):
            with serving(*served) as port:
                found = world.run([*words, "--desk", f"127.0.0.1:{port}", "web"], place)
                want(f"{words} {number}", found, CONTRADICTION, said=REPLY_UNREAD)
                want_all_said(f"{words} {number}", found, REPLY_UNREAD)
    # a pause that would end after the last moment does not end
    late = reply(200, body_with(code="ok", lines=["9998-12-31T23:59:30Z step 1 pause 60s"]), JSON)
    with serving(standing, late) as port:
        found = world.run(["watch", "--until", "Paused", "--desk", f"127.0.0.1:{port}", "web"],
                          place)
        want("a pause past the last moment", found, DONE,
             "web Paused, step 1, weight 20%, pause of 60 s, which does not end\n")
    with serving(standing, late) as port:
        found = world.run(["watch", "--json", "--until", "Paused", "--desk", f"127.0.0.1:{port}",
                           "web"], place)
        expect("its end in JSON", (found.status, json.loads(found.output)["until"]), (DONE, None))
    with serving(*unread[0] * 3, *[standing, lines] * 100) as port, process(
            [world.program, "watch", "--forever", "--desk", f"127.0.0.1:{port}", "web"], cwd=place,
            env=environment(), stdin=subprocess.DEVNULL, stdout=subprocess.PIPE,
            stderr=subprocess.PIPE) as watch:
        expect("it goes on", watch.stdout.readline(),
               b"web Paused, step 1, weight 20%, waits for a promotion\n")
        watch.kill()
        expect("what it said, once", watch.stderr.read().splitlines(),
               [f"canary: {REPLY_UNREAD}".encode()])
    return f"{len(unread)} replies"


def try_report_unread(world):
    """No report is written into a journal whose ordinal no desk takes, or which a reply does not
    say."""
    with world.desk("report-unread") as desk:
        add_measured(desk, metric("m", "1h"))
        want("tick", desk.do("tick", "web"), DONE, shown(STARTED))
        before = (desk.folder / "ops.journal").read_bytes()
        rows = [reply(200, body_with(code="ok"), JSON), run_with(measurements=None),
                run_with(measurements="2"), run_with(measurements=10 ** 9),
                run_with(measurements=2 ** 32), run_with(measurements=2 ** 64 - 1)]
        for number, served in enumerate(rows):
            with serving(served) as port:
                found = desk.do("report", "web", "1", "m", "5", port=port)
                want(f"row {number}", found, CONTRADICTION, said=REPLY_UNREAD)
            expect("the journal", (desk.folder / "ops.journal").read_bytes(), before)
        with serving(run_with(name="other")) as port:
            want("no metric", desk.do("report", "web", "1", "m", "5", port=port), REFUSED,
                 said=NO_METRIC)
        heard = []

        def answer(client):
            heard.append(client.recv(65536))
            client.sendall(run_with(measurements=10 ** 9 - 1) if heard[-1].startswith(b"GET")
                           else reply(422, '{"code":"ahead-of-measurements"}', JSON))

        with answering(answer) as port:
            desk.do("report", "web", "1", "m", "5", port=port, tries=1)
        expect("the last ordinal", json.loads(heard[-1].split(b"\r\n\r\n", 1)[1])
               ["report"]["entries"][0]["ordinal"], 10 ** 9)


def unreadable():
    """A server that answers each command as one that it cannot read."""
    def answer(client):
        message = client.recv(65536)
        client.sendall(run_with() if message.startswith(b"GET")
                       else reply(400, '{"code":"unreadable"}', JSON))
    return answering(answer)


def try_given_up(world):
    """A command that the desk cannot read gives way to another one, once, also a report; then the
    journal is moved away, and what was pending in it never acts."""
    def report(row, port):
        want(row, desk.do("report", "web", "1", "m", "5", port=port), CONTRADICTION, said=UNREAD)

    with world.desk("given-up") as desk:
        add_measured(desk, metric("m", "0s"))
        want("tick", desk.do("tick", "web"), DONE, shown(STARTED))
        with unreadable() as port:
            report("given up", port)
        want("instead", desk.do("tick", "web", options=("--instead",)), DONE, shown(STARTED))
        want_delivered("given up", desk)
        with unreadable() as port:
            report("stuck", port)
            for _ in range(2):
                want("a second", desk.do("tick", "web", port=port, options=("--instead",)),
                     CONTRADICTION, said=UNREAD)
            want("a third", desk.do("abort", "web", port=port, options=("--instead",)),
                 CONTRADICTION, said=REPLACED)
        (desk.folder / "ops.journal").rename(desk.folder / "ops.journal.old")
        want("a new journal", desk.do("tick", "web"), DONE, shown(STARTED))
        want_delivered("a new journal", desk)
        run = json.loads(desk.ask("get", "web", "1").output)
        expect("measurements", [each["measurements"] for each in run["metrics"]], [0])
