"""A desk that goes on from an older copy of its file, as after a restore or on a stand-by, and one
that begins anew with a new file: what each kind of caller gets. Parts of client.py."""
import json
import shutil
import time

from reports import add_measured, metric
from sends import HEADER, ROWS_REFUSED, ROW_AHEAD, line, want_sent
from world import (
    ABORTED, AHEAD, CONTRADICTION, DONE, ENDED, PENDING, PENDING_SAID, PROMOTED, REFUSED,
    REUSED, STARTED, Caller, add, answering, ask, expect, put, shown, shows, two_pauses, want,
    want_delivered,
)

SERVICES = ("web", "shop", "mail", "pay", "blog", "news")
AGENT_AHEAD = f"canary: measured: {AHEAD}\n"
TEMPLATE = {"kind": "AnalysisTemplate", "metadata": {"name": "t"}, "spec": {"metrics": [
    {"name": "m", "interval": "1s", "failureLimit": 500, "successCondition": "result >= 1",
     "provider": {"plugin": {}}}]}}


def copied(desk):
    """A copy of the desk's file, made as it runs."""
    expect("backup", desk.world.run(["backup", "--db", "desk.db", "old.db"], desk.folder).status, 0)


def restore(desk):
    desk.kill()
    for end in ("", "-wal"):
        shutil.move(desk.folder / f"old.db{end}", desk.folder / f"desk.db{end}")
    desk.start()


def put_away(desk, name):
    """Ends the desk, and gives its file and its log another name."""
    desk.kill()
    for end in ("", "-wal"):
        shutil.move(desk.folder / f"desk.db{end}", desk.folder / f"{name}{end}")


def by(caller):
    return {"caller": caller, "journal": f"{caller}.journal"}


def loses(desk):
    """A server that has the desk settle each message, and answers none."""
    def answer(client):
        ask(desk.port, client.recv(65536))
    return answering(answer)


def loses_first(desk):
    """The same, but it answers what a client asks before its first command."""
    def answer(client):
        message = client.recv(65536)
        found = ask(desk.port, message)
        if b"/requests/1 " not in message:
            client.sendall(found)
    return answering(answer)


def try_copy_lacks(world):
    """What each caller with a journal gets of a desk that lacks what it settled after the copy."""
    with world.desk("copy-lacks") as desk:
        add(desk, *SERVICES)
        for caller in ("same", "more", "away", "unheard", "other", "twin"):
            want(f"{caller}: before", desk.do("tick", "web", **by(caller)), DONE, shown(STARTED))
        copied(desk)
        key = ("--once", "deploy-7")
        for caller, service in (("more", "web"), ("other", "blog"), ("twin", "news")):
            found = desk.do("promote", service, options=key, **by(caller))
            want(f"{caller}: after the copy", found, DONE, shown(PROMOTED, service))
        with loses(desk) as port:
            found = desk.do("promote", "mail", port=port, tries=1, **by("unheard"))
        want("unheard: the reply is lost", found, PENDING, said=PENDING_SAID)
        expect("unheard: settled", desk.count("promote").get("mail"), 1)
        desk.kill()
        want("away: no desk", desk.do("promote", "shop", tries=1, **by("away")), PENDING,
             said=PENDING_SAID)
        restore(desk)
        expect("the copy lacks them", desk.count("promote"), {})
        want_older(desk)
        want("same: it goes on", desk.do("promote", "pay", **by("same")), DONE,
             shown(PROMOTED, "pay"))
        want("away: it acts once", desk.do("promote", "shop", **by("away")), DONE,
             shown(PROMOTED, "shop"))
        want("unheard: it acts once", desk.do("promote", "mail", **by("unheard")), DONE,
             shown(PROMOTED, "mail"))
        want_more(desk, key)
        want_used(desk, key)
        expect("promotions", desk.count("promote"),
               {"web": 1, "shop": 1, "mail": 1, "pay": 1})


def want_older(desk):
    """What is shown, also to a follower, is where the service was as the copy was made."""
    for words in (("get", "web"), ("watch", "--json", "--until", "Paused", "web")):
        found = desk.ask(*words)
        stand = json.loads(found.output)
        expect(words, (found.status, stand["status"], stand["weight"]), (DONE, "Paused", 20))


def want_more(desk, key):
    """A journal that has more than the desk: nothing acts, until the journal is moved away."""
    want("more: ahead", desk.do("abort", "web", **by("more")), CONTRADICTION, said=AHEAD)
    want("more: what the journal has as done", desk.do("promote", "web", options=key, **by("more")),
         DONE, shown(PROMOTED))
    expect("more: it is not done here", desk.count("promote").get("web"), None)
    (desk.folder / "more.journal").rename(desk.folder / "more.journal.old")
    want("more: anew", desk.do("promote", "web", options=key, **by("more")), DONE, shown(PROMOTED))
    want_delivered("more", desk, **by("more"))


def want_used(desk, key):
    """Somebody used up numbers after the restore: more than the journal has, and just as many."""
    for number in (2, 3):
        expect("other: its numbers",
               put(desk.port, "other", number, '{"tick":{"service":"blog"}}')[0], 200)
    want("other: reused", desk.do("promote", "blog", **by("other")), CONTRADICTION, said=REUSED)
    # the numbers agree again: the client cannot see that its promotion is not there
    expect("twin: its number", put(desk.port, "twin", 2, '{"tick":{"service":"news"}}')[0], 200)
    want("twin: it goes on", desk.do("tick", "news", **by("twin")), DONE, shown(STARTED, "news"))
    found = desk.do("promote", "news", options=key, **by("twin"))
    want("twin: what the journal has as done", found, DONE, shown(PROMOTED, "news"))


def rows(first, last, taken):
    return "".join(f"csv,{at},measured,1,m,{at},{taken},{90 + at % 10},\n"
                   for at in range(first, last + 1))


def try_copy_lacks_rows(world):
    """A measurement file that is sent as a whole brings back what the copy lacks; one that begins
    after that is ahead."""
    with world.desk("copy-lacks-rows") as desk:
        add_measured(desk, metric("m", "0s"), name="measured")
        taken = int(time.time())
        lines = [line(at).replace('"web"', '"measured"') for at in range(1, 6)]
        desk.write("rows.csv", HEADER + rows(1, 3, taken))
        want_sent("before", desk.ask("send", "rows.csv"), DONE, "".join(lines[:3]), (3, 0, 0))
        copied(desk)
        desk.write("rows.csv", HEADER + rows(1, 5, taken))
        want_sent("after the copy", desk.ask("send", "rows.csv"), DONE, "".join(lines), (5, 0, 0))
        restore(desk)
        desk.write("later.csv", HEADER + rows(6, 6, taken))
        want("a file of later rows", desk.ask("send", "later.csv"), CONTRADICTION,
             '1 409 {"code":"ahead","expected":4}\n', ROW_AHEAD)
        want_sent("the whole file", desk.ask("send", "rows.csv"), DONE, "".join(lines), (5, 0, 0))
        expect("measurements", desk.rows("SELECT ordinal FROM measurement ORDER BY ordinal"),
               [(at,) for at in range(1, 6)])


def agent(desk, *files):
    """An agent that looks once: its status, how many it reported, and what it says."""
    found = desk.world.run(["agent", "--once", "--desk", f"127.0.0.1:{desk.port}", "--journals",
                            "journals", "--values", "values", "t.json", "r.json", *files],
                           desk.folder)
    said = "".join(each + "\n" for each in found.errors.splitlines() if " is late by " not in each)
    return found.status, found.output.count('"phase":"Successful"'), said


def add_for_agent(desk, name="measured", file="r.json"):
    """A service that the agent measures by values from a file."""
    manifest = two_pauses(name)
    manifest["spec"]["strategy"]["canary"]["analysis"] = {"templates": [{"templateName": "t"}]}
    for written, value in (("t.json", TEMPLATE), (file, manifest), ("values", "measured m 5\n")):
        desk.write(written, value)
    for words in (("template", "t.json", file), ("service", "t.json", file, "v1")):
        expect(words, desk.do(*words, options=("--argo",)).status, DONE)
    expect("start", desk.do("start", name, "v2").status, DONE)


def try_copy_lacks_reports(world):
    """An agent whose journal has more than the desk reports nothing, and says so, until the
    journals are moved away; then it measures on, from what the copy has."""
    with world.desk("copy-lacks-reports") as desk:
        add_for_agent(desk)
        expect("before", agent(desk), (DONE, 1, ""))
        copied(desk)
        time.sleep(1.1)
        expect("after the copy", agent(desk), (DONE, 1, ""))
        restore(desk)
        for _ in range(2):
            expect("ahead", agent(desk), (CONTRADICTION, 0, AGENT_AHEAD))
        add_for_agent(desk, "calm", "calm.json")
        desk.write("values", "calm m 5\n")
        expect("another service", agent(desk, "calm.json"), (CONTRADICTION, 1, AGENT_AHEAD))
        (desk.folder / "journals").rename(desk.folder / "journals.old")
        desk.write("values", "measured m 5\n")
        expect("anew", agent(desk), (DONE, 1, ""))
        found = desk.rows("SELECT service, ordinal FROM measurement ORDER BY place")
        expect("measurements", found, [("measured", 1), ("calm", 1), ("measured", 2)])


def try_moved(world):
    """A desk that goes on elsewhere, from its file and its log themselves: nobody notices."""
    with world.desk("moved") as desk, world.desk("moved-to") as other:
        add_for_agent(desk)
        expect("an agent: before", agent(desk), (DONE, 1, ""))
        with loses(desk) as port:
            found = desk.do("promote", "measured", port=port, tries=1)
        want("the reply is lost", found, PENDING, said=PENDING_SAID)
        put_away(desk, "moved.db")
        other.kill()
        for end in ("", "-wal"):
            shutil.copy(desk.folder / f"moved.db{end}", other.folder / f"desk.db{end}")
        other.start()
        found = desk.do("promote", "measured", port=other.port)
        want("it finds out", found, DONE, shown(PROMOTED, "measured"))
        expect("it acted once", other.count("promote"), {"measured": 1})
        desk.port = other.port
        time.sleep(1.1)
        expect("an agent: there", agent(desk), (DONE, 1, ""))
        want("the next one", desk.do("promote", "measured"), DONE, shown(ENDED, "measured"))


def succeeded(desk):
    """What `canary succeed` says of the desk's file, and makes of it beside it."""
    found = desk.world.run(["succeed", "--db", "desk.db", "new.db"], desk.folder)
    return found.status, found.output, found.errors


def go_on(desk):
    """The desk goes on with a new file that succeeds its own, which is kept under another name."""
    desk.kill()
    expect("succeed", succeeded(desk), (0, "succeeded\n", ""))
    put_away(desk, "kept.db")
    for end in ("", "-wal"):
        shutil.move(desk.folder / f"new.db{end}", desk.folder / f"desk.db{end}")
    desk.start()


def try_new_file(world):
    """A desk that goes on with a new file, which succeeds its own: what callers get, and what each
    has to do."""
    with world.desk("new-file") as desk:
        add_for_agent(desk)
        expect("an agent: before", agent(desk), (DONE, 1, ""))
        expect("in use", succeeded(desk), (1, "", "canary: in-use\n"))
        setup, team = Caller(desk, "setup"), by("team")
        for name in ("web", "shop"):
            setup.send({"service": {"version": "v1", "manifest": two_pauses(name)}})
            setup.send({"start": {"service": name, "version": "v2"}})
        key = {"options": ("--once", "deploy-7"), **team}
        want("before", desk.do("promote-full", "web", **key), DONE, shown(ENDED))
        want("before: an abort", desk.do("abort", "shop", **team), DONE, shown(ABORTED, "shop"))
        with loses_first(desk) as port:
            found = desk.do("tick", "web", port=port, tries=1, **by("first"))
        want("first: the reply is lost", found, PENDING, said=PENDING_SAID)
        desk.kill()
        expect("in progress", succeeded(desk), (1, "", "canary: in-progress\n"))
        desk.start()
        want("nothing is in progress", desk.do("promote-full", "measured"), DONE,
             shows("measured", "Healthy", 4, 100) + "\n")
        go_on(desk)
        want_nothing_lacks(desk)
        want_journals(desk, key)
        want_measured(desk)
        want_past(desk)


def want_nothing_lacks(desk):
    """What those get that need no journal: each service, done at its stable version."""
    for name, version in (("web", "v2"), ("shop", "v1"), ("measured", "v2")):
        stand = json.loads(desk.ask("get", name).output)
        expect(f"a query of {name}", [stand[word] for word in ("status", "version", "stable",
                                                               "weight", "runs")],
               ["Healthy", version, version, 100, 0])
    want("a run of the old desk", desk.ask("get", "measured", "1"), REFUSED,
         '{"code":"unknown-run"}\n')
    found = desk.ask("due", "measured")
    expect("what is due", (found.status, found.output, found.errors), (REFUSED, "", ""))
    found = desk.ask("watch", "--json", "--timeout", "30", "--until", "Healthy", "shop")
    expect("a follower", (found.status, json.loads(found.output)["weight"]), (DONE, 100))
    desk.write("rows.csv", HEADER + rows(1, 1, 1))
    want_sent("rows of a run that is not there", desk.ask("send", "rows.csv"), ROWS_REFUSED,
              '1 422 {"code":"unknown-run"}\n', (0, 0, 1))


def want_journals(desk, key):
    """What those get that have a journal of the old desk."""
    team = by("team")
    want("a journal", desk.do("start", "web", "v3", **team), CONTRADICTION, said=AHEAD)
    want("its key", desk.do("promote-full", "web", **key), DONE, shown(ENDED))
    want("first: what is pending acts here", desk.do("tick", "web", **by("first")), DONE,
         shown(ENDED))
    want_delivered("first", desk, **by("first"))
    expect("a caller of that name", put(desk.port, "succeed", 1, '{"tick":{"service":"web"}}'),
           (409, '{"code":"reused"}'))
    want("a new journal of that name", desk.do("tick", "web", **by("succeed")), DONE, shown(ENDED))
    for name in ("team.journal", "ops.journal"):
        (desk.folder / name).rename(desk.folder / f"{name}.old")
    want("a start", desk.do("start", "web", "v3", **team), DONE, shown(STARTED))
    want("an end", desk.do("promote-full", "web", **team), DONE, shown(ENDED))
    want_delivered("team", desk, **team)


def want_measured(desk):
    """An agent with its old journals reports nothing; one that begins anew measures the next
    release, by the newest revisions."""
    expect("an agent: nothing is due", agent(desk), (DONE, 0, ""))
    expect("a start", desk.do("start", "measured", "v3").status, DONE)
    expect("an agent: ahead", agent(desk), (CONTRADICTION, 0, AGENT_AHEAD))
    (desk.folder / "journals").rename(desk.folder / "journals.old")
    expect("an agent: anew", agent(desk), (DONE, 1, ""))


def want_past(desk):
    """The old file has the past."""
    found = desk.world.run(["history", "--db", "kept.db", "web"], desk.folder)
    expect("the old file has the past", (found.status, found.output.splitlines()[-1][-7:]),
           (0, "done v2"))
    found = desk.world.run(["export", "--db", "kept.db", "--caller", "a", "measured"], desk.folder)
    expect("the old file has the measurements", (found.status, len(found.output.splitlines())),
           (0, 2))
