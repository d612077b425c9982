"""Journals and folders that cannot be used, two agents over one folder, SIGTERM, --once, --dry-run
and --health: parts of agent.py."""
import contextlib
import http.client
import json
import os
import resource
import signal
import stat
import subprocess
import sys
import time

from agents import (
    Agent, agent_of, agent_words, beside, but_late, count_measured, desk_for, journals_of, listed,
    measured, measured_beside, metric, of_web, provider, reply, run_agent, template, traced,
    wait_measured, wait_until, want_once, want_reported)
from journal_rule import journal_of, line_of
from world import (
    AHEAD, BROKEN, DONE, IN_USE, LOCAL, NO_FILE, NO_JOURNAL_FILE, OTHER_CALLER, PENDING,
    REFUSED, WORDS, Ended, Late, Wrong, answering, environment, expect, free_port, install)
from world import ask as ask_bytes

ONCE = ("--once",)
NO_DEADLINE = ("the desk ignores it, and has no deadline: have a job look for late measurements,"
               " and abort")
NOBODY = 65534


def services(port, *names, interval="1s"):
    """Manifests of services whose metric is 0.25 by a server."""
    one = metric("m", of_web(port), interval=interval, successCondition="result < 1")
    return [template("of", one), *(measured_beside(name, "of") for name in names)]


def measuring(function):
    """A part with a server that answers 0.25."""
    def part(world):
        with provider(lambda *_: reply("0.25")) as server:
            return function(world, server)
    part.__name__, part.__module__ = function.__name__, function.__module__
    part.__doc__ = function.__doc__
    return part


def sentences(ended):
    return ended.errors.splitlines()


@measuring
def try_statuses(world, server):
    """The exit status of --once, and its sentence: each cause of each."""
    with desk_for(world, "statuses", *services(server.port, "web")) as desk:
        for row in range(2):
            ended = run_agent(desk, options=ONCE)
            expect(f"done {row}", (ended.status, but_late(ended.errors)), (DONE, ""))
            time.sleep(1.1)
        expect("measured each time", len(measured(desk)), 2)
        ended = run_agent(desk, journals=None, options=ONCE)
        want_ended("no journals", ended, WORDS, "--journals")
        desk.write("bad.json", '{"kind": ')
        want_ended("invalid", run_agent(desk, "bad.json", options=ONCE), WORDS, "bad.json:1:")
        want_ended("no such file", run_agent(desk, "none.json", options=ONCE), WORDS, "none.json")
        want_ended("standard input", run_agent(desk, "-", options=ONCE), WORDS,
                   "- is no FILE of agent")
        (desk.folder / "empty").mkdir()
        ended = run_agent(desk, "empty", options=ONCE)
        want_ended("an empty folder", ended, WORDS, "Rollout")
        expect("no file is named", ":1:1" in ended.errors, False)
        desk.write("template.json", listed(*services(server.port)))
        want_ended("no Rollout", run_agent(desk, "template.json", options=ONCE), WORDS, "Rollout")
        desk.write("more.json", listed(*services(server.port, "web", "unknown")))
        time.sleep(1.1)
        ended = run_agent(desk, "more.json", options=ONCE)
        want_ended("not at the desk", ended, REFUSED, "unknown: there is no such service")
        long = "x" * 60
        desk.write("long.json", listed(*services(server.port, "web", long)))
        time.sleep(1.1)
        want_ended("long", run_agent(desk, "long.json", options=ONCE), WORDS, long)
        ended = run_agent(desk, options=ONCE, port=free_port())
        want_ended("no desk", ended, PENDING, "web: no desk answered")
        expect("measured beside these", len(measured(desk)), 4)
        want_once("statuses", measured(desk))
        want_reported("statuses", desk, measured(desk))
        want_warned(desk, server.port)
        want_words(desk)


def want_warned(desk, port):
    """What `canary argo` warns of is said once, and changes no status."""
    made = services(port, "web")
    made[1]["spec"]["progressDeadlineSeconds"] = 600
    text = json.dumps(listed(*made))
    desk.write("warned.json", text)
    line = (f"canary: warning: warned.json:1:{text.index('600') + 1}: "
            f"items[1].spec.progressDeadlineSeconds: {NO_DEADLINE}\n")
    for options in (ONCE, ("--dry-run",)):
        ended = run_agent(desk, "warned.json", options=options)
        expect(f"warned: {options}", (ended.status, but_late(ended.errors)), (DONE, line))
    with agent_of(desk, "warned.json") as agent:
        wait_until("warned", lambda: but_late(agent.errors()) == line)
        desk.write("next.json", text.replace("600", "700"))
        os.replace(desk.folder / "next.json", desk.folder / "warned.json")
        wait_until("warned again, once changed", lambda: but_late(agent.errors()) == line * 2)


def want_words(desk):
    """Invalid words."""
    for words in (("--abort-late", "x"), ("--abort-late", "-1"), ("--none",), ("--as", "A b"),
                  ("--values",), ("--health",)):
        ended = run_agent(desk, options=words, timeout=20)
        expect(f"{words}: {ended}", ended.status, WORDS)
    ended = desk.world.run(["agent", "--once", "--journals", "j"], desk.folder)
    expect(f"no file: {ended}", ended.status, WORDS)


def want_ended(row, ended, status, said):
    if ended.status != status or said not in ended.errors:
        raise Wrong(f"{row}: {ended} in place of status {status} and {said!r}")


def plant_journal(desk, row, name="agent-web"):
    """Something in the place of a journal, and what its file then holds."""
    path = desk.folder / "journals" / name
    if row == "fifo":
        os.mkfifo(path)
    elif row == "folder":
        path.mkdir()
    elif row == "device":
        path.symlink_to("/dev/null")
    elif row == "another file":
        path.write_text("kept as it is, line by line\n" * 9, encoding="utf-8")
    elif row == "another caller":
        path.write_text('+{"begun":{"caller":"ops","settled":0}}\n-', encoding="utf-8")
    elif row == "ahead":
        path.write_text('+{"begun":{"caller":"agent-web","settled":7}}\n-', encoding="utf-8")
    else:
        path.symlink_to(desk.folder / "elsewhere")


@measuring
def try_journals(world, server):
    """A journal that is a FIFO, a folder, a device, another file, another caller's, or ahead of the
    desk: a status and a sentence, the file as it was, and the other service is measured. A link is
    followed."""
    rows = {"fifo": (LOCAL, NO_FILE), "folder": (LOCAL, NO_FILE), "device": (LOCAL, NO_FILE),
            "another file": (LOCAL, BROKEN), "another caller": (WORDS, OTHER_CALLER),
            "ahead": (4, AHEAD), "link": (DONE, "")}
    beside(lambda row: want_journal(world, server.port, row, *rows[row]), [*rows])
    return f"{len(rows)} kinds"


def want_journal(world, port, row, status, said):
    made = services(port, "web", "other")
    with desk_for(world, f"journal-{row.replace(' ', '-')}", *made) as desk:
        (desk.folder / "journals").mkdir()
        plant_journal(desk, row)
        path = desk.folder / "journals" / "agent-web"
        before = path.read_bytes() if path.is_file() else os.lstat(path).st_mode
        ended = run_agent(desk, options=ONCE, timeout=20)
        expect(f"{row}: {ended.errors}", ended.status, status)
        if said and said.split(". ")[0] not in ended.errors:
            raise Wrong(f"{row}: {ended.errors!r}")
        expect(f"{row}: measured", sorted(each.service for each in measured(desk, "web", "other")),
               ["other", "web"] if row == "link" else ["other"])
        if row != "link":
            after = path.read_bytes() if path.is_file() else os.lstat(path).st_mode
            # what the desk has not settled so far is asked, and stays pending
            is_kept = after[:len(before) - 1] == before[:-1] if row == "ahead" else after == before
            expect(f"{row}: the file is as it was", is_kept, True)
            want_repaired(desk, path, row)
        elif not (desk.folder / "elsewhere").exists():
            raise Wrong("the link was not followed")


def want_repaired(desk, path, row):
    """An agent that runs says it once, and goes on once the journal can be used."""
    with agent_of(desk) as agent:
        wait_measured(desk, 3, "other")
        time.sleep(2)
        lines = [line for line in agent.errors().splitlines() if "web:" in line]
        expect(f"{row}: said {lines}", len(lines), 1)
        path.rmdir() if path.is_dir() else path.unlink()
        wait_measured(desk, 1, "web")


@measuring
def try_folders(world, server):
    """The folder of the journals is made for its owner alone. A file, or a path below one, is
    refused. A folder that is removed meanwhile does not end the agent."""
    with desk_for(world, "folders", *services(server.port, "web")) as desk:
        desk.write("file", "as it is")
        for name in ("file", "file/below"):
            ended = run_agent(desk, journals=name, options=ONCE)
            expect(f"{name}: {ended}", ended.status, LOCAL)
            expect(f"{name}: said", bool(ended.errors), True)
        expect("the file", (desk.folder / "file").read_text(encoding="utf-8"), "as it is")
        expect("new", run_agent(desk, journals="new/deep", options=ONCE).status, DONE)
        mode = os.stat(desk.folder / "new" / "deep").st_mode
        expect("its mode", stat.S_IMODE(mode), 0o700)
        want_unwritable(desk)
        want_once("folders", measured(desk))


def want_unwritable(desk):
    """A folder in which no file can be made: status 5, and nothing is reported."""
    (desk.folder / "gone").mkdir()
    before = len(measured(desk))
    with agent_of(desk, journals="gone") as agent:
        wait_measured(desk, before + 1)
        (desk.folder / "gone" / "agent-web").unlink()
        (desk.folder / "gone").rmdir()
        time.sleep(2)
        agent.must_run()


@measuring
def try_two_agents(world, server):
    """Two agents over one folder: the second says that the journal is in use, with --once by its
    status, and takes over when the first is gone. Two with two folders and callers: each
    measurement is there once, and neither ends."""
    with desk_for(world, "two-agents", *services(server.port, "web")) as desk:
        one = Agent(desk)
        wait_measured(desk, 1)
        ended = run_agent(desk, options=ONCE)
        want_ended("--once", ended, LOCAL, IN_USE)
        with agent_of(desk, name="second") as two:
            two.wait_said(IN_USE)
            before = len(measured(desk))
            wait_measured(desk, before + 2)
            expect("the second shows", two.lines(), [])
            one.kill()
            wait_until("the second takes over", two.lines)
        want_once("one folder", measured(desk))
        want_reported("one folder", desk, measured(desk))
    with desk_for(world, "two-folders", *services(server.port, "web")) as desk:
        with agent_of(desk), agent_of(desk, name="second", journals="more",
                                      options=("--as", "second")):
            wait_measured(desk, 6)
        want_once("two folders", measured(desk))
        callers = {*journals_of(desk), *journals_of(desk, "more")}
        expect("callers", callers, {"agent-web", "second-web"})


@measuring
def try_health(world, server):
    """--health touches a file each second, which is made for its owner alone. A link, a FIFO or a
    folder there is left as it is, and said once; the agent goes on."""
    rows = ("new", "there", "link", "dangling", "fifo", "folder", "no folder")
    beside(lambda row: want_health(world, server.port, row), rows)
    return f"{len(rows)} kinds"


def plant_health(desk, path, row):
    if row == "there":
        path.write_text("content", encoding="utf-8")
        os.utime(path, (1, 1))
    elif row == "link":
        desk.write("target", "as it is")
        os.utime(desk.folder / "target", (1, 1))
        path.symlink_to(desk.folder / "target")
    elif row == "dangling":
        path.symlink_to(desk.folder / "target")
    elif row == "fifo":
        os.mkfifo(path)
    elif row == "folder":
        path.mkdir()


def want_health(world, port, row):
    with desk_for(world, f"health-{row.replace(' ', '-')}", *services(port, "web")) as desk:
        path = desk.folder / ("none/health" if row == "no folder" else "health")
        plant_health(desk, path, row)
        with agent_of(desk, options=("--health", str(path))) as agent:
            wait_measured(desk, 2)
            if row in ("new", "there"):
                want_touched(path, row)
                expect(f"{row}: its errors", but_late(agent.errors()), "")
                return
            time.sleep(2.5)
            lines = [line for line in agent.errors().splitlines() if "health" in line]
            expect(f"{row}: said", len(lines), 1)
            if row == "fifo":
                want_untouched_again(desk, agent, path)
        target = desk.folder / "target"
        if row == "dangling":
            expect("what a link leads to", target.exists(), False)
        if row == "link":
            expect("what a link leads to", (target.read_text(encoding="utf-8"),
                                            int(target.stat().st_mtime)), ("as it is", 1))


def want_untouched_again(desk, agent, path):
    """A file takes the place of the FIFO, and is touched; then a FIFO takes its place: that is new,
    and is said as well."""
    desk.write("regular", "")
    os.utime(desk.folder / "regular", (1, 1))
    os.replace(desk.folder / "regular", path)
    wait_until("a file is touched", lambda: path.stat().st_mtime > 1)
    os.mkfifo(desk.folder / "fifo")
    os.replace(desk.folder / "fifo", path)
    agent.wait_said("cannot be touched", 2)


@measuring
def try_health_race(world, server):
    """A FIFO takes the name of --health between two calls of the agent, of which the second is
    slowed down by strace: the agent waits for nobody, and goes on."""
    with desk_for(world, "health-race", *services(server.port, "web")) as desk:
        path = desk.folder / "health"
        path.touch()
        with agent_of(desk, options=("--health", str(path))) as agent, \
                traced(agent, path, desk.folder / "calls", "openat:delay_enter=2000000"):
            # it goes on before strace leaves it, which would interrupt a call that waits
            for _ in range(3):
                os.mkfifo(desk.folder / "fifo")
                os.rename(desk.folder / "fifo", path)
                time.sleep(2.5)
                desk.write("regular", "")
                os.rename(desk.folder / "regular", path)
                time.sleep(1.2)
            before = count_measured(desk)["m.e6n"]
            wait_measured(desk, before + 2)
        if "openat" not in (desk.folder / "calls").read_text(encoding="utf-8"):
            raise Wrong("the file was not opened")


def want_touched(path, row):
    """A file is touched each second: of the times between four moments at which it is, a busy
    machine does not make each one longer. Each moment is that at which it is seen."""
    moments = [path.stat().st_mtime]

    def is_touched():
        found = path.stat().st_mtime
        if found != moments[-1]:
            moments.append(found)
            if abs(time.time() - found) > 10:
                raise Wrong(f"{row}: touched at {found}, as it is {time.time()}")
        return len(moments) > 3

    wait_until(f"{row}: touched", is_touched)
    if min(after - before for before, after in zip(moments, moments[1:])) > 1.5:
        raise Late(f"{row}: touched at {moments}")
    expect(f"{row}: what it holds", path.read_text(encoding="utf-8"),
           "content" if row == "there" else "")
    if row == "new":
        expect("its mode", stat.S_IMODE(path.stat().st_mode), 0o600)


def losing(desk, come, is_passed):
    """A server before a desk that loses the replies to commands, or the commands themselves."""
    def answer(client):
        message = client.recv(65536)
        if not message.startswith(b"PUT"):
            client.sendall(ask_bytes(desk.port, message))
            return
        come.append(message)
        if is_passed(message):
            ask_bytes(desk.port, message)
    return answering(answer)


@measuring
def try_sigterm(world, server):
    """SIGTERM ends it at once. A report whose reply was lost, or that was lost itself, is pending
    then; the next start settles that first, and nothing is there twice."""
    for row, is_passed in (("lost", lambda _: False),
                           ("unanswered", lambda message: b'"report"' in message)):
        with desk_for(world, f"sigterm-{row}", *services(server.port, "web")) as desk:
            want_begun(desk)
            come = []
            with losing(desk, come, is_passed) as port:
                agent = Agent(desk, port=port, options=("--timeout", "1"))
                wait_until("a report", lambda: come)
                time.sleep(1)
                agent.signal(signal.SIGTERM)
                expect(f"{row}: its end", agent.process.wait(20), -signal.SIGTERM)
            pending = journals_of(desk)["agent-web"].pending
            if pending is None:
                raise Wrong(f"{row}: nothing is pending")
            expect(f"{row}: the next start", run_agent(desk, options=ONCE).status, DONE)
            found = measured(desk)
            expect(f"{row}: pending", journals_of(desk)["agent-web"].pending, None)
            want_once(row, found)
            want_reported(row, desk, found)
            first = next(each for each in journals_of(desk)["agent-web"].kept
                         if each.body_asked == pending.body_asked)
            expect(f"{row}: it was settled", first.status, 200)


def want_begun(desk):
    """The journal is there: it was begun by a first measurement."""
    expect("the first", run_agent(desk, options=ONCE).status, DONE)
    time.sleep(1.1)


@measuring
def try_dry_run(world, server):
    """--dry-run sends queries alone, makes no folder and no journal, needs none, and shows what it
    would ask and report."""
    methods = []
    with desk_for(world, "dry-run", *services(server.port, "web", interval="20s")) as desk:
        def answer(client):
            message = client.recv(65536)
            methods.append(message.split(b" ")[0])
            client.sendall(ask_bytes(desk.port, message))
        before = desk.rows("SELECT * FROM kept")
        with answering(answer) as port:
            for journals in ("journals", None):
                ended = run_agent(desk, port=port, journals=journals, options=("--dry-run",))
                found = (ended.status, but_late(ended.errors))
                expect(f"its end: {ended.errors}", found, (DONE, ""))
                want_dry(server, ended.output)
        expect("what was sent", set(methods), {b"GET"})
        expect("the desk", desk.rows("SELECT * FROM kept"), before)
        expect("no journals", (desk.folder / "journals").exists(), False)
        expect("the provider was asked", len(server.asked), 2)


def want_dry(server, output):
    asks, reports = map(json.loads, output.splitlines())
    expect("what is asked", asks, {"ask": "GET /", "metric": "m.e6n", "service": "web",
                                   "of": f"127.0.0.1:{server.port}"})
    if not abs(reports.pop("taken") - time.time()) < 60:
        raise Wrong("a moment that is far")
    expect("what is reported", reports, {"metric": "m.e6n", "ordinal": 1, "result": 250000,
                                         "run": 1, "service": "web"})


# Begins a program to which a write past a limit on files is an error, and no signal.
UNSIGNALLED = ("import os, signal, sys; signal.signal(signal.SIGXFSZ, signal.SIG_IGN);"
               " os.execv(sys.argv[1], sys.argv[1:])")


@measuring
def try_full_disk(world, server):
    """A journal for which there is no more room: it is said once, the pause before the next try
    grows, and all goes on once there is room."""
    with desk_for(world, "full-disk", *services(server.port, "web")) as desk, \
            agent_of(desk, front=(sys.executable, "-c", UNSIGNALLED)) as agent:
        wait_measured(desk, 3)
        journal = desk.folder / "journals" / "agent-web"
        before = resource.prlimit(agent.process.pid, resource.RLIMIT_FSIZE)
        resource.prlimit(agent.process.pid, resource.RLIMIT_FSIZE,
                         (journal.stat().st_size + 40, before[1]))
        agent.wait_said("web: ")
        asked = len(server.asked)
        time.sleep(12)
        expect(f"said once: {agent.errors()}", agent.errors().count("web: "), 1)
        if len(server.asked) > asked + 6:
            raise Wrong(f"{len(server.asked) - asked} messages in 12 seconds")
        count = count_measured(desk)["m.e6n"]
        resource.prlimit(agent.process.pid, resource.RLIMIT_FSIZE, before)
        wait_measured(desk, count + 3, seconds=80)
        want_once("full disk", measured(desk))
        want_reported("full disk", desk, measured(desk))


@measuring
def try_moved_desk(world, server):
    """A desk that was restored from an older copy: the contradiction is said once, with --once by
    status 4, and the journal stays as it is."""
    with desk_for(world, "moved", *services(server.port, "web")) as desk:
        backup = desk.world.run(["backup", "--db", "desk.db", "old.db"], desk.folder)
        expect("backup", backup.status, 0)
        want_begun(desk)
        desk.kill()
        for end in ("", "-wal"):
            os.replace(desk.folder / f"old.db{end}", desk.folder / f"desk.db{end}")
        desk.start()
        before = (desk.folder / "journals" / "agent-web").read_bytes()
        want_ended("restored", run_agent(desk, options=ONCE), 4, "ahead")
        after = (desk.folder / "journals" / "agent-web").read_bytes()
        expect("the journal has what it had", after[:len(before) - 1], before[:-1])
        with agent_of(desk) as agent:
            agent.wait_said("ahead")
            time.sleep(3)
            expect("said once", agent.errors().count("ahead"), 1)
            expect("nothing is measured", count_measured(desk), {"m.e6n": 0})


def open_up(path):
    """Lets others reach what is in a folder."""
    for folder in (path, *path.parents):
        if not folder.stat().st_mode & 0o001:
            folder.chmod(0o711)


def run_as_nobody(desk, *files, **more):
    """Runs an agent as a user who may not write here; as it is, if this is no superuser."""
    program = desk.folder / "canary"
    if not program.exists():
        install(program, desk.world.program)
    user = {"user": NOBODY, "group": NOBODY} if os.getuid() == 0 else {}
    ended = subprocess.run([str(program), *agent_words(desk, *files, **more)], timeout=20,
                           cwd=desk.folder, env=environment(), stdin=subprocess.DEVNULL,
                           capture_output=True, text=True, check=False, **user)
    return Ended(ended.returncode, ended.stdout, ended.stderr)


@measuring
def try_shut(world, server):
    """Folders and journals that may not be written, and manifests that may not be read, by a user
    of no rights: a status and a sentence, and nothing is reported."""
    with desk_for(world, "shut", *services(server.port, "web")) as desk:
        open_up(desk.folder)
        desk.folder.chmod(0o555)
        want_ended("a folder cannot be made", run_as_nobody(desk, options=ONCE), LOCAL, "folder")
        desk.folder.chmod(0o755)
        (desk.folder / "journals").mkdir(mode=0o555)
        want_ended("no journal can be made", run_as_nobody(desk, options=ONCE), LOCAL,
                   f"web: {NO_JOURNAL_FILE}")
        (desk.folder / "journals").chmod(0o777)
        (desk.folder / "manifests.json").chmod(0)
        want_ended("no manifest can be read", run_as_nobody(desk, options=ONCE), WORDS,
                   "manifests.json")
        (desk.folder / "manifests.json").chmod(0o644)
        expect("nothing was reported", measured(desk), [])
        expect("all is open", run_as_nobody(desk, options=ONCE).status, DONE)
        (desk.folder / "journals" / "agent-web").chmod(0o444)
        time.sleep(1.1)
        if os.getuid() == 0:
            os.chown(desk.folder / "journals" / "agent-web", 0, 0)
        before = (desk.folder / "journals" / "agent-web").read_bytes()
        want_ended("a journal may not be written", run_as_nobody(desk, options=ONCE), LOCAL,
                   f"web: {NO_JOURNAL_FILE}")
        expect("the journal", (desk.folder / "journals" / "agent-web").read_bytes(), before)
        expect("once", len(measured(desk)), 1)


TICK = '{"tick":{"service":"web"}}'


def written_journal(desk, count, caller="agent-web"):
    """The text of a journal of so many ticks, which the desk has settled: docs/CLIENT.md, "The
    journal's file"."""
    lines = [{"begun": {"caller": caller, "settled": 0}}]
    with contextlib.closing(http.client.HTTPConnection("127.0.0.1", desk.port)) as connection:
        for number in range(1, count + 1):
            connection.request("PUT", f"/callers/{caller}/requests/{number}", TICK)
            answer = connection.getresponse()
            lines.append({"asked": {"body": TICK, "intent": TICK, "key": None, "number": number}})
            lines.append({"settled": {"body": answer.read().decode(), "late": False,
                                      "number": number, "status": answer.status}})
    return "".join(f"+{line_of(line)}\n" for line in lines) + "-"


@measuring
def try_long_journal(world, server):
    """A journal of 2,000 commands that are settled gets .old after its name, in the place of an
    earlier one, and a new one begins after them; one of 1,998 goes on."""
    for count in (1_998, 2_000):
        with desk_for(world, f"long-journal-{count}", *services(server.port, "web")) as desk:
            folder = desk.folder / "journals"
            folder.mkdir()
            text = written_journal(desk, count)
            (folder / "agent-web").write_text(text, encoding="utf-8")
            (folder / "agent-web.old").write_text("an earlier one", encoding="utf-8")
            ended = run_agent(desk, options=ONCE)
            expect(f"{count}: {ended.errors}", ended.status, DONE)
            journal = journal_of((folder / "agent-web").read_bytes())
            is_new = count == 2_000
            expect(f"{count}: the journal", (journal.before, len(journal.kept), journal.pending),
                   (count, 1, None) if is_new else (0, count + 1, None))
            expect(f"{count}: the old one", (folder / "agent-web.old").read_text(encoding="utf-8"),
                   text if is_new else "an earlier one")
            expect(f"{count}: measured", len(measured(desk)), 1)
