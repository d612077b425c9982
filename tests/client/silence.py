"""Silence: releases that nobody measures, a desk that is away, holds, and what the watchdog and the
workflow of examples/operations do then: parts of client.py."""
import contextlib
import json
import os
import pathlib
import re
import signal
import subprocess
import threading
import time

from reports import metric
from world import (
    DONE, LOCAL, REFUSED, WORDS, Caller, Wrong, add, answering, ask, environment, expect, process,
    process_group, rollout, two_pauses, want, wait_until,
)

HELD = 7
OPERATIONS = pathlib.Path(__file__).resolve().parents[2] / "examples" / "operations"
MOMENT = r"\d{4}-\d\d-\d\dT\d\d:\d\d:\d\dZ"
# What `check` says of steps that nobody stops (docs/API.md).
UNSTOPPED = "a version reaches 100 % even if nothing is measured"


def unstopped(seconds, name="web", weights=(10, 50)):
    """A service with timed pauses beside a background analysis, and nothing that waits."""
    steps = [step for weight in weights
             for step in ({"setWeight": weight}, {"pause": {"duration": f"{seconds}s"}})]
    return rollout(name, *steps, analysis={"templates": [{"templateName": f"of-{name}"}]})


def add_unstopped(desk, seconds, name="web", interval="1s", **more):
    setup = Caller(desk, f"setup-{name}")
    setup.send({"template": {"metadata": {"name": f"of-{name}"},
                             "spec": {"metrics": [metric("errors", interval)]}}})
    setup.send({"service": {"version": "v1", "manifest": unstopped(seconds, name, **more)}})
    setup.send({"start": {"service": name, "version": "v2"}})
    return setup


def state(desk, name="web"):
    return json.loads(desk.ask("get", name).output)


def variables(desk, **more):
    """Those with which examples/operations are run: the program is `canary`."""
    folder = desk.folder / "bin"
    if not folder.exists():
        folder.mkdir()
        (folder / "canary").symlink_to(desk.world.program)
    return environment(**{"PATH": f"{folder}:{os.environ['PATH']}",
                          "CANARY_DESK": f"127.0.0.1:{desk.port}", **more})


def watchdog(desk, seconds, *services, front=(), **more):
    """Runs the watchdog as cron does."""
    found = subprocess.run(
        [*front, OPERATIONS / "watchdog", str(seconds), *services], cwd=desk.folder, timeout=60,
        env=variables(desk, WATCHDOG_FOLDER=str(desk.folder), **more), stdin=subprocess.DEVNULL,
        capture_output=True)
    return found.returncode, found.stderr.decode()


def kill_watchdog(desk, service):
    """Kills a watchdog once it has sent an abort, of which no desk hears."""
    come = threading.Event()

    def answer(client):
        message = client.recv(65536)
        if b'{"abort":' not in message:
            client.sendall(ask(desk.port, message))
            return
        come.set()
        client.recv(1)

    with answering(answer) as port, process_group(
            [OPERATIONS / "watchdog", "1", service], cwd=desk.folder,
            env=variables(desk, WATCHDOG_FOLDER=str(desk.folder), CANARY_DESK=f"127.0.0.1:{port}"),
            stdin=subprocess.DEVNULL, stderr=subprocess.DEVNULL):
        expect("an abort is sent", come.wait(60), True)


def want_late_on_page(desk, measurement, name="web"):
    """The page says which measurement is late."""
    found = desk.world.run(["page", "--db", "desk.db", "-"], desk.folder)
    expect("page", found.status, DONE)
    text = re.sub("<[^>]*>", "", found.output)
    if f"Late: measurement {measurement} of errors, run 1" not in text:
        raise Wrong(f"the page does not say that measurement {measurement} of {name} is late")


def want_warned(desk, manifest):
    """`check` says that nothing stops such a release, with status 0; with --strict 1."""
    desk.write("unstopped.json", manifest)
    for words, status in ((["check"], DONE), (["check", "--strict"], REFUSED)):
        found = desk.world.run([*words, "unstopped.json"], desk.folder)
        expect(words, found.status, status)
        if UNSTOPPED not in (found.errors if status == DONE else found.output):
            raise Wrong(f"{words}: it does not warn: {found}")


def try_dead_agent(world):
    """An agent that has died, beside timed pauses: `check` warns, the measurement is late, and the
    watchdog aborts the release, once. Without it the release reaches its end."""
    with world.desk("dead-agent") as desk:
        want_warned(desk, unstopped(600))
        add_unstopped(desk, 600)
        add_unstopped(desk, 1, "quick")
        expect("nothing is late", desk.ask("due", "--late", "3600", "web").status, REFUSED)
        expect("nothing to do", watchdog(desk, 3600, "web"), (DONE, ""))
        # the agent measures once, and is killed
        expect("the agent", desk.do("report", "web", "1", "errors", "0").status, DONE)
        wait_until("it is late", lambda: desk.ask("due", "--late", "1", "web").status == DONE)
        late = desk.ask("due", "--late", "1", "web").output
        if not re.fullmatch(rf"web 1 errors 2 {MOMENT}\n", late):
            raise Wrong(f"due --late: {late!r}")
        want_late_on_page(desk, 2)
        status, errors = watchdog(desk, 1, "web", SAY_ONLY="1")
        expect("it only says so", (status, state(desk)["status"]), (DONE, "Paused"))
        wanted = rf"web: measurement 2 of errors in run 1 is due since {MOMENT}\n"
        if not re.fullmatch(wanted, errors):
            raise Wrong(f"what the watchdog says: {errors!r}")
        for _ in range(2):
            expect("aborted", (watchdog(desk, 1, "web")[0], state(desk)["status"]),
                   (DONE, "Degraded"))
        expect("once", desk.count("abort"), {"web": 1})
        # a later attempt is another run, which the same watchdog aborts once more
        expect("another attempt", desk.do("retry", "web").status, DONE)
        wait_until("late again", lambda: desk.ask("due", "--late", "1", "web").status == DONE)
        expect("aborted again", (watchdog(desk, 1, "web")[0], state(desk)["status"]),
               (DONE, "Degraded"))
        expect("twice", desk.count("abort"), {"web": 2})
        # and the other service, which nobody looked at, is done by now
        found = state(desk, "quick")
        expect("nobody looked", (found["status"], found["weight"]), ("Healthy", 100))
        run = json.loads(desk.ask("get", "quick", "1").output)
        expect("its run", (run["verdict"], run["metrics"][0]["measurements"]), ("Successful", 0))


def try_desk_away(world):
    """A desk that was away passes the pauses of that time at once; what is late then, the watchdog
    aborts."""
    with world.desk("desk-away") as desk:
        weights = tuple(range(3, 96, 3))
        want_warned(desk, unstopped(10, weights=weights))
        add_unstopped(desk, 10, weights=weights)
        before = state(desk)["weight"]
        desk.kill()
        expect("no desk", watchdog(desk, 1, "web")[0], 3)
        time.sleep(5)
        desk.start()
        found = state(desk)
        if found["status"] != "Paused" or found["weight"] < before + 6:
            raise Wrong(f"two pauses have not passed: {found}, before that {before}")
        want_late_on_page(desk, 1)
        expect("aborted", (watchdog(desk, 1, "web")[0], state(desk)["status"]), (DONE, "Degraded"))


def try_pending_abort(world):
    """An abort of the watchdog that no desk got is not sent as another service is late: the release
    may be measured by then. Nor does the journal of one service hold up another one."""
    with world.desk("pending-abort") as desk:
        for name in ("web", "shop", "pay"):
            add_unstopped(desk, 600, name, interval="1h")
        wait_until("all are late", lambda: desk.ask(
            "due", "--late", "1", "web", "shop", "pay").output.count("\n") == 3)
        kill_watchdog(desk, "web")
        expect("it is pending", desk.journal("web.journal").pending.key, "web-1")
        expect("the agent", desk.do("report", "web", "1", "errors", "0").status, DONE)
        # shop is late, and nobody hears it
        closed = ("sh", "-c", 'exec "$@" 2>&-', "sh")
        expect("shop is late", watchdog(desk, 1, "web", "shop", front=closed), (DONE, ""))
        expect("who is aborted", desk.count("abort"), {"shop": 1})
        expect("web goes on", state(desk)["status"], "Paused")
        # web is late again: its first abort goes before the second one, which is refused then
        expect("another attempt", desk.do("promote-full", "web").status, DONE)
        expect("another release", desk.do("start", "web", "v3").status, DONE)
        wait_until("web is late again",
                   lambda: desk.ask("due", "--late", "1", "web").status == DONE)
        (desk.folder / "pay.journal").mkdir()
        expect("a journal that is none", watchdog(desk, 1, "pay", "web")[0], LOCAL)
        expect("who is aborted then", desk.count("abort"), {"shop": 1, "web": 1})


def try_late(world):
    """What is due, and what is late, of several services."""
    with world.desk("late") as desk:
        for name in ("one", "two"):
            add_unstopped(desk, 600, name, interval="1h")
        want("due of two", desk.ask("due", "one", "two"), DONE,
             "one 1 errors 1\ntwo 1 errors 1\n")
        want("due of one", desk.ask("due", "two"), DONE, "1 errors 1\n")
        found = desk.ask("due", "one", "none", "two")
        expect("one that is not there", (found.status, found.output, found.errors), (
            DONE, "one 1 errors 1\ntwo 1 errors 1\n", "canary: there is no such service: none\n"))
        wait_until("late", lambda: desk.ask("due", "--late", "1", "one").status == DONE)
        expect("measured", desk.do("report", "one", "1", "errors", "0").status, DONE)
        found = desk.ask("due", "--late", "1", "one", "two")
        if not re.fullmatch(rf"two 1 errors 1 {MOMENT}\n", found.output):
            raise Wrong(f"only two is late: {found}")
        for seconds in ("0", "x", "31536001"):
            expect(seconds, desk.ask("due", "--late", seconds, "one").status, WORDS)


def lines_of(watch, count):
    return [watch.stdout.readline().decode() for _ in range(count)]


def watching(desk, *words):
    return process([desk.world.program, "watch", "--desk", f"127.0.0.1:{desk.port}", "--tries",
                    "100", *words], cwd=desk.folder, env=environment(), stdin=subprocess.DEVNULL,
                   stdout=subprocess.PIPE, stderr=subprocess.PIPE)


def add_held(desk, name="web", seconds=3):
    """A service whose analysis is Inconclusive by a result of 5, before a pause of so many
    seconds."""
    setup = Caller(desk, f"setup-{name}")
    setup.send({"template": {"metadata": {"name": f"of-{name}"}, "spec": {"metrics": [
        {"name": "m", "successCondition": "result < 5", "failureCondition": "result > 5"}]}}})
    setup.send({"service": {"version": "v1", "manifest": rollout(
        name, {"setWeight": 20}, {"analysis": {"templates": [{"templateName": f"of-{name}"}]}},
        {"setWeight": 50}, {"pause": {"duration": f"{seconds}s"}}, {"setWeight": 80},
        {"pause": {}})}})
    return setup


def place(status, step, weight, version="v2", name="web"):
    return f"{name} {status}, step {step}, weight {weight}%, version {version}"


def try_reasons(world):
    """Why a service stands so is the end of each line; a hold, a timed pause and a pause without an
    end are told apart by --until."""
    with world.desk("reasons") as desk:
        setup = add_held(desk, seconds=8)
        setup.send({"start": {"service": "web", "version": "v2"}})
        until = "Waiting,Held,Healthy,Degraded"
        with watching(desk, "--until", until, "web") as watch:
            expect("an analysis", lines_of(watch, 1),
                   [place("Progressing", 1, 20) + ", analysis run 1\n"])
            expect("inconclusive", desk.do("report", "web", "1", "m", "5").status, DONE)
            found = watch.communicate(timeout=60)
            expect("held", (watch.returncode, found[0].decode(), found[1]), (
                HELD, place("Paused", 1, 20) + ", held: step 1 is Inconclusive\n", b""))
        want("no Held among the words", desk.ask("watch", "--until", "Paused", "web"), DONE,
             place("Paused", 1, 20) + ", held: step 1 is Inconclusive\n")
        begun = time.monotonic()
        setup.send({"promote": {"service": "web"}})
        with watching(desk, "--until", until, "web") as watch:
            found = watch.communicate(timeout=60)
            timed, waits = found[0].decode().splitlines()
            wanted = (re.escape(place("Paused", 3, 50)) + r", pause of 8 s until"
                      r" (\d{4}-\d\d-\d\dT)?\d\d:\d\d:\d\dZ")
            if not re.fullmatch(wanted, timed):
                raise Wrong(f"a timed pause: {timed!r} in place of {wanted!r}")
            expect("waits", (watch.returncode, waits),
                   (DONE, place("Paused", 5, 80) + ", waits for a promotion"))
        if time.monotonic() - begun < 7:
            raise Wrong("the timed pause was cut short")
        setup.send({"abort": {"service": "web"}})
        want("aborted", desk.ask("watch", "web"), REFUSED,
             place("Degraded", 5, 0) + ", aborted by a command\n")
        for words in (["--until", "held"], ["--until", "Held,"], ["--forever", "--until", "Held"]):
            expect(words, desk.ask("watch", *words, "web").status, WORDS)


def try_json_forever(world):
    """Lines of JSON, through an end and a start, and over a desk that is away."""
    with world.desk("forever") as desk:
        add(desk)
        other = Caller(desk, "other")
        with watching(desk, "--forever", "--json", "web") as watch:
            def next_value():
                value = json.loads(watch.stdout.readline())
                return {key: value[key] for key in
                        ("status", "step", "weight", "version", "stable", "why", "run", "until")}
            waits = {"status": "Paused", "step": 1, "weight": 20, "version": "v2", "stable": "v1",
                     "why": "waiting", "run": None, "until": None}
            expect("waits", next_value(), waits)
            other.send({"promoteFull": {"service": "web"}})
            done = {**waits, "status": "Healthy", "step": 4, "weight": 100, "stable": "v2",
                    "why": "plain"}
            expect("done", next_value(), done)
            desk.kill()
            time.sleep(2)
            desk.start()
            other.send({"start": {"service": "web", "version": "v3"}})
            expect("another release", next_value(), {**waits, "version": "v3", "stable": "v2"})
            other.send({"abort": {"service": "web"}})
            expect("aborted", next_value(), {
                **waits, "status": "Degraded", "weight": 0, "version": "v3", "stable": "v2",
                "why": "aborted"})
            watch.send_signal(signal.SIGTERM)
            expect("without end", watch.wait(60), -signal.SIGTERM)


@contextlib.contextmanager
def until_done(desk, words):
    """Somebody asks a command again and again until the desk does it."""
    line = f"until canary do --as other --journal other.journal {words}; do sleep 0.1; done"
    with process_group(["bash", "-c", line], cwd=desk.folder, env=variables(desk),
                       stdin=subprocess.DEVNULL, stdout=subprocess.DEVNULL,
                       stderr=subprocess.DEVNULL) as asks:
        yield
        expect(words, asks.wait(60), DONE)


def workflow():
    """The commands of the jobs of release.yml, in their order."""
    text = (OPERATIONS / "release.yml").read_text(encoding="utf-8")
    commands = []
    for found in re.finditer(r"^( +)run: (\|\n((?:\1  .*\n)+)|.+\n)", text, re.MULTILINE):
        commands.append(found[3] if found[3] else found[2])
    return commands


def inputs_of(desk, key, version, service):
    """The variables of the workflow, as GitHub's runner fills them in."""
    text = (OPERATIONS / "release.yml").read_text(encoding="utf-8")
    for old, new in (("${{ inputs.service }}", service), ("${{ inputs.version }}", version),
                     ("${{ github.run_id }}", key), ("127.0.0.1:8080", f"127.0.0.1:{desk.port}"),
                     ("/var/lib/canary-deploy", str(desk.folder))):
        expect(f"release.yml has {old}", old in text, True)
        text = text.replace(old, new)
    env = re.search(r"^    env:\n((?:      .*\n)+)", text, re.MULTILINE)[1]
    return variables(desk, **dict(line[6:].split(": ", 1) for line in env.splitlines()))


def run_workflow(desk, key, version, seconds=60, service="web"):
    """Runs the commands of the workflow as GitHub's runner does, up to the first that fails. Their
    statuses, but for the last one, which is always run."""
    statuses = []
    for command in workflow()[:-1]:
        command = command.replace("--timeout 3600", f"--timeout {seconds}")
        with process_group(
                ["bash", "--noprofile", "--norc", "-eo", "pipefail", "-c", command],
                cwd=desk.folder, stdin=subprocess.DEVNULL, stdout=subprocess.DEVNULL,
                stderr=subprocess.DEVNULL, env=inputs_of(desk, key, version, service)) as job:
            statuses.append(job.wait(seconds + 60))
        if statuses[-1] != 0:
            break
    return statuses


def try_workflow(world):
    """The lines of release.yml: an Inconclusive hold is not promoted, a timed pause lasts, and a
    repeat of the whole job does nothing twice."""
    expect("the commands", [len(workflow()), workflow()[0].split()[:2]], [3, ["canary", "do"]])
    with world.desk("workflow") as desk:
        add_held(desk)
        steps = [{"setWeight": 20}, {"pause": {"duration": "3s"}}, {"setWeight": 50}, {"pause": {}},
                 {"setWeight": 80}, {"pause": {"duration": "3s"}}]
        desk.write("timed.json", rollout("timed", *steps))
        # of a service that is held nothing is promoted
        with until_done(desk, "report web 1 m 5"):
            expect("held", run_workflow(desk, "1", "v2"), [DONE, HELD])
        expect("not promoted", desk.count("promote"), {})
        # a person promotes it, and the job is run again: the timed pause lasts
        expect("a person", desk.do("promote", "web").status, DONE)
        expect("again", run_workflow(desk, "1", "v2"), [DONE, DONE])
        expect("promoted by a person, and by the job", desk.count("promote"), {"web": 2})
        lasted = desk.rows("SELECT moment FROM history WHERE service = 'web' AND"
                           " (line LIKE 'step 3 %' OR line LIKE 'step 4 %') ORDER BY place")
        expect("the timed pause", lasted[1][0] - lasted[0][0], 3)
        before = desk.rows("SELECT count(*) FROM history")
        expect("once more", run_workflow(desk, "1", "v2"), [DONE, DONE])
        expect("nothing twice", desk.rows("SELECT count(*) FROM history"), before)
        # one that is aborted meanwhile fails the job
        with until_done(desk, "abort web"):
            expect("aborted meanwhile", run_workflow(desk, "2", "v3"), [DONE, REFUSED])
    with world.desk("workflow-twice") as desk:
        Caller(desk, "setup").send({"service": {"version": "v1", "manifest": two_pauses()}})
        for row in ("at each pause", "once more"):
            expect(row, run_workflow(desk, "1", "v2"), [DONE, DONE])
            expect(f"{row}: promoted", desk.count("promote"), {"web": 2})
        # the key of a pause was used before the release was begun anew: the job fails at once
        for words in (("start", "web", "v3"), ("abort", "web"), ("retry", "web")):
            expect(words, desk.do(*words).status, DONE)
        expect("used keys", run_workflow(desk, "1", "v2"), [DONE, REFUSED])


def try_workflow_services(world):
    """release.yml releases any service: each has a caller and a journal of its own, so one job does
    not wait for another one's; and what somebody gives for a service is a word, and no command."""
    with world.desk("workflow-services") as desk:
        setup = Caller(desk, "setup")
        # the job leaves a timed pause alone, so the abort comes in time on any machine
        timed = rollout("web", {"setWeight": 20}, {"pause": {"duration": "600s"}})
        for manifest in (timed, two_pauses("api")):
            setup.send({"service": {"version": "v1", "manifest": manifest}})
        with until_done(desk, "abort web"):
            expect("web, aborted", run_workflow(desk, "1", "v2"), [DONE, REFUSED])
        expect("api", run_workflow(desk, "1", "v2", service="api"), [DONE, DONE])
        expect("promoted", desk.count("promote"), {"api": 2})
        for name in ("api", "web"):
            expect(f"the journal of {name}", len(desk.journal(f"{name}.journal").kept),
                   {"api": 3, "web": 1}[name])
        for service in ("web; touch made", "$(touch made)", "--help", "-x", "web v9", ""):
            found = run_workflow(desk, "2", "v3", service=service)
            expect(f"{service!r} is no service", (found, (desk.folder / "made").exists()),
                   ([WORDS], False))


def try_dying(world):
    """The rows of docs/NIGHT.md, "If something dies", of the desk, the agent and the job: in
    an analysis step, in a timed pause, and with a background analysis."""
    with world.desk("dying") as desk:
        setup = add_held(desk, "step")
        setup.send({"start": {"service": "step", "version": "v2"}})
        add_unstopped(desk, 1, "timed", weights=(10,))
        desk.kill()
        time.sleep(3)
        desk.start()
        found = state(desk, "step")
        expect("an analysis step waits", (found["status"], found["open"]), ("Progressing", [1]))
        expect("its measurement is late", desk.ask("due", "--late", "1", "step").status, DONE)
        expect("timed pauses have ended", state(desk, "timed")["status"], "Healthy")
        expect("a background without a measurement",
               json.loads(desk.ask("get", "timed", "1").output)["verdict"], "Successful")
        # the agent goes on, and a second run of the job does nothing twice
        expect("the agent", desk.do("report", "step", "1", "m", "1").status, DONE)
        for _ in range(2):
            expect("the job", desk.do("--once", "job", "abort", "step").status, DONE)
        expect("once", desk.count("abort"), {"step": 1})
