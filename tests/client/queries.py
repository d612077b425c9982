"""Queries, and waiting for a status: parts of client.py."""
import contextlib
import http.client
import json
import subprocess
import time

from reports import INVALID_NAME, NOT_IN_TIME, NO_SERVICE, add_measured, metric
from world import (
    DONE, PENDING, REFUSED, WORDS, Caller, Wrong, add, environment, expect, process, rollout, want,
    want_seconds,
)

PART = "of a service, 'history' or the number of a run can be asked for"
STATUS = "--until takes Healthy, Degraded, Paused, Progressing, Held and Waiting"


def body_at(desk, path):
    with contextlib.closing(http.client.HTTPConnection("127.0.0.1", desk.port)) as stream:
        stream.request("GET", path)
        return stream.getresponse().read().decode()


def try_get(world):
    """The body of the desk's reply, as it is, whatever a service, a history or a run is asked."""
    with world.desk("get") as desk:
        add_measured(desk, metric("m", "1h"))
        for words, path in ((["web", "history"], "/services/web/history"),
                            (["web", "1"], "/services/web/runs/1")):
            want(words, desk.ask("get", *words), DONE, body_at(desk, path) + "\n")
        before, found, after = (body_at(desk, "/services/web"), desk.ask("get", "web"),
                                body_at(desk, "/services/web"))
        moments = [json.loads(body)["moment"] for body in (before, after)]
        bodies = [before.replace(str(moments[0]), str(moment)) + "\n"
                  for moment in range(moments[0], moments[1] + 1)]
        if found.output not in bodies:
            raise Wrong(f"get web: {found} in place of {bodies}")
        value = json.loads(found.output)
        expect("get web", {**value, "moment": 0}, {
            "code": "ok", "hold": "none", "moment": 0, "open": [1], "runs": 1, "service": "web",
            "stable": "v1", "status": "Paused", "step": 1, "version": "v2", "weight": 20})
        for words, body in ((["none"], "unknown-service"), (["none", "history"], "unknown-service"),
                            (["none", "1"], "unknown-service"), (["web", "2"], "unknown-run")):
            want(words, desk.ask("get", *words), REFUSED, f'{{"code":"{body}"}}\n')
        for part in ("nothing", "1.5", "", "4294967296", "History"):
            want(repr(part), desk.ask("get", "web", part), WORDS, said=PART)
        for name in ("Web", "", "we/b", "x" * 64):
            want(repr(name), desk.ask("get", name), WORDS, said=INVALID_NAME)


# Why a service with two pauses stands so.
WHY = {"Paused": ", waits for a promotion", "Healthy": "", "Degraded": ", aborted by a command"}


def line(status, step, weight, version="v2"):
    return f"web {status}, step {step}, weight {weight}%, version {version}{WHY[status]}\n"


@contextlib.contextmanager
def watching(world, desk, *words, service="web"):
    with process([world.program, "watch", "--desk", f"127.0.0.1:{desk.port}", "--tries", "100",
                  *words, service],
                 cwd=desk.folder, env=environment(), stdin=subprocess.DEVNULL,
                 stdout=subprocess.PIPE, stderr=subprocess.PIPE) as watch:
        yield watch


def next_line(watch):
    return watch.stdout.readline().decode()


def want_end(row, watch, status, output="", errors=""):
    found = watch.communicate(timeout=60)
    expect(row, (watch.returncode, found[0].decode(), found[1].decode()), (status, output, errors))


def try_watch(world):
    """A line each time that the service stands otherwise, while somebody else promotes it."""
    with world.desk("watch") as desk:
        add(desk)
        other = Caller(desk, "other")
        with watching(world, desk) as watch:
            expect("at first", next_line(watch), line("Paused", 1, 20))
            other.send({"promote": {"service": "web"}})
            expect("promoted", next_line(watch), line("Paused", 3, 50))
            # nothing changes, and no line comes
            time.sleep(1.5)
            other.send({"promote": {"service": "web"}})
            want_end("done", watch, DONE, line("Healthy", 4, 100))
        with watching(world, desk) as watch:
            want_end("done already", watch, DONE, line("Healthy", 4, 100))
        other.send({"start": {"service": "web", "version": "v3"}})
        with watching(world, desk) as watch:
            expect("v3", next_line(watch), line("Paused", 1, 20, "v3"))
            other.send({"abort": {"service": "web"}})
            want_end("aborted", watch, REFUSED, line("Degraded", 1, 0, "v3"))
        with watching(world, desk, "--until", "Paused,Degraded") as watch:
            want_end("Degraded among others", watch, REFUSED, line("Degraded", 1, 0, "v3"))
        with watching(world, desk, "--until", "Paused") as watch:
            expect("not Degraded", next_line(watch), line("Degraded", 1, 0, "v3"))
            other.send({"retry": {"service": "web"}})
            want_end("Paused", watch, DONE, line("Paused", 1, 20, "v3"))
        # the desk is started again meanwhile
        with watching(world, desk, "--until", "Healthy") as watch:
            expect("before", next_line(watch), line("Paused", 1, 20, "v3"))
            desk.restart()
            other.send({"promoteFull": {"service": "web"}})
            found = watch.communicate(timeout=60)[0].decode()
            expect("after", (watch.returncode, found), (DONE, line("Healthy", 4, 100, "v3")))


def try_watch_ends(world):
    """Each status that may be waited for, a time that is over, and invalid statuses."""
    with world.desk("watch-ends") as desk:
        add(desk)
        setup = Caller(desk, "setup")
        setup.send({"template": {"metadata": {"name": "t"}, "spec": {"metrics": [
            {"name": "m", "interval": "1h", "count": 2}]}}})
        setup.send({"service": {"version": "v1", "manifest": rollout(
            "other", {"setWeight": 5}, {"analysis": {"templates": [{"templateName": "t"}]}})}})
        healthy = "other Healthy, step 2, weight 100%, version v1\n"
        want("Healthy", desk.ask("watch", "--until", "Healthy", "other"), DONE, healthy)
        setup.send({"start": {"service": "other", "version": "v2"}})
        progressing = "other Progressing, step 1, weight 5%, version v2, analysis run 1\n"
        want("Progressing", desk.ask("watch", "--until", "Progressing", "other"), DONE,
             progressing)
        want("each", desk.ask("watch", "--until", "Healthy,Degraded,Paused,Progressing", "other"),
             DONE, progressing)
        begun = time.monotonic()
        want("not in time", desk.ask("watch", "--timeout", "5", "other"), PENDING, progressing,
             NOT_IN_TIME)
        want_seconds("watch --timeout 5", time.monotonic() - begun, 5, 25)
        with watching(world, desk, "--until", "Degraded", service="other") as watch:
            expect("before the abort", next_line(watch), progressing)
            setup.send({"abort": {"service": "other"}})
            want_end("Degraded", watch, REFUSED,
                     "other Degraded, step 1, weight 0%, version v2, aborted by a command\n")
        want("no service", desk.ask("watch", "none"), REFUSED, said=NO_SERVICE)
        want("no name", desk.ask("watch", "None"), WORDS, said=INVALID_NAME)
        for until in ("healthy", "Healthy,", "", ",", "Healthy,Done", "Healthy, Paused"):
            want(repr(until), desk.ask("watch", "--until", until, "web"), WORDS, said=STATUS)
