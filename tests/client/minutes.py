"""The five minutes of docs/TRY.md, the session by curl of docs/API.md, and the lines of
docs/NIGHT.md and docs/OPERATIONS.md that put other files in a desk's place, run as they stand
there: parts of client.py."""
import json
import os
import pathlib
import re
import shutil
import subprocess

from conversation import without_progress
from world import (
    DONE, Wrong, add, environment, expect, free_port, install, process_group, shows, want,
)

ROOT = pathlib.Path(__file__).resolve().parents[2]
FAILED = ('{"code":"ok","phases":["Failed"],"run":1,"service":"web","status":"Degraded","step":1,'
          '"verdict":"Failed","weight":0}')
ADDED, STARTED = shows("web", "Healthy", 2, 100), shows("web", "Paused", 1, 20)
ATTEMPT = ["background run 1", "step 0 setWeight 20", "step 1 pause"]
FIRST = ["created v1", "start v2", *ATTEMPT, "run 1 Failed", "abort run 1"]
SECOND = ["retry v2", *(line.replace("run 1", "run 2") for line in [*ATTEMPT, *FIRST[-2:]])]
# What the translation of Argo's first example says.
TRANSLATED = ["template success-rate", "  success-rate.e6nf", "    success: result >= 950000",
              "service web", "measure success-rate.e6nf of web by prometheus"]
# Waits for the line of a desk that was begun in the line before, and for a server on this port.
WAIT = "until grep -q listening told; do sleep 0.02; done; echo listening"
WAIT_FOR_PORT = "until (: < /dev/tcp/127.0.0.1/{}) 2> refused; do sleep 0.02; done"
# What stands for systemd: the desk is stopped and started by the test.
SYSTEMD = {"systemctl": "#!/bin/sh\n",
           "systemd-run": '#!/bin/sh\nuntil [ "$1" = canary ]; do shift; done\nexec "$@"\n'}


def code_of(document, heading):
    """The lines of code of one part of a document."""
    text = (ROOT / document).read_text(encoding="utf-8")
    found = re.search(rf"^(#+) {heading}\n(.*?)(?=^##? |\Z)", text, re.MULTILINE | re.DOTALL)
    if found is None:
        raise Wrong(f"{document} has no heading {heading}")
    return [line[4:] for line in found[2].split("\n") if line.startswith("    ")]


def script_of(lines, port, provider):
    """The lines as a script: a desk and a provider listen on these ports, and are waited for."""
    script = []
    for line in lines:
        line = line.replace("127.0.0.1:8080", f"127.0.0.1:{port}")
        line = line.replace("127.0.0.1:9095", f"127.0.0.1:{provider}")
        if line.startswith("examples/argo/prometheus "):
            script += [line, WAIT_FOR_PORT.format(provider)]
        elif line.endswith(" &"):
            script += ["rm -f told", line[:-1] + "> told &", WAIT]
        elif line.startswith("kill "):
            script += [line, "wait $! 2> wait || true"]
        else:
            script.append(line)
    return "\n".join(script) + "\n"


def run_session(world, name, document, heading):
    """What the lines of a document print in a new folder, and what they say."""
    place, port, provider = world.place(name), free_port(), free_port()
    (place / "canary-quick").symlink_to(world.program)
    (place / "examples").symlink_to(ROOT / "examples")
    with process_group(
            ["bash", "-c", script_of(code_of(document, heading), port, provider)], cwd=place,
            env=environment(CANARY_DESK=f"127.0.0.1:{port}"), stdin=subprocess.DEVNULL,
            stdout=subprocess.PIPE, stderr=subprocess.PIPE) as session:
        output, errors = session.communicate(timeout=100)
    return place, output.decode().splitlines(), without_progress(errors).decode()


def history_in(line):
    """The lines of a history, without their moments."""
    return [each.split(" ", 1)[1] for each in json.loads(line)["lines"]]


def reported_in(line):
    """What the agent says that it reported, without the moment."""
    shown = json.loads(line)
    del shown["taken"]
    return shown


def measured(run):
    """The line of the agent for the first measurement of a run, without the moment."""
    return {"metric": "success-rate.e6nf", "ordinal": 1, "phase": "Failed", "result": 940000,
            "run": run, "service": "web"}


def try_five_minutes(world):
    """docs/TRY.md's session by the client."""
    place, lines, errors = run_session(world, "minutes", "docs/TRY.md", "Five minutes")
    expect("docs/TRY.md, up to the agent", lines[:10],
           ["listening", *TRANSLATED, '{"code":"ok","revision":1,"template":"success-rate"}', ADDED,
            STARTED, "1 success-rate.e6nf 1"])
    expect("docs/TRY.md: the agent", reported_in(lines[10]), measured(1))
    expect("docs/TRY.md: the history", history_in(lines[11]), FIRST)
    expect("docs/TRY.md, after the kill", lines[12:14], ["listening", STARTED])
    expect("docs/TRY.md: the agent again", reported_in(lines[14]), measured(2))
    expect("docs/TRY.md: the history", history_in(lines[15]), FIRST + SECOND)
    end = len(FIRST + SECOND)
    expect("docs/TRY.md: the last lines", [line.split(" ", 1)[1] for line in lines[-end:]],
           FIRST + SECOND)
    said = [line for line in errors.splitlines()
            if line.startswith("canary: ") and not line.startswith("canary: note: ")]
    expect("docs/TRY.md: what the client says", said, [
        "canary: nobody answers there; trying again",
        "canary: pending: no answer came, so it may have acted or not; the same call again finds"
        " out"])
    world.run(["argo", "--out", "made", "examples/argo/web.yaml"], place)
    for name in ("success-rate.template.json", "web.rollout.json"):
        checked = world.run(["check", "--strict", f"made/{name}"], place)
        want(f"docs/TRY.md: check of {name}", checked, 0, "ok\n")
    if "web" not in (place / "desk.html").read_text(encoding="utf-8"):
        raise Wrong("docs/TRY.md: the page does not show web")
    if not any(line.split()[:1] == ["web"] for line in lines[16:-end]):
        raise Wrong(f"docs/TRY.md: the status does not show web: {lines[16:-end]}")


def try_session_by_curl(world):
    """docs/API.md's session by curl."""
    if "curl" in os.environ.get("CHECK_WITHOUT", "").split():
        return "left out"
    _, lines, _ = run_session(world, "curl", "docs/API.md", "A session by curl")
    expect("docs/API.md", lines[:5],
           ["listening", '{"code":"ok","revision":1,"template":"errors"}', ADDED, STARTED, FAILED])
    expect("docs/API.md: the history", history_in(lines[5]), FIRST)
    expect("docs/API.md: the report again", lines[6:], [FAILED])
    return None


def operate(desk, document, heading, copy="none.db"):
    """Runs the lines of a document under this heading on the files of a desk that is stopped."""
    programs = desk.folder / "programs"
    if not programs.exists():
        programs.mkdir()
        (programs / "canary").symlink_to(desk.world.program)
        for name, text in SYSTEMD.items():
            install(programs / name, text=text)
    script = "\n".join(code_of(document, heading))
    for old, new in (("/var/lib/canary", desk.folder), ("/backup/desk-2026-11-24.db", copy)):
        script = script.replace(old, str(new))
    desk.world.run_words(["bash", "-c", script], desk.folder,
                         variables={"PATH": f"{programs}:{os.environ['PATH']}"})


def files_of(desk):
    return {path.name: path.read_bytes() for path in desk.folder.glob("desk.db*")}


def try_restore_lines(world):
    """Those that restore a copy: the desk has what the copy has. If the copy or its log is not
    there, the desk's files stay as they were."""
    with world.desk("restore-lines") as desk:
        add(desk)
        expect("backup", world.run(["backup", "--db", "desk.db", "old.db"], desk.folder).status, 0)
        expect("after the copy", desk.do("promote", "web").status, DONE)
        desk.kill()
        shutil.copy(desk.folder / "old.db", desk.folder / "alone.db")
        before = files_of(desk)
        for name in ("none.db", "alone.db"):
            operate(desk, "docs/NIGHT.md", "Restore", name)
            expect(f"{name}: the files are as they were", files_of(desk) == before, True)
        operate(desk, "docs/NIGHT.md", "Restore", "old.db")
        expect("all have their names", [*desk.folder.glob("new.db*")], [])
        desk.start()
        expect("the copy lacks it", desk.count("promote"), {})


def try_new_file_lines(world):
    """Those that give a desk a new file. While a release goes on, its files stay as they were."""
    with world.desk("new-file-lines") as desk:
        add(desk)
        desk.kill()
        before = files_of(desk)
        operate(desk, "docs/OPERATIONS.md", "A new file")
        expect("in progress: the files are as they were", files_of(desk) == before, True)
        desk.start()
        expect("an end", desk.do("promote-full", "web").status, DONE)
        desk.kill()
        operate(desk, "docs/OPERATIONS.md", "A new file")
        expect("all have their names", [*desk.folder.glob("new.db*")], [])
        desk.start()
        stand = json.loads(desk.ask("get", "web").output)
        expect("the new file", (stand["status"], stand["stable"]), ("Healthy", "v2"))
        expect("it has no past", desk.count("promote full"), {})
        found = world.run(["history", "--db", "until-2027.db", "web"], desk.folder)
        expect("the old file has the past", "done v2" in found.output, True)
