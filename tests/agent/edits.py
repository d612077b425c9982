"""Files of manifests that change while they are measured: parts of agent.py."""
import json
import os
import random
import socket
import time

from agents import (
    agent_of, analysis, begin, beside, but_late, desk_for, listed, measured, measured_beside,
    metric, of_web, provider, release, reply, rollout, run_agent, template, wait_measured,
    wait_until, want_once, want_rest)
from replies import want_plain
from world import WORDS, Wrong, expect

NO_PROVIDER = "no file has a provider for this metric"
GONE = "not measured any more: no file has a Rollout of this name"
USED_AGAIN = "nothing is found in the files any more: they are used as they are now"
SIX, SEVEN = "result < 0.5", "result < 0.500001"


def template_of(port, condition=SIX, path="old", names=("p", "q")):
    return template("of", *(metric(name, of_web(port, path), successCondition=condition)
                            for name in names))


def count_of(desk, label):
    return len([each for each in measured(desk) if each.metric == label])


def wait_more(desk, label, more=2, seconds=60):
    """Waits until a metric has some measurements more."""
    count = count_of(desk, label)
    wait_until(f"{label} is measured", lambda: count_of(desk, label) >= count + more, seconds)


def put(desk, value, name="manifests.json"):
    """Puts a file in the place of another, whole."""
    desk.write("new", value)
    os.replace(desk.folder / "new", desk.folder / name)


def want_used_again(agent, row, times):
    """An agent says that it uses its files again, so many times in all."""
    agent.wait_said(USED_AGAIN, times)
    expect(f"{row}: how often", agent.errors().count(USED_AGAIN), times)


def try_edited(world):
    """A template is edited within an attempt. With more places: its run is reported by the label
    that it has, and by the new query. A metric that is removed waits, which is said once, and is
    measured again as it is back."""
    with provider(lambda asked, _: reply("0.2500019" if asked.target == "/new" else "0.25")) \
            as server:
        web = measured_beside("web", "of")
        with desk_for(world, "edited", template_of(server.port), web) as desk, \
                agent_of(desk) as agent:
            wait_more(desk, "p.e6n")
            put(desk, listed(template_of(server.port, SEVEN, "new"), web))
            wait_until("the new query", lambda: "/new" in server.targets())
            wait_more(desk, "p.e6n", 3)
            expect("by the label of the run", {each.metric for each in measured(desk)},
                   {"p.e6n", "q.e6n"})
            results = [each.result for each in measured(desk) if each.result]
            expect("the last one", results[-1], "250001")
            put(desk, listed(template_of(server.port, names=("p",)), web))
            agent.wait_said("q.e6n")
            before = count_of(desk, "q.e6n")
            wait_more(desk, "p.e6n", 3)
            if count_of(desk, "q.e6n") > before + 1:
                raise Wrong("a metric was measured that is in no file")
            expect("said once", agent.errors().count(NO_PROVIDER), 1)
            put(desk, listed(template_of(server.port), web))
            wait_more(desk, "q.e6n", 3)
            want_once("edited", measured(desk))


def try_two_of_a_name(world):
    """A run's label is in no file, and two metrics of the files have its name: neither is measured
    for it, which is said once."""
    other = template("other", metric("p", of_web(1, "two"), count=1,
                                     successCondition="result < 0.5000001"))
    web = rollout("web", {"setWeight": 20}, {"pause": {}}, {"analysis": analysis("other")},
                  analysis=analysis("of"))
    with provider(lambda *_: reply("0.25")) as server:
        first = template_of(server.port, names=("p",))
        with desk_for(world, "two-of-a-name", first, measured_beside("web", "of")) as desk:
            desk.write("more.json", listed(template_of(server.port, SEVEN, names=("p",)), other,
                                           web))
            with agent_of(desk, "more.json") as agent:
                agent.wait_said(NO_PROVIDER)
                time.sleep(3)
                expect("said once", agent.errors().count(NO_PROVIDER), 1)
                expect("measured", measured(desk), [])
                expect("asked", server.targets(), [])


def try_within_a_second(world):
    """A file is written in its place, as long as it was, within the second of its last change: it
    is read again."""
    web = measured_beside("web", "of")
    with provider(lambda *_: reply("0.25")) as server, desk_for(
            world, "within-a-second", template_of(server.port), web) as desk:
        path = desk.folder / "manifests.json"
        second = int(time.time()) * 1_000_000_000
        os.utime(path, ns=(second, second))
        with agent_of(desk) as agent:
            wait_more(desk, "p.e6n")
            text = path.read_text(encoding="utf-8").replace("/old", "/new")
            with open(path, "r+", encoding="utf-8") as file:
                file.write(text)
                file.flush()
                os.utime(file.fileno(), ns=(second, second + 1))
            wait_until("the new query", lambda: "/new" in server.targets() or agent.must_run())


def try_asked_before(world):
    """A file changes while a provider is asked by the one before: its answer is read as it was
    asked for."""
    def answer(asked, _):
        time.sleep(1)
        return reply('{"a": 0.25}' if asked.target == "/a" else '{"b": 0.5}')

    with provider(answer) as server:
        def manifests_of(name):
            of = of_web(server.port, name, jsonPath=f"{{$.{name}}}")
            return [template("of", metric("p", of, interval="4s", successCondition=SIX)),
                    measured_beside("web", "of")]

        with desk_for(world, "asked-before", *manifests_of("a")) as desk, agent_of(desk):
            wait_more(desk, "p.e6n", 1)
            for name in "babababab":
                time.sleep(1.1)
                put(desk, listed(*manifests_of(name)))
            # the second of these is asked for by the last file
            wait_more(desk, "p.e6n", 2)
            expect("results", {each.result for each in measured(desk)}, {"250000", "500000"})


def put_invalid(desk, agent, row, value):
    """The file becomes this: the agent goes on measuring by the last good one, and names the
    file."""
    count = agent.errors().count("manifests.json")
    put(desk, value)
    wait_more(desk, "p.e6n", 3)
    said = agent.errors().count("manifests.json") - count
    if said > 2 or (said < 1 and row in ("no JSON", "arithmetic")):
        raise Wrong(f"{row}: said {said} times: {agent.errors()!r}")


def try_invalid(world):
    """A file becomes no JSON, something that is not translated, empty, gone or a folder: the last
    good one stays, and standard error names the file, once for each change. Once it is repaired, a
    line says that it is used again."""
    bad = {"no JSON": '{"kind": ', "arithmetic": None, "empty": "", "no manifest": "[1]"}
    with provider(lambda *_: reply("0.25")) as server:
        web = measured_beside("web", "of")
        good = listed(template_of(server.port), web)
        bad["arithmetic"] = listed(template_of(server.port, "result * 2 < 1"), web)
        with desk_for(world, "invalid", template_of(server.port), web) as desk, \
                agent_of(desk) as agent:
            wait_more(desk, "p.e6n")
            for at, (row, value) in enumerate(bad.items()):
                expect(f"{row}: used again before", agent.errors().count(USED_AGAIN), at)
                put_invalid(desk, agent, row, value)
                put(desk, good)
                want_used_again(agent, row, at + 1)
                wait_more(desk, "p.e6n", 1)
            want_gone(desk, agent, good, len(bad))
            want_once("invalid", measured(desk))


def want_gone(desk, agent, good, times):
    """The file is removed, and a folder comes in its place. It was repaired so often before."""
    for at, row in enumerate(("gone", "folder"), 1):
        before = agent.errors().count("manifests.json")
        (desk.folder / "manifests.json").unlink()
        if row == "folder":
            (desk.folder / "manifests.json").mkdir()
        wait_more(desk, "p.e6n", 4)
        said = agent.errors().count("manifests.json") - before
        if row == "gone" and said != 1:
            raise Wrong(f"{row}: said {said} times: {agent.errors()!r}")
        if row == "folder":
            (desk.folder / "manifests.json").rmdir()
        put(desk, good)
        want_used_again(agent, row, times + at)
        wait_more(desk, "p.e6n", 2)


def try_new_file(world):
    """A folder of manifests gets new files, with each ending of such names: their services are
    measured from then on. Names that are no manifest's are not read."""
    with provider(lambda *_: reply("0.25")) as server, desk_for(world, "new-file") as desk:
        folder = desk.folder / "manifests"
        folder.mkdir()
        for name in ("one", "two", "three"):
            release(desk, listed(
                template(name, metric("p", of_web(server.port), successCondition=SIX)),
                measured_beside(name, name)), file=f"{name}.json", is_begun=name == "one")
        os.rename(desk.folder / "one.json", folder / "one.json")
        (folder / "notes.txt").write_text("{", encoding="utf-8")
        (folder / ".hidden").write_text("{", encoding="utf-8")
        with agent_of(desk, "manifests") as agent:
            wait_measured(desk, 2, "one")
            for name, ending in (("two", "yml"), ("three", "yaml")):
                os.rename(desk.folder / f"{name}.json", folder / f"{name}.{ending}")
                begin(desk, name)
            for name in ("two", "three"):
                wait_measured(desk, 2, name)
            expect("its errors", but_late(agent.errors()), "")


def try_no_rollout(world):
    """A file loses its Rollout, which nothing is found in: its service is measured no more, which is
    said once, and again once the Rollout is back."""
    with provider(lambda *_: reply("0.25")) as server:
        of, web = template_of(server.port, names=("p",)), measured_beside("web", "of")
        with desk_for(world, "no-rollout", of, web) as desk, agent_of(desk) as agent:
            wait_more(desk, "p.e6n", 1)
            put(desk, listed(of))
            want_rest("measured no more", lambda: count_of(desk, "p.e6n"), 3)
            put(desk, listed(of, web))
            wait_more(desk, "p.e6n")
            expect("its errors", but_late(agent.errors()), f"canary: web: {GONE}\n")


def try_strange_files(world):
    """Links, a FIFO that nobody writes to, a socket, a link to nowhere, and a file that may not be
    read, in a folder of manifests: the call ends with a sentence or goes on, and never hangs. Once
    the agent runs, what was measured goes on."""
    with provider(lambda *_: reply("0.25")) as server:
        beside(lambda row: want_strange(world, server.port, row),
               ("fifo", "socket", "nowhere", "folder", "shut", "loop"))


def want_strange(world, port, row):
    made = [template_of(port, names=("p",)), measured_beside("web", "of")]
    with desk_for(world, f"strange-{row}", *made) as desk:
        folder = desk.folder / "manifests"
        folder.mkdir()
        (folder / "a.json").symlink_to(desk.folder / "manifests.json")
        with agent_of(desk, "manifests") as agent:
            wait_more(desk, "p.e6n", 1)
            plant(folder / "b\x1b[31m.yaml", row)
            wait_more(desk, "p.e6n", 3)
            before = but_late(agent.errors())
            wait_more(desk, "p.e6n", 2)
            expect(f"{row}: said again", but_late(agent.errors()), before)
            want_plain(row, agent.errors(), "\n")
        ended = run_agent(desk, "manifests", options=("--once",), timeout=20)
        if ended.status not in (0, 2, 5) or (ended.status and not ended.errors):
            raise Wrong(f"{row} from the beginning: {ended}")


def plant(path, row):
    """Something that is no file of manifests, under such a name."""
    if row == "fifo":
        os.mkfifo(path)
    elif row == "socket":
        with socket.socket(socket.AF_UNIX) as made:
            made.bind(str(path))
    elif row == "folder":
        path.mkdir()
    elif row == "shut":
        path.write_text("{}", encoding="utf-8")
        path.chmod(0)
    else:
        path.symlink_to("none" if row == "nowhere" else path)


def try_names(world):
    """A file of manifests whose name is not UTF-8: at the beginning its line and status 2; once the
    agent runs, the line comes once, and what was measured goes on."""
    with provider(lambda *_: reply("0.25")) as server, desk_for(
            world, "names", template_of(server.port, names=("p",)),
            measured_beside("web", "of")) as desk:
        folder = desk.folder / "manifests"
        folder.mkdir()
        (folder / "a.json").symlink_to(desk.folder / "manifests.json")
        other, strange = (os.fsencode(folder) + name
                          for name in (b"/\xff.txt", b"/b\xff\x1b\xc3\xa9.yaml"))
        with open(other, "wb"), agent_of(desk, "manifests") as agent:
            wait_more(desk, "p.e6n", 1)
            expect("another ending", but_late(agent.errors()), "")
            with open(strange, "wb"):
                wait_more(desk, "p.e6n", 4)
            line = "manifests/b\\xff\\x1b\\xc3\\xa9.yaml: the name of this file is not UTF-8"
            expect("said", agent.errors().count(line), 1)
            want_plain("names", agent.errors(), "\n")
            ended = run_agent(desk, "manifests", options=("--once",), journals="other")
            expect(f"from the beginning: {ended.errors}", (ended.status, line in ended.errors),
                   (WORDS, True))
            os.unlink(strange)
            want_used_again(agent, "no such name", 1)
            wait_more(desk, "p.e6n", 3)
            expect("said once", agent.errors().count("UTF-8"), 1)
        want_each_name(desk, folder)


def want_each_name(desk, folder):
    """Of two such names each has its line."""
    for name in (b"/c\xfe.yml", b"/d\xff.json"):
        with open(os.fsencode(folder) + name, "wb"):
            pass
    ended = run_agent(desk, "manifests", options=("--once",))
    expect("two names", (ended.status, [name for name in ("c\\xfe.yml", "d\\xff.json")
                                        if f"manifests/{name}: " in ended.errors]),
           (WORDS, ["c\\xfe.yml", "d\\xff.json"]))


def try_fifo_instead(world):
    """A FIFO takes the name of a file that is measured by: the agent opens it for nobody, says so
    once, and goes on; as the file is back, it counts again."""
    with provider(lambda *_: reply("0.25")) as server:
        web = measured_beside("web", "of")
        with desk_for(world, "fifo-instead", template_of(server.port, names=("p",)), web) as desk, \
                agent_of(desk) as agent:
            wait_more(desk, "p.e6n", 1)
            os.mkfifo(desk.folder / "fifo")
            os.replace(desk.folder / "fifo", desk.folder / "manifests.json")
            wait_more(desk, "p.e6n", 5)
            expect("said", agent.errors().count("no regular one any more"), 1)
            put(desk, listed(template_of(server.port, path="new", names=("p",)), web))
            wait_until("the file counts again", lambda: "/new" in server.targets())
            want_used_again(agent, "a FIFO", 1)
            wait_more(desk, "p.e6n", 2)
            want_once("fifo instead", measured(desk))


def try_replaced(world):
    """A file is written in place, in pieces, and replaced, while it is read again and again: the
    agent goes on, and in the end it has the last one."""
    rng = random.Random(world.share)
    with provider(lambda *_: reply("0.25")) as server:
        web = measured_beside("web", "of")
        with desk_for(world, "replaced", template_of(server.port, names=("p",)), web) as desk, \
                agent_of(desk) as agent:
            wait_more(desk, "p.e6n", 1)
            good = json.dumps(listed(template_of(server.port, names=("p",)), web))
            until = time.monotonic() + (60 if world.is_whole else 5)
            while time.monotonic() < until:
                write_in_pieces(rng, desk.folder / "manifests.json", good)
                put(desk, good)
            put(desk, listed(template_of(server.port, path="last", names=("p",)), web))
            wait_until("the last file", lambda: "/last" in server.targets()
                       or agent.must_run())
            wait_more(desk, "p.e6n", 2)
            want_once("replaced", measured(desk))


def write_in_pieces(rng, path, text):
    """Writes a file in its place, and stops for a moment within."""
    at = rng.randrange(len(text))
    with open(path, "w", encoding="utf-8", buffering=1) as file:
        for piece in (text[:at], text[at:]):
            file.write(piece)
            file.flush()
            time.sleep(rng.uniform(0, .4))
