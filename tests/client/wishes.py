"""Keys, and commands in the place of others: parts of client.py."""
import json
import subprocess
import time

from world import (
    ABORTED, BEHIND, CONTRADICTION, DONE, ENDED, KEY_USED, LATE, PENDING, PENDING_SAID, PROMOTED,
    REFUSED, REPLACED, STARTED, TOOK_PLACE, TOO_LATE, WORDS, add, answering, ask, environment,
    expect, process, put, shown, want, want_all_said, want_delivered,
)

KEY_INSTEAD = "--once and --instead cannot both be given"
KEY_EMPTY = "the KEY of --once is empty"
REPORT_INSTEAD = "a report cannot be asked in the place of another command"
KEY = ("--once", "deploy-77")
INSTEAD = ("--instead",)


def unanswered(desk):
    """A server that gives each message to the desk, and loses the reply."""
    return answering(lambda client: ask(desk.port, client.recv(65536)))


def lost():
    """A server that loses each message."""
    return answering(lambda client: client.recv(65536))


def acted(desk, *lines):
    """How often web has each of these lines in its history."""
    return [desk.count(line).get("web", 0) for line in lines]


def try_once(world):
    """A second call with a key gets the same bytes, and nothing acts; the key is of no other
    command. An empty one is refused."""
    with world.desk("once") as desk:
        add(desk)
        want("first", desk.do("promote", "web", options=KEY), DONE, shown(PROMOTED))
        kept = (desk.folder / "ops.journal").read_bytes()
        want("second", desk.do("promote", "web", options=KEY), DONE, shown(PROMOTED))
        for words in (("abort", "web"), ("promote-full", "web"), ("promote", "other"),
                      ("start", "web", "v3")):
            want(words, desk.do(*words, options=KEY), CONTRADICTION, said=KEY_USED)
        for words, more in ((("promote", "web"), ()), (("template", "none.json"), ("--argo",))):
            want(f"an empty key: {words}", desk.do(*words, options=("--once", "", *more)), WORDS,
                 said=KEY_EMPTY)
        expect("the journal", (desk.folder / "ops.journal").read_bytes(), kept)
        expect("promotions", acted(desk, "promote"), [1])
        # a refusal is kept, too
        again = ("--once", "deploy-78")
        for row in ("first", "second"):
            want(row, desk.do("start", "web", "v3", options=again), REFUSED,
                 '{"code":"in-progress"}\n')
        want("the end", desk.do("promote", "web", options=("--once", "end")), DONE, shown(ENDED))
        want("kept", desk.do("start", "web", "v3", options=again), REFUSED,
             '{"code":"in-progress"}\n')
        want("another key", desk.do("start", "web", "v3", options=("--once", "deploy-79")), DONE,
             shown(STARTED))
        want("the first key", desk.do("promote", "web", options=KEY), DONE, shown(PROMOTED))
        # the kept reply needs no desk
        desk.kill()
        want("no desk", desk.do("promote", "web", options=KEY, tries=1), DONE, shown(PROMOTED))
        desk.start()
        expect("promotions", acted(desk, "promote", "start v3"), [2, 1])
        want_delivered("once", desk)


def kill_waiting(world, desk, is_passed):
    """Kills a promotion under a key while it waits, before its message or after it is with the
    desk."""
    come = []

    def stall(client):
        message = client.recv(65536)
        if b"/requests/1 " not in message:
            client.sendall(ask(desk.port, message))
            return
        if is_passed:
            ask(desk.port, message)
        come.append(message)
        client.recv(1)

    with answering(stall) as port, process(
            [world.program, *desk.words("promote", "web", port=port, options=KEY, timeout=60)],
            cwd=desk.folder, env=environment(), stdin=subprocess.DEVNULL,
            stdout=subprocess.PIPE, stderr=subprocess.DEVNULL) as client:
        while not come and client.poll() is None:
            time.sleep(.01)
        client.kill()
        expect("what it wrote", client.communicate()[0], b"")


def try_once_killed(world):
    """A call that was killed while it waited, before the desk had it or after, is found by its
    key."""
    for name, is_passed in (("lost", False), ("unanswered", True)):
        with world.desk(f"once-{name}") as desk:
            add(desk)
            kill_waiting(world, desk, is_passed)
            expect(f"{name}: pending", desk.journal().pending.key, KEY[1])
            for row in ("first", "second"):
                want(f"{name}: {row}", desk.do("promote", "web", options=KEY), DONE,
                     shown(PROMOTED))
            expect(name, acted(desk, "promote"), [1])
            want_delivered(name, desk)


def try_pending_keys(world):
    """While a command with a key is pending, a call with another key or without one is another
    wish, and the key is of no other command."""
    with world.desk("pending-keys") as desk:
        add(desk)
        with unanswered(desk) as port:
            want("tick", desk.do("tick", "web"), DONE, shown(STARTED))
            want("pending", desk.do("promote", "web", options=KEY, port=port, tries=1), PENDING,
                 said=PENDING_SAID)
        want("the key", desk.do("abort", "web", options=KEY), CONTRADICTION, said=KEY_USED)
        expect("still pending", desk.journal().pending.key, KEY[1])
        found = desk.do("promote", "web")
        want("without a key", found, DONE, shown(ENDED), BEHIND)
        want_all_said("without a key", found, BEHIND)
        want("the first", desk.do("promote", "web", options=KEY), DONE, shown(PROMOTED))
        expect("promotions", acted(desk, "promote"), [2])
        want_delivered("pending keys", desk)


def try_instead(world):
    """Another command in the place of one that had not come: it is settled under the number, and a
    late copy of the first does nothing. The same call again resumes. The first one asked again says
    what became of it."""
    with world.desk("instead") as desk:
        add(desk)
        want("tick", desk.do("tick", "web"), DONE, shown(STARTED))
        desk.kill()
        first, other = ("promote-full", "web"), ("abort", "web")
        want("first", desk.do(*first, tries=1, options=KEY), PENDING, said=PENDING_SAID)
        for row in ("once", "again"):
            want(row, desk.do(*other, tries=1, options=INSTEAD), PENDING, said=PENDING_SAID)
        want("a third", desk.do("retry", "web", tries=1, options=INSTEAD), CONTRADICTION,
             said=REPLACED)
        found = desk.journal().pending
        expect("pending", (found.intent, found.instead),
               ('{"promoteFull":{"service":"web"}}', '{"abort":{"service":"web"}}'))
        desk.start()
        want("settled", desk.do(*other, options=INSTEAD), DONE, shown(ABORTED))
        want_delivered("instead", desk)
        want("the first again", desk.do(*first, options=KEY), LATE, shown(ABORTED), TOOK_PLACE)
        expect("a late copy", put(desk.port, "ops", 2, '{"promoteFull":{"service":"web"}}'),
               (409, '{"code":"reused"}'))
        expect("acted", acted(desk, "promote full", "abort"), [0, 1])
        # where nothing is pending it is a command as any other
        want("nothing is pending", desk.do("retry", "web", options=INSTEAD), DONE, shown(STARTED))
        want_delivered("instead", desk)


def try_instead_spaced(world):
    """A manifest that takes a place is the same command with another spacing: the call again
    settles it, with --instead or without, and it is settled once. Another manifest is a third
    command."""
    template = {"kind": "AnalysisTemplate", "metadata": {"name": "errors"},
                "spec": {"metrics": [{"name": "errors", "interval": "10s", "count": 2,
                                      "successCondition": "result <= 5"}]}}
    for row, options in (("instead", INSTEAD), ("as a wish", ())):
        with world.desk(f"spaced-{len(options)}") as desk:
            add(desk)
            desk.write("a.json", template)
            desk.write("b.json", json.dumps(template).replace(":", ":  "))
            desk.write("c.json", json.dumps(template).replace("<= 5", "<= 6"))
            want("tick", desk.do("tick", "web"), DONE, shown(STARTED))
            with lost() as port:
                want("first", desk.do("promote", "web", tries=1, port=port), PENDING,
                     said=PENDING_SAID)
                want("template", desk.do("template", "a.json", tries=1, port=port,
                                         options=INSTEAD), PENDING, said=PENDING_SAID)
                want("spaced", desk.do("template", "b.json", tries=1, port=port, options=options),
                     PENDING, said=PENDING_SAID)
                want("another", desk.do("template", "c.json", tries=1, port=port,
                                        options=INSTEAD), CONTRADICTION, said=REPLACED)
            found = desk.do("template", "b.json", options=options)
            want(row, found, DONE, '{"code":"ok","revision":1,"template":"errors"}\n')
            want_all_said(row, found)
            want_delivered(row, desk)
            expect("requests", len(desk.kept()), 2)
            expect("promotions", acted(desk, "promote"), [0])


def try_replaced_wish(world):
    """A wish in whose place another one is pending is asked again: it says what became of both."""
    with world.desk("replaced") as desk:
        add(desk)
        want("tick", desk.do("tick", "web"), DONE, shown(STARTED))
        desk.kill()
        want("first", desk.do("promote-full", "web", tries=1), PENDING, said=PENDING_SAID)
        want("instead", desk.do("abort", "web", tries=1, options=INSTEAD), PENDING,
             said=PENDING_SAID)
        want("first again", desk.do("promote-full", "web", tries=1), PENDING, said=PENDING_SAID)
        desk.start()
        want("settled", desk.do("promote-full", "web"), LATE, shown(ABORTED), TOOK_PLACE)
        expect("acted", acted(desk, "promote full", "abort"), [0, 1])
        want_delivered("replaced", desk)


def try_instead_too_late(world):
    """Another command in the place of one that had come."""
    with world.desk("too-late") as desk:
        add(desk)
        want("tick", desk.do("tick", "web"), DONE, shown(STARTED))
        with unanswered(desk) as port:
            want("first", desk.do("promote", "web", tries=1, port=port, options=KEY), PENDING,
                 said=PENDING_SAID)
            want("instead", desk.do("abort", "web", tries=2, port=port, options=INSTEAD), PENDING,
                 said=PENDING_SAID)
        found = desk.do("abort", "web", options=INSTEAD)
        want("too late", found, LATE, shown(PROMOTED), TOO_LATE)
        want_all_said("too late", found, TOO_LATE)
        want("the first", desk.do("promote", "web", options=KEY), DONE, shown(PROMOTED))
        expect("acted", acted(desk, "promote", "abort"), [1, 0])
        expect("late", desk.journal().kept[-1].is_late, True)
        want("now", desk.do("abort", "web"), DONE, shown(("Degraded", 3, 0)))
        want_delivered("too late", desk)
        # and of a command that the desk had refused
        with unanswered(desk) as port:
            want("refused", desk.do("promote", "web", tries=1, port=port), PENDING,
                 said=PENDING_SAID)
        want("too late", desk.do("retry", "web", options=INSTEAD), LATE,
             '{"code":"not-in-progress"}\n', TOO_LATE)
        want_delivered("too late", desk)


def try_key_behind_instead(world):
    """A call with a key is a wish of its own, also if it means what was asked in the place of the
    pending one: that is settled first."""
    with world.desk("key-behind") as desk:
        add(desk)
        want("tick", desk.do("tick", "web"), DONE, shown(STARTED))
        desk.kill()
        want("first", desk.do("promote-full", "web", tries=1), PENDING, said=PENDING_SAID)
        want("instead", desk.do("promote", "web", tries=1, options=INSTEAD), PENDING,
             said=PENDING_SAID)
        desk.start()
        want("with a key", desk.do("promote", "web", options=KEY), DONE, shown(ENDED), BEHIND)
        want("with the key again", desk.do("promote", "web", options=KEY), DONE, shown(ENDED))
        expect("acted", acted(desk, "promote full", "promote"), [0, 2])
        want_delivered("key behind", desk)


def try_refused_pairs(world):
    """What may not be asked together is refused, and changes nothing."""
    with world.desk("pairs") as desk:
        add(desk)
        want("a key and instead", desk.do("abort", "web", options=(*KEY, *INSTEAD)), WORDS,
             said=KEY_INSTEAD)
        expect("no journal", (desk.folder / "ops.journal").exists(), False)
        want("tick", desk.do("tick", "web"), DONE, shown(STARTED))
        with lost() as port:
            want("pending", desk.do("promote", "web", tries=1, port=port), PENDING,
                 said=PENDING_SAID)
            before = (desk.folder / "ops.journal").read_bytes()
            want("a report instead", desk.do("report", "web", "1", "m", "5", port=port,
                                             options=INSTEAD), WORDS, said=REPORT_INSTEAD)
            want("a key and instead", desk.do("abort", "web", options=(*KEY, *INSTEAD)), WORDS,
                 said=KEY_INSTEAD)
        expect("the journal", (desk.folder / "ops.journal").read_bytes(), before)
        want("at last", desk.do("promote", "web"), DONE, shown(PROMOTED))
        want_delivered("pairs", desk)
