"""What `due`, `watch` and `get` make of replies that a server gives in turn, to the second and to
the word: parts of client.py."""
import json

from replies import reply
from strangers import JSON, body_with, serving
from unread import STANDING, run_with
from words import on_terminal
from world import DONE, NO_DESK, PENDING, REFUSED, answering, expect, timed, want

HELD = 7


def service_with(**members):
    """The reply to a query of a service, at the moment 100, with one open run."""
    return reply(200, body_with(**{"code": "ok", "moment": 100, "open": [1], "service": "web",
                                   **members}), JSON)


def try_due_to_the_second(world):
    """A measurement is due from its second on, and late by more than so many seconds after that."""
    place = world.place("due-to-the-second")
    line = "web 1 m 3 1970-01-01T00:01:{:02}Z\n"
    for since, words, output in (
            (100, [], "1 m 3\n"), (101, [], ""), (91, ["--late", "9"], ""),
            (90, ["--late", "9"], line.format(30)), (99, ["--late", "1"], ""),
            (98, ["--late", "1"], line.format(38)), (101, ["--late", "1"], "")):
        with serving(service_with(), run_with(due=since)) as port:
            want(f"{since} {words}", world.run(
                ["due", "--desk", f"127.0.0.1:{port}", *words, "web"], place),
                DONE if output else REFUSED, output)


def try_due_of_services(world):
    """What is due of one of two services is shown, whichever of them comes last; nothing is due if
    it is of neither."""
    place = world.place("due-of-services")
    is_due, waits, no_run = ([service_with(), run_with()], [service_with(), run_with(due=None)],
                             [service_with(open=[])])
    for row, one, two, output in (
            ("the first", is_due, waits, "one 1 m 3\n"),
            ("the second", waits, is_due, "two 1 m 3\n"),
            ("beside no run", is_due, no_run, "one 1 m 3\n"),
            ("after no run", no_run, is_due, "two 1 m 3\n"), ("neither", waits, no_run, ""),
            ("no run", no_run, no_run, "")):
        for words in ([], ["--wait", "--timeout", "60"]):
            if words and waits in (one, two) and not output:
                continue
            with serving(*one, *two) as port:
                want(f"{row} {words}", world.run(
                    ["due", "--desk", f"127.0.0.1:{port}", *words, "one", "two"], place),
                    DONE if output else REFUSED, output)


def try_due_of_a_missing_one(world):
    """A call that waits goes on beside a service that the desk does not have, and names that once,
    however often it looks."""
    place = world.place("due-of-a-missing-one")
    missing = reply(404, body_with(code="unknown-service"), JSON)
    waits = [missing, service_with(), run_with(due=None)]
    with serving(*waits, *waits, missing, service_with(), run_with()) as port:
        found = world.run(["due", "--desk", f"127.0.0.1:{port}", "--wait", "--timeout", "60",
                           "none", "web"], place)
    expect("a missing one", (found.status, found.output, found.errors),
           (DONE, "web 1 m 3\n", "canary: there is no such service: none\n"))


def try_held_and_paused(world):
    """A release that is held is Paused, too: if both are waited for, the status is that of Held."""
    place = world.place("held-and-paused")
    held = reply(200, body_with(**{**STANDING, "hold": "step"}), JSON)
    line = "web Paused, step 1, weight 20%, held: step 1 is Inconclusive\n"
    for until, status in (("Held,Paused", HELD), ("Paused,Held", HELD), ("Paused,Waiting", DONE),
                          ("Waiting,Held,Paused,Healthy", HELD)):
        with serving(held) as port:
            want(until, world.run(["watch", "--desk", f"127.0.0.1:{port}", "--until", until, "web"],
                                  place), status, line)


def try_another_run(world):
    """A service that stands as before, with another run, stands otherwise."""
    place = world.place("another-run")
    served = []
    for run in (1, 2):
        served.append(reply(200, body_with(**{**STANDING, "status": "Progressing", "runs": run}),
                            JSON))
        lines = [f"2026-01-01T00:00:0{at}Z step 1 analysis run {at}" for at in range(1, run + 1)]
        served.append(reply(200, body_with(code="ok", lines=lines), JSON))
    served.append(reply(200, body_with(**{**STANDING, "status": "Healthy", "runs": 2}), JSON))
    served.append(reply(200, body_with(code="ok", lines=[]), JSON))
    with serving(*served) as port:
        want("another run", world.run(["watch", "--desk", f"127.0.0.1:{port}", "web"], place), DONE,
             "web Progressing, step 1, weight 20%, analysis run 1\n"
             "web Progressing, step 1, weight 20%, analysis run 2\n"
             "web Healthy, step 1, weight 20%\n")


def try_another_hold(world):
    """A service that is Paused as before, but is held now, stands otherwise."""
    place = world.place("another-hold")
    history = body_with(code="ok", lines=["2026-01-01T00:00:00Z step 1 pause"])
    with serving(reply(200, body_with(**STANDING), JSON), reply(200, history, JSON),
                 reply(200, body_with(**{**STANDING, "hold": "background"}), JSON)) as port:
        want("another hold", world.run(["watch", "--desk", f"127.0.0.1:{port}", "--timeout", "20",
                                        "--until", "Held", "web"], place), HELD,
             "web Paused, step 1, weight 20%, waits for a promotion\n"
             "web Paused, step 1, weight 20%, held: the background is Inconclusive\n")


def of_metric(name, phase, is_dry=False, **counts):
    return {"name": name, "phase": phase, "dryRun": is_dry, "measurements": 4, **counts}


def try_verdicts(world):
    """Why a run ended, as a terminal shows it: by the first metric that brought the verdict, and
    not by one that is dry-run."""
    place = world.place("verdicts")
    dry = of_metric("dry", "Failed", True, failed=3)
    fine = of_metric("fine", "Successful")
    for verdict, metrics, why in (
            ("Failed", (dry, fine, of_metric("m", "Failed", failed=2)),
             ": of m 2 of 4 measurements failed"),
            ("Inconclusive", (dry, of_metric("m", "Inconclusive", inconclusive=1)),
             ": of m 1 of 4 measurements are inconclusive"),
            ("Error", (of_metric("m", "Error", errors=4, consecutive=3), fine),
             ": of m the last 3 of 4 measurements are errors"),
            ("Successful", (dry, fine), ", by 8 measurements")):
        body = body_with(code="ok", service="web", run=7, verdict=verdict, closed=9,
                         metrics=[*metrics])
        with serving(reply(200, body, JSON)) as port:
            expect(verdict, on_terminal(world, ["get", "--desk", f"127.0.0.1:{port}", "web", "7"],
                                        place), (DONE, f"run 7 of web ended {verdict}{why}\n"))


def try_closed_at_once(world):
    """A connection that ends before the reply is whole ends the exchange, long before its time is
    over."""
    place = world.place("closed-at-once")
    whole = reply(200, body_with(**STANDING), JSON)
    for length in (0, 1, 20, len(whole) - 1):
        def answer(client, length=length):
            client.recv(65536)
            client.sendall(whole[:length])
        with answering(answer) as port:
            found = timed(length, 0, 20, lambda port=port: world.run(
                ["get", "--desk", f"127.0.0.1:{port}", "--timeout", "40", "--tries", "1", "web"],
                place))
            want(length, found, PENDING, said=NO_DESK)


# At the moment 9: a hold, the last line of the history after its moment, the status; then `why`,
# `run` and `until` of the JSON, and the end of the line for people.
REASONS = (
    ("none", "step 1 setWeight 20", "Healthy", ("plain", None, None), ""),
    ("none", "step 1 pause", "Paused", ("waiting", None, None), ", waits for a promotion"),
    ("none", "step 1 pause 86390s", "Paused", ("pause", None, 86399),
     ", pause of 86390 s until 23:59:59Z"),
    ("none", "step 1 pause 86391s", "Paused", ("pause", None, 86400),
     ", pause of 86391 s until 1970-01-02T00:00:00Z"),
    ("none", "step 1 analysis run 4", "Progressing", ("analysis", 4, None), ", analysis run 4"),
    ("none", "abort", "Degraded", ("aborted", None, None), ", aborted by a command"),
    ("none", "abort run 5", "Degraded", ("aborted", 5, None), ", aborted by run 5"),
    ("step", None, "Paused", ("held", None, None), ", held: step 1 is Inconclusive"),
    ("background", None, "Paused", ("held", None, None), ", held: the background is Inconclusive"),
    ("both", None, "Paused", ("held", None, None),
     ", held: step 1 and the background are Inconclusive"),
)


def try_reasons_to_the_word(world):
    """Why a service stands so, as `watch` ends a line, and as the members of its JSON say it."""
    place = world.place("reasons-to-the-word")
    ends = {"Degraded": REFUSED}
    for hold, line, status, members, words in REASONS:
        standing = {**STANDING, "hold": hold, "status": status}
        served = [reply(200, body_with(**standing), JSON)]
        if line is not None:
            lines = ["1970-01-01T00:00:00Z created v1", f"1970-01-01T00:00:09Z {line}",
                     "1970-01-01T00:00:09Z background run 3"]
            served.append(reply(200, body_with(code="ok", lines=lines), JSON))
        asked = ["watch", "--until", status]
        with serving(*served) as port:
            want(f"{hold} {line}", world.run([*asked, "--desk", f"127.0.0.1:{port}", "web"], place),
                 ends.get(status, DONE), f"web {status}, step 1, weight 20%{words}\n")
        with serving(*served) as port:
            found = world.run([*asked, "--json", "--desk", f"127.0.0.1:{port}", "web"], place)
        expect(f"{hold} {line}: JSON", (found.status, json.loads(found.output)), (
            ends.get(status, DONE), {**standing, **dict(zip(("why", "run", "until"), members))}))


def try_changed_meanwhile(world):
    """A history that is at another step than the service, which went on between the two queries, is
    not shown; the next look shows how it stands then, or that it stands as the first one said."""
    place = world.place("changed-meanwhile")

    def step(number):
        return reply(200, body_with(**{**STANDING, "step": number}), JSON)

    def history(number, words):
        lines = ["1970-01-01T00:00:01Z step 0 setWeight 20",
                 f"1970-01-01T00:00:09Z step {number} {words}"]
        return reply(200, body_with(code="ok", lines=lines), JSON)

    for row, served, line in (
            ("it went on", (step(1), history(3, "pause 60s"), step(3), history(3, "pause 60s")),
             "web Paused, step 3, weight 20%, pause of 60 s until 00:01:09Z\n"),
            ("it came back", (step(1), history(3, "pause 60s"), step(1), history(1, "pause")),
             "web Paused, step 1, weight 20%, waits for a promotion\n")):
        with serving(*served) as port:
            want(row, world.run(["watch", "--desk", f"127.0.0.1:{port}", "--timeout", "30",
                                 "--until", "Paused", "web"], place), DONE, line)
