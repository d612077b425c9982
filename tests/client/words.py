"""Words, variables of the environment, terminals and closed outputs: parts of client.py."""
import json
import os
import pathlib
import signal
import subprocess
import threading
import time

from reports import COMMAND, INVALID_NAME, add_measured, metric
from screen import new_terminal, read_terminal
from world import (
    ADDED, CONTRADICTION, DONE, ENDED, KEY_USED, LOCAL, PENDING, PROMOTED, REFUSED, STARTED, WORDS,
    Caller, Wrong, add, answering, ask, environment, expect, free_port, process, shown,
    two_pauses, wait_until, want, want_delivered, want_seconds,
)

ADDRESSES = pathlib.Path(__file__).with_name("addresses.c")
ADDRESS = "the desk's address is not HOST:PORT (--desk or CANARY_DESK)"
NO_MEMORY = "out of memory"
NO_ADDRESS = "the system knows no address of the desk's name: nothing was asked"
NO_CALLER = "a caller has to be given: --as NAME or CANARY_AS"
NO_VERSION = "the VERSION is missing: a version is 1 to 63 of A-Z, a-z, 0-9, '.', '_' and '-'"
BAD_VERSION = "the VERSION is invalid: a version is 1 to 63 of A-Z, a-z, 0-9, '.', '_' and '-'"
BAD_CALLER = "the caller has an invalid name: 1 to 63 of a-z, 0-9 and '-', no '-' at an end"
NO_JOURNAL = "a journal has to be given: --journal FILE or CANARY_JOURNAL"
MANIFEST = ("the desk would not take this manifest: 'canary check' says why, and Argo's "
            "manifests need --argo")
NO_FILE = "the file cannot be read"
OUTPUT = "the output failed or was closed"


def try_variables(world):
    """Variables in the place of options; an option counts before its variable."""
    with world.desk("variables") as desk:
        add(desk, "web", "one", "two")
        right = {"CANARY_DESK": f"127.0.0.1:{desk.port}", "CANARY_AS": "ops",
                 "CANARY_JOURNAL": str(desk.folder / "ops.journal")}
        wrong = {"CANARY_DESK": "nowhere", "CANARY_AS": "No Name",
                 "CANARY_JOURNAL": str(desk.folder / "none" / "wrong.journal")}
        words = {"CANARY_DESK": ["--desk", right["CANARY_DESK"]], "CANARY_AS": ["--as", "ops"],
                 "CANARY_JOURNAL": ["--journal", right["CANARY_JOURNAL"]]}

        def tick(variables, *options):
            return world.run(["do", *options, "tick", "web"], desk.folder, variables=variables)

        want("variables", world.run(["do", "promote", "web"], desk.folder, variables=right), DONE,
             shown(PROMOTED))
        given = [word for option in words.values() for word in option]
        want("options", world.run(["do", *given, "promote", "one"], desk.folder), DONE,
             shown(PROMOTED, "one"))
        want("both", world.run(["do", *given, "promote", "two"], desk.folder, variables=wrong),
             DONE, shown(PROMOTED, "two"))
        for name, said in (("CANARY_DESK", ADDRESS), ("CANARY_AS", BAD_CALLER)):
            want(name, tick({**right, name: wrong[name]}), WORDS, said=said)
        nowhere = {**right, "CANARY_JOURNAL": wrong["CANARY_JOURNAL"]}
        expect("no folder", tick(nowhere).status, LOCAL)
        for name, option in words.items():
            want(f"{name} and its option", tick({**right, name: wrong[name]}, *option), DONE,
                 shown(PROMOTED))
        for name, said in (("CANARY_AS", NO_CALLER), ("CANARY_JOURNAL", NO_JOURNAL)):
            left = {other: value for other, value in right.items() if other != name}
            want(f"no {name}", tick(left), WORDS, said=said)
        want("an empty journal", tick({**right, "CANARY_JOURNAL": ""}), WORDS, said=NO_JOURNAL)
        want_delivered("variables", desk)


def try_variables_of_queries(world):
    """A query needs the variable of the desk alone."""
    with world.desk("variables-of-queries") as desk:
        add(desk)

        def ask(*words):
            return world.run(words, desk.folder,
                             variables={"CANARY_DESK": f"127.0.0.1:{desk.port}"})

        want("get", ask("get", "none"), REFUSED, '{"code":"unknown-service"}\n')
        want("watch", ask("watch", "--until", "Paused", "web"), DONE,
             "web Paused, step 1, weight 20%, version v2, waits for a promotion\n")
        want("due", ask("due", "web"), REFUSED)


def try_invalid_options(world):
    """Invalid addresses of each command, and callers with invalid names."""
    with world.desk("invalid-options") as desk:
        for name in ("nowhere", "", ":80", "127.0.0.1", "localhost:", "localhost:http",
                     "127.0.0.1:65536", "http://127.0.0.1:80", "no host:80", "a/b:80", "\u00f6:80"):
            for command in (["do", "--as", "ops", "--journal", "new", "tick", "web"],
                            ["get", "web"], ["watch", "web"], ["due", "web"], ["send", "x.csv"]):
                found = world.run([command[0], "--desk", name, *command[1:]], desk.folder)
                want(f"{command} at {name!r}", found, WORDS, said=ADDRESS)
        for name in ("", "Ops", "-ops", "ops-", "o" * 64, "o p", "\u00f6"):
            want(repr(name), desk.do("tick", "web", caller=name), WORDS, said=BAD_CALLER)
        expect("no journal", [each.name for each in desk.folder.glob("*") if
                              each.suffix == ".journal" or each.name == "new"], [])


def try_host_names(world):
    """A desk by its host's name; a name that has no address (RFC 6761, 6.4)."""
    with world.desk("names") as desk:
        add(desk, "web")
        named = ["--desk", f"localhost:{desk.port}"]
        asked = ["do", *named, "--as", "ops", "--journal", "named.journal"]
        want("do", world.run([*asked, "promote", "web"], desk.folder), DONE, shown(PROMOTED))
        want("watch", world.run(["watch", *named, "--until", "Paused", "web"], desk.folder), DONE,
             "web Paused, step 3, weight 50%, version v2, waits for a promotion\n")
        want("get", world.run(["get", *named, "none"], desk.folder), REFUSED,
             '{"code":"unknown-service"}\n')
        want("due", world.run(["due", *named, "web"], desk.folder), REFUSED)
        nowhere = ["--desk", f"nowhere.invalid:{desk.port}"]
        for command in (["do", *nowhere, "--as", "two", "--journal", "two.journal", "tick", "web"],
                        ["get", *nowhere, "web"], ["watch", *nowhere, "web"],
                        ["due", *nowhere, "web"], ["send", *nowhere, "x.csv"]):
            want(command[0], world.run(command, desk.folder), PENDING, said=NO_ADDRESS)
        expect("no journal", (desk.folder / "two.journal").exists(), False)
        want_delivered("names", desk, journal="named.journal")


def addresses_in(folder):
    """The variables of a program for which names have other addresses."""
    library = folder / "addresses.so"
    subprocess.run(["cc", "-O1", "-fPIC", "-shared", "-o", library, ADDRESSES, "-ldl"], check=True)
    return {"LD_PRELOAD": str(library)}


def try_two_addresses(world):
    """Of a name with addresses of IPv6 and IPv4, that of IPv4 counts, wherever it stands."""
    with world.desk("two-addresses") as desk:
        add(desk, "web")
        variables = addresses_in(desk.folder)
        for name in ("six-first", "four-first"):
            want(name, world.run(["get", "--desk", f"{name}:{desk.port}", "--tries", "1", "none"],
                                 desk.folder, variables=variables), REFUSED,
                 '{"code":"unknown-service"}\n')


def try_no_memory_for_a_name(world):
    """Memory is refused as a desk's name is looked up: nothing is asked, and the status is 5."""
    place = world.place("no-memory-for-a-name")
    variables = addresses_in(place)
    for words in (["get", "web"], ["do", "--as", "ops", "--journal", "j", "promote", "web"]):
        words[1:1] = ["--desk", "no-memory:8080", "--tries", "1"]
        want(words[0], world.run(words, place, variables=variables), LOCAL, said=NO_MEMORY)
    expect("no journal", (place / "j").exists(), False)


def try_words(world):
    """Words that are no command, manifests that no desk takes, and invalid options."""
    with world.desk("words") as desk:
        add(desk)
        desk.write("broken.json", "{")
        desk.write("template.json", {"metadata": {"name": "t"}, "spec": {"metrics": []}})
        desk.write("web.json", two_pauses())
        desk.write("long.json", '{"metadata":{"name":"long"},"status":"' + "x" * 65536 + '"}')
        for words in (("promote",), ("promote", "web", "v2"), ("tick", "web", "1", "2"),
                      ("promoteFull", "web"), ("template",), ("template", "t.json", "v1"),
                      ("stop", "web"), ("",), ("report", "web", "1", "errors", "5", "6")):
            want(words, desk.do(*words), WORDS, said=COMMAND)
        want("an invalid name", desk.do("promote", "Web"), WORDS, said=INVALID_NAME)
        for words in (("start", "web"), ("service", "web.json")):
            want(words, desk.do(*words), WORDS, said=NO_VERSION)
        for version in ("v 2", "", "v1.2.3+build5", "sha256:0123", "x" * 64):
            want(version, desk.do("start", "web", version), WORDS, said=BAD_VERSION)
            want(version, desk.do("service", "web.json", version), WORDS, said=BAD_VERSION)
        desk.write("fine.json", {"metadata": {"name": "t"}, "spec": {"metrics": [{"name": "m"}]}})
        for words in (("promote", "web"), ("start", "web", "v2"), ("template", "fine.json"),
                      ("service", "web.json", "v1")):
            want(f"{words}, with a failure", desk.do(*words, options=("--failure", "x")), WORDS,
                 said=COMMAND)
        for words in (("template", "broken.json"), ("template", "template.json"),
                      ("template", "web.json"), ("service", "broken.json", "v1"),
                      ("service", "long.json", "v1")):
            want(words, desk.do(*words), WORDS, said=MANIFEST)
        for words in (("template", "none.json"), ("service", ".", "v1")):
            want(words, desk.do(*words), LOCAL, said=NO_FILE)
        for words in (["do"], ["get"], ["do", "--tries", "0", "tick", "web"],
                      ["do", "--tries", "1001", "tick", "web"],
                      ["get", "--timeout", "0", "web"], ["get", "--timeout", "86401", "web"],
                      ["get", "--journal", "x", "web"], ["due", "--until", "Paused", "web"],
                      ["send"], ["watch", "web", "other"]):
            found = world.run(words, desk.folder)
            expect(words, (found.status, found.output, found.errors.startswith("error: ")),
                   (WORDS, "", True))
        expect("no journal", (desk.folder / "ops.journal").exists(), False)
        expect("no request", desk.kept(), [])


def try_long_manifests(world):
    """A manifest whose command is of 65,536 bytes is taken; one of a byte more the desk would not
    read, so nothing is asked. Comments of YAML are no part of a command."""
    with world.desk("long-manifests") as desk:
        for words, around, name in ((("template", "t.json"), '{"template":%s}', "t"),
                                    (("service", "web.json", "v1"),
                                     '{"service":{"manifest":%s,"version":"v1"}}', "web")):
            value = {"metadata": {"name": "t"}, "spec": {"metrics": [{"name": "m"}]}}
            value = {**(value if name == "t" else two_pauses()), "status": ""}
            room = 65_536 - len(around % json.dumps(value))
            before = desk.kept()
            for more in (1, 7):
                desk.write(words[1], {**value, "status": "x" * (room + more)})
                want(f"{words} of {more} bytes more", desk.do(*words), WORDS, said=MANIFEST)
            expect("nothing is asked", desk.kept(), before)
            desk.write(words[1], {**value, "status": "x" * room})
            expect(f"{words} of as many bytes", desk.do(*words).status, DONE)
            expect("it is asked", len(desk.kept()), len(before) + 1)
        desk.write("commented.yaml", "# a comment\n" * 6_000
                   + "metadata: {name: c}\nspec: {metrics: [{name: m}]}\n")
        want("comments", desk.do("template", "commented.yaml"), DONE,
             '{"code":"ok","revision":1,"template":"c"}\n')
        want_delivered("long manifests", desk)


def try_commands(world):
    """Each command, and a manifest that is meant again though it is written otherwise."""
    with world.desk("commands") as desk:
        desk.write("t.json", {"metadata": {"name": "t"}, "spec": {"metrics": [
            {"name": "m", "interval": "1h"}]}})
        desk.write("again.json", '{ "spec": {"metrics": [{"interval": "60m", "name": "m"}]},\n'
                                 '"status": {}, "metadata": {"name": "t"}}\n')
        desk.write("web.json", two_pauses())
        key = {"options": ("--once", "t")}
        want("template", desk.do("template", "t.json", **key), DONE,
             '{"code":"ok","revision":1,"template":"t"}\n')
        want("the same", desk.do("template", "again.json", **key), DONE,
             '{"code":"ok","revision":1,"template":"t"}\n')
        want("another revision", desk.do("template", "again.json"), DONE,
             '{"code":"ok","revision":2,"template":"t"}\n')
        for words, place in (
                (("service", "web.json", "v1"), ADDED), (("start", "web", "v2"), STARTED),
                (("promote", "web"), PROMOTED), (("abort", "web"), ("Degraded", 3, 0)),
                (("retry", "web"), STARTED), (("tick", "web"), STARTED),
                (("promote-full", "web"), ENDED)):
            want(words, desk.do(*words), DONE, shown(place))
        for words, code in ((("service", "web.json", "v1"), "service-exists"),
                            (("promote", "web"), "not-in-progress"),
                            (("start", "web", "v2"), "already-stable"),
                            (("tick", "none"), "unknown-service")):
            want(words, desk.do(*words), REFUSED, f'{{"code":"{code}"}}\n')
        want("the key", desk.do("tick", "web", **key), CONTRADICTION, said=KEY_USED)
        want_delivered("commands", desk)


def on_terminal(world, words, folder):
    """The status of a client, and what its output, a terminal, showed."""
    shown_by, terminal = new_terminal()
    with process([world.program, *words], cwd=folder, env=environment(), stdin=subprocess.DEVNULL,
                 stdout=terminal, stderr=subprocess.DEVNULL) as client:
        os.close(terminal)
        found = read_terminal(shown_by, 30)
        os.close(shown_by)
        return client.wait(timeout=60), found.decode()


def try_terminals(world):
    """A plain line on a terminal in the place of the body, if there is one."""
    with world.desk("terminals") as desk:
        add_measured(desk, metric("m", "0s"))
        desk.write("t.json", {"metadata": {"name": "t"}, "spec": {"metrics": [{"name": "m"}]}})
        at = ["--desk", f"127.0.0.1:{desk.port}"]
        refused = Caller(desk, "other")
        refused.send({"service": {"version": "v1", "manifest": two_pauses("other")}})
        for words, status, wanted in (
                (desk.words("template", "t.json"), DONE, "template t, revision 1\n"),
                (desk.words("tick", "web"), DONE, "web Paused, step 1, weight 20%\n"),
                (desk.words("report", "web", "1", "m", "5"), DONE,
                 "web Paused, step 1, weight 20%, verdict Running\n"),
                (desk.words("promote", "other"), REFUSED, "refused: not-in-progress\n"),
                (["get", *at, "web"], DONE, "web Paused, step 1, weight 20%, version v2\n"),
                (["get", *at, "none"], REFUSED, "refused: unknown-service\n"),
                (["watch", *at, "--until", "Paused", "web"], DONE,
                 "web Paused, step 1, weight 20%, version v2, waits for a promotion\n")):
            expect(words, on_terminal(world, words, desk.folder), (status, wanted))
        # of a history there is no plainer line
        history = desk.ask("get", "web", "history").output
        expect("history", on_terminal(world, ["get", *at, "web", "history"], desk.folder),
               (DONE, history))
        want("on a pipe", desk.do("tick", "web"), DONE, shown(STARTED))
        want_delivered("terminals", desk)


def try_shown_metrics(world):
    """On a terminal `due` and `get` name a metric that is measured in decimals as people read it,
    and on a pipe by its label."""
    with world.desk("shown-metrics") as desk:
        label = "success-rate.e6f"
        add_measured(desk, {**metric(label, "0s"), "failureLimit": 0,
                            "successCondition": "result >= 950000"})
        at = ["--desk", f"127.0.0.1:{desk.port}"]
        want("due", desk.ask("due", "web"), DONE, f"1 {label} 1\n")
        expect("due on a terminal", on_terminal(world, ["due", *at, "web"], desk.folder),
               (DONE, "1 success-rate 1\n"))
        expect("it is measured", desk.do("report", "web", "1", label, "900000").status, DONE)
        line = "run 1 of web ended Failed: of success-rate 1 of 1 measurements failed\n"
        expect("get on a terminal", on_terminal(world, ["get", *at, "web", "1"], desk.folder),
               (DONE, line))
        found = desk.ask("get", "web", "1").output
        if f'"name":"{label}"' not in found:
            raise Wrong(f"get of a run: {found!r}")


def ended_with(world, words, folder, output):
    with process([world.program, *words], cwd=folder, env=environment(), stdin=subprocess.DEVNULL,
                 stdout=output, stderr=subprocess.PIPE) as client:
        errors = client.communicate(timeout=60)[1].decode()
        return client.returncode, errors


def unread_pipe():
    """The end to which is written of a pipe that nobody reads."""
    reader, output = os.pipe()
    os.close(reader)
    return output


def try_closed_outputs(world):
    """An output that is closed or full: the command is done, its reply is in the journal, and with
    its key it is found."""
    with world.desk("outputs") as desk:
        add(desk, "closed", "full")
        desk.write("rows.csv", "caller,number,service,run,metric,ordinal,taken,result,failure\n"
                               "Agent,1,web,1,m,1,1,5,\n")
        at = ["--desk", f"127.0.0.1:{desk.port}"]
        for name in ("closed", "full"):
            for words in (desk.words("promote", name, options=("--once", name)),
                          ["get", *at, name], ["watch", *at, "--until", "Paused", name],
                          ["send", *at, "rows.csv"]):
                output = os.open("/dev/full", os.O_WRONLY) if name == "full" else unread_pipe()
                found = ended_with(world, words, desk.folder, output)
                os.close(output)
                expect(f"{name}: {words}", found, (LOCAL, f"canary: {OUTPUT}\n"))
            want("the key", desk.do("promote", name, options=("--once", name)), DONE,
                 shown(PROMOTED, name))
        # nobody reads the errors
        output = unread_pipe()
        with process([world.program, "get", "--desk", f"127.0.0.1:{free_port()}", "--tries", "2",
                      "web"], cwd=desk.folder, env=environment(), stdin=subprocess.DEVNULL,
                     stdout=subprocess.PIPE, stderr=output) as client:
            os.close(output)
            expect("no errors", (client.communicate(timeout=60)[0], client.returncode), (b"", 3))
        expect("promotions", desk.count("promote"), {"closed": 1, "full": 1})
        want_delivered("outputs", desk)


def want_ended_by(world, desk, number):
    """A client that waits for a reply is ended by this signal."""
    come = []

    def stall(client):
        come.append(client.recv(65536))
        client.recv(1)

    with answering(stall) as port, process(
            [world.program, *desk.words("promote", "web", port=port, timeout=60)],
            cwd=desk.folder, env=environment(), stdin=subprocess.DEVNULL,
            stdout=subprocess.PIPE, stderr=subprocess.PIPE) as client:
        while not come and client.poll() is None:
            time.sleep(.01)
        begun = time.monotonic()
        client.send_signal(number)
        expect(number, client.wait(timeout=30), -number)
        want_seconds(number, time.monotonic() - begun, 0, 15)


def try_signals(world):
    """A client that waits ends at once when it is told to, and the command is pending."""
    with world.desk("signals") as desk:
        add(desk)
        want("tick", desk.do("tick", "web"), DONE, shown(STARTED))
        for number in (signal.SIGTERM, signal.SIGINT, signal.SIGHUP):
            want_ended_by(world, desk, number)
        want("again", desk.do("promote", "web"), DONE, shown(PROMOTED))
        want_delivered("signals", desk)


def try_stopped_client(world):
    """A client that is stopped and goes on again while it waits for a reply hears that one: it
    sends one message."""
    with world.desk("stopped-client") as desk:
        add(desk)
        want("tick", desk.do("tick", "web"), DONE, shown(STARTED))
        come, goes_on = [], threading.Event()

        def answer(client):
            come.append(client.recv(65536))
            goes_on.wait(20)
            client.sendall(ask(desk.port, come[-1]))

        with answering(answer) as port, process(
                [world.program, *desk.words("promote", "web", port=port, timeout=60)],
                cwd=desk.folder, env=environment(), stdin=subprocess.DEVNULL,
                stdout=subprocess.PIPE, stderr=subprocess.PIPE) as client:
            wait_until("a message", lambda: come or client.poll() is not None)
            for _ in range(5):
                time.sleep(.05)
                client.send_signal(signal.SIGSTOP)
                time.sleep(.05)
                client.send_signal(signal.SIGCONT)
            time.sleep(.1)
            goes_on.set()
            found = client.communicate(timeout=60)
        expect("it goes on", (client.returncode, *found), (DONE, shown(PROMOTED).encode(), b""))
        expect("messages", len(come), 1)
        want_delivered("stopped client", desk)
