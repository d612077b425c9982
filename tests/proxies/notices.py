"""What examples/operations/notify posts: to a webhook that takes it, and to one that is away, slow,
answers 500 or a byte at a time, closes or leads elsewhere: parts of proxies.py."""
import array
import contextlib
import fcntl
import http.server
import json
import os
import subprocess
import termios
import threading
import time

from followers import (
    LONGEST, NO_LINES, NO_VERSIONS, NO_WEIGHTS, line, said_after, unheard, want_all_said)
from parts import OPERATIONS, children_of, follower, is_alive, lasts, speaking
from silence import variables
from table_edges import wait_said
from tables import spoken
from world import Caller, Late, Wrong, add, expect, free_port, process, rollout, wait_until

METRIC = {"name": "m", "successCondition": "result >= 95", "failureCondition": "result < 90",
          "failureLimit": 0, "inconclusiveLimit": 0}
PATH = "/services/T0/B0/secret"
LAST = "web v4000 at 0%: aborted by run 7"


def stand(**members):
    return line(**{"why": "plain", "run": None, **members})


HOSTILE = [*NO_LINES, *(stand(version=name) for name in NO_VERSIONS),
           *(stand(stable=name) for name in NO_VERSIONS),
           *(stand(weight=weight) for weight in NO_WEIGHTS),
           *(stand(why=why) for why in (["held"], {}, {"a": 1})),
           *(stand(status=status) for status in (["Degraded"], {})),
           *(stand(status="Degraded", run=run) for run in ("5", "<!channel>", [5], 5.5, {"a": 1}))]
# What a desk may say of a status and a reason, which come to no webhook.
STRANGE = [stand(status="<!channel>", why="\u001b[2J"), stand(why='"}, {"text": "x'),
           stand(name="<!here>", weight=36, why="\n")]


class Webhook:
    """A server that takes what is posted, as the function `answer` says: it gets how many came
    before and the handler, and is false where the webhook takes it."""

    def __init__(self, answer=lambda before, handler: False, port=0):
        self.taken, self.come, self.heads, self.answer, webhook = [], [], [], answer, self

        class Handler(http.server.BaseHTTPRequestHandler):
            def do_POST(self):  # pylint: disable=invalid-name
                body = self.rfile.read(int(self.headers["Content-Length"]))
                webhook.come.append(self.path)
                webhook.heads.append(self.headers["Content-Type"])
                if not webhook.answer(len(webhook.come) - 1, self):
                    webhook.taken.append(json.loads(body))
                    self.send_response(204)
                    self.end_headers()

            def do_GET(self):  # pylint: disable=invalid-name
                # where a webhook led that leads elsewhere
                self.send_response(200)
                self.end_headers()

            def log_message(self, *_):  # pylint: disable=arguments-differ
                """Nothing."""

        self.server = http.server.ThreadingHTTPServer(("127.0.0.1", port), Handler)
        self.server.daemon_threads = True
        self.port = self.server.server_port
        threading.Thread(target=self.server.serve_forever, daemon=True).start()

    def texts(self):
        """What it took; each is an object with one text."""
        # as it is now: more may come meanwhile
        taken = [*self.taken]
        expect("what is posted", [[*each] for each in taken], [["text"]] * len(taken))
        return [each["text"] for each in taken]

    def close(self):
        self.server.shutdown()
        self.server.server_close()


@contextlib.contextmanager
def webhook(*words, **options):
    made = Webhook(*words, **options)
    try:
        yield made
    finally:
        made.close()


def notifying(folder, around, port, file="last"):
    """The script, with a webhook at a port of this machine."""
    return follower(folder, variables_for(around, port), "notify", "web", folder / file)


def variables_for(around, port):
    """These variables, and where the webhook is."""
    return {**around, "CANARY_WEBHOOK": f"http://127.0.0.1:{port}{PATH}", "no_proxy": "*"}


def want_texts(row, hook, *wanted):
    """It takes these texts, and in the next seconds no other one."""
    wait_texts(row, hook, [*wanted], LONGEST)
    lasts(row, lambda: hook.texts() == [*wanted])


def wait_texts(row, hook, wanted, seconds):
    """It takes these texts within so many seconds. Those of them that come first are late alone."""
    try:
        wait_until(row, lambda: hook.texts() == wanted, seconds, .05)
    except Late as late:
        if (found := hook.texts()) == wanted[:len(found)]:
            raise Late(f"{row}: only {found!r} of {wanted!r}") from late
        raise Wrong(f"{row}: {found!r} in place of {wanted!r}") from late


def add_judged(desk):
    """A service with an analysis as its second step, which is then started."""
    ops = Caller(desk, "ops")
    ops.send({"template": {"metadata": {"name": "t"}, "spec": {"metrics": [METRIC]}}})
    analysis = {"analysis": {"templates": [{"templateName": "t"}]}}
    ops.send({"service": {"version": "v1", "manifest": rollout(
        "web", {"setWeight": 20}, analysis, {"setWeight": 50}, {"pause": {}})}})
    return ops


def judge(ops, run, result):
    entry = {"metric": "m", "ordinal": 1, "taken": int(time.time()), "result": result}
    ops.send({"report": {"service": "web", "run": run, "entries": [entry]}})


def try_notify(world):
    """Each change of a release is posted once: a hold, a wait, the end and an abort; also if the
    desk is away for a while, and if the script is killed and starts again."""
    with world.desk("notify") as desk, webhook() as hook:
        ops = add_judged(desk)
        texts = ["web v1 at 100%: done"]
        with notifying(desk.folder, variables(desk), hook.port) as (started, said):
            want_texts("done", hook, *texts)
            for command, result, more in (
                    ({"start": {"service": "web", "version": "v2"}}, None, "web v2 at 20%"),
                    (None, 92, "web v2 at 20%: held, somebody has to decide"),
                    ({"promote": {"service": "web"}}, None,
                     "web v2 at 50%: waits for a promotion")):
                ops.send(command) if command else judge(ops, 1, result)
                texts.append(more)
                want_texts(more, hook, *texts)
            desk.restart()
            want_texts("the desk was away", hook, *texts)
            watches = children_of(started)
        wait_until("canary watch ends", lambda: not any(map(is_alive, watches)), LONGEST)
        with notifying(desk.folder, variables(desk), hook.port):
            want_texts("started again", hook, *texts)
        ops.send({"promote": {"service": "web"}})
        ops.send({"start": {"service": "web", "version": "v3"}})
        judge(ops, 2, 50)
        with notifying(desk.folder, variables(desk), hook.port) as (_, said_again):
            texts.append("web v3 at 0%: aborted by run 2")
            want_texts("what is the last while it was dead", hook, *texts)
            ops.send({"start": {"service": "web", "version": "v4"}})
            texts.append("web v4 at 20%")
            want_texts("v4", hook, *texts)
            ops.send({"abort": {"service": "web"}})
            want_texts("by a person", hook, *texts, "web v4 at 0%: aborted")
            expect("it says nothing of its own", "not posted" in said() + said_again(), False)
        expect("each is posted by one message", (len(hook.come), {*hook.heads}),
               (len(hook.taken), {"application/json"}))


def reply_with(status, reason, *heads):
    """An answer in which a webhook says such a thing."""
    def answer(handler):
        handler.send_response(status, reason)
        for name, text in heads:
            handler.send_header(name, text)
        handler.end_headers()
        return True
    return answer


def close_with(answered):
    """An answer of these bytes, after which it closes."""
    def answer(handler):
        handler.wfile.write(answered)
        handler.close_connection = True
        return True
    return answer


def take_slowly(handler):
    """It is taken, after some seconds."""
    time.sleep(4)
    return handler is None


def drip(begun):
    """An answer that begins so, and then goes on a byte at a time, longer than this waits."""
    def answer(handler):
        until = time.monotonic() + 6 * LONGEST
        with contextlib.suppress(OSError):
            handler.wfile.write(begun)
            while time.monotonic() < until:
                handler.wfile.write(b"x")
                time.sleep(.2)
        handler.close_connection = True
        return True
    return answer


# How a webhook answers, one after the other, and what the script then says.
ANSWERS = [
    (reply_with(500, "<!channel>\u001b[2J"), "500"), (close_with(b""), "RemoteDisconnected"),
    (take_slowly, None), (close_with(b"HTTP/1.1 2"), "BadStatusLine"),
    (reply_with(302, "Found", ("Location", "/elsewhere")), "it leads elsewhere"),
    (reply_with(404, "no_service"), "404"), (close_with(b"\x00" * 70000), "LineTooLong"),
    (drip(b"HTTP/1.1 204 No Content\r\nSlow: "), "TimeoutError"),
    (drip(b"HTTP/1.1 302 Found\r\nLocation: /elsewhere\r\n\r\n"), "it leads elsewhere")]


def try_notify_away(world):
    """A webhook that is away, and then answers as it should not: each is posted all the same, in
    order and once, and standard error says why it was not, in no word of the webhook or its URL."""
    folder, port = world.place("notify-away"), free_port()
    weights = range(10, 60, 10)
    told = "\n".join(f"echo '{stand(weight=weight).decode()}'; sleep 0.2" for weight in weights)

    def answer(before, handler):
        return before < len(ANSWERS) and ANSWERS[before][0](handler)

    with notifying(folder, speaking(folder, told), port) as (started, said):
        wait_until("nobody listens", lambda: "tried again: ConnectionRefusedError\n" in said(),
                   LONGEST)
        with webhook(answer, port=port) as hook:
            want_posted(hook, said, [f"web v2 at {weight}%" for weight in weights])
            expect("it goes on", started.poll(), None)
            expect("it is posted there alone", {*hook.come}, {PATH})
        expect("no word of others", [word for word in ("secret", "channel", "\u001b", "Traceback")
                                     if word in said()], [])


def want_posted(hook, said, texts):
    wait_texts("all are posted", hook, texts, 3 * LONGEST)
    for _, why in ANSWERS:
        if why and f"not posted, tried again: {why}\n" not in said():
            raise Wrong(f"it does not say {why}: {said()}")


def try_notify_flood(world):
    """A webhook that does not answer holds up nothing: the script reads what `canary watch` writes,
    keeps the last of it, and has memory for no more than that."""
    folder = world.place("notify-flood")
    lines = [stand(version=f"v{at}", weight=at % 101) for at in range(4000)]
    (folder / "lines").write_bytes(b"".join(each + b"\n" for each in lines))
    last = stand(version="v4000", weight=0, status="Degraded", run=7).decode()
    let_go = threading.Event()

    def answer(*_):
        let_go.wait(LONGEST)
        return False

    script = f"cat '{folder}/lines'; echo '{last}'; touch '{folder}/written'"
    with webhook(answer) as hook, \
            notifying(folder, speaking(folder, script), hook.port) as (started, _):
        wait_until("all is written", (folder / "written").exists, LONGEST / 2)
        wait_until("all is read", lambda: not any(map(unread_of, children_of(started))), LONGEST)
        expect("nothing is taken yet", (hook.taken, let_go.is_set()), ([], False))
        time.sleep(2)
        let_go.set()
        wait_until("the last one", lambda: hook.texts()[-1:] == [LAST], LONGEST)
        texts = hook.texts()
        expect("each once, and in order", texts[-100:-1],
               [f"web v{at} at {at % 101}%" for at in range(3901, 4000)])
        # before these at most what was on its way, which is tried again as the webhook is slow
        expect("none is kept beyond", len({*texts}) <= 102, True)


def unread_of(process):
    """How many bytes that a process wrote to the pipe of its standard output nobody has read."""
    pipe = os.open(f"/proc/{process}/fd/1", os.O_RDONLY | os.O_NONBLOCK)
    try:
        found = array.array("i", [0])
        fcntl.ioctl(pipe, termios.FIONREAD, found)
        return found[0]
    finally:
        os.close(pipe)


def try_notify_words(world):
    """No word of a hostile desk is posted, and none ends the script."""
    folder = world.place("notify-words")
    spoken = said_after(folder, [*HOSTILE, *STRANGE, stand(weight=40), *HOSTILE])
    with webhook() as hook, notifying(folder, spoken, hook.port) as (started, said):
        want_texts("what is a line", hook, "web v2 at 35%", "web v2 at 36%", "web v2 at 40%")
        expect("it goes on", started.poll(), None)
        want_all_said(said, HOSTILE)
        expect("in plain text", [mark for mark in said() if mark < " " and mark != "\n"], [])
    want_files(world)
    # with all its streams closed, and if nobody reads its standard error
    for row in ("closed", "unread"):
        folder = world.place(f"notify-{row}")
        spoken = said_after(folder, [stand(), stand(weight=40)])
        with webhook() as hook, unheard(row, folder, variables_for(spoken, hook.port), "notify",
                                        "web", folder / "last") as started:
            want_texts(row, hook, "web v2 at 35%", "web v2 at 40%")
            expect(f"{row}: it goes on", started.poll(), None)
    folder = world.place("notify-ends")
    spoken = speaking(folder, "exit 5")
    with webhook() as hook, notifying(folder, spoken, hook.port) as (started, said):
        expect("it ends with canary watch", started.wait(LONGEST), 1)
        expect("it says why", said(), "canary watch has ended\n")
    # where FILE cannot be written nothing is posted, for each restart would post it again
    folder = world.place("notify-no-file")
    spoken = said_after(folder, [stand()])
    with webhook() as hook, notifying(folder, spoken, hook.port, "none/last") as (started, said):
        expect("no file: it ends", started.wait(LONGEST), 1)
        expect("no file: nothing is posted", (hook.come, "secret" in said()), ([], False))


def want_files(world):
    """FILE has what was posted last: after a restart it is not posted again. A FIFO holds up
    nothing, and no link at the name of its part is followed."""
    for row, kept, texts in (("again", "web v2 at 35%\n", ["web v2 at 40%"]),
                             ("fifo", None, ["web v2 at 35%", "web v2 at 40%"])):
        folder = world.place(f"notify-{row}")
        last, victim = folder / "last", folder / "victim"
        last.write_text(kept, encoding="ascii") if kept else os.mkfifo(last)
        victim.write_text("kept", encoding="ascii")
        (folder / "last.part").symlink_to("victim")
        spoken = said_after(folder, [stand(), stand(weight=40)])
        with webhook() as hook, notifying(folder, spoken, hook.port):
            want_texts(row, hook, *texts)
            expect(f"{row}: the last", last.read_text(encoding="ascii"), "web v2 at 40%\n")
            expect(f"{row}: where a link led", victim.read_text(encoding="ascii"), "kept")
    # on a disk that is full, as by a limit of no byte, each restart would post the same again
    folder = world.place("notify-full")
    spoken = said_after(folder, [stand()])
    (folder / "table").write_text("web\n", encoding="ascii")
    for services in (["web"], ["--table", folder / "table"]):
        words = ["prlimit", "--fsize=0", OPERATIONS / "notify", *services, folder / "last"]
        with webhook() as hook:
            with process([*map(str, words)], cwd=folder, env=variables_for(spoken, hook.port),
                         stdin=subprocess.DEVNULL, stdout=subprocess.DEVNULL,
                         stderr=subprocess.DEVNULL) as started:
                expect("full: it ends", started.wait(LONGEST), 1)
            expect("full: nothing is posted", hook.come, [])


# ---- many services


def notifying_all(folder, around, port):
    """The script for the services of a table."""
    return follower(folder, variables_for(around, port), "notify", "--table", folder / "table",
                    folder / "last")


def try_notify_table(world):
    """One process posts what becomes of several services, each change by one message; of what has
    been before it starts, only what is under way; and nothing again after a restart."""
    with world.desk("notify-table") as desk, webhook() as hook:
        ops, others = add_judged(desk), Caller(desk, "others")
        add(desk, "shop", "api")
        (desk.folder / "table").write_text("# all\nweb web v1 a\nweb web v2 b\nshop\napi\n",
                                           encoding="utf-8")
        texts = [f"{name} v2 at 20%: waits for a promotion" for name in ("shop", "api")]
        with notifying_all(desk.folder, variables(desk), hook.port) as (started, _):
            want_texts("what is under way", hook, *texts)
            expect("it has no process beside it", children_of(started), [])
            for send, more in (
                    (lambda: ops.send({"start": {"service": "web", "version": "v2"}}),
                     "web v2 at 20%"),
                    (lambda: judge(ops, 1, 92), "web v2 at 20%: held, somebody has to decide"),
                    (lambda: others.send({"promote": {"service": "shop"}}),
                     "shop v2 at 50%: waits for a promotion"),
                    (lambda: ops.send({"promote": {"service": "web"}}),
                     "web v2 at 50%: waits for a promotion"),
                    (lambda: others.send({"abort": {"service": "api"}}), "api v2 at 0%: aborted")):
                send()
                texts.append(more)
                want_texts(more, hook, *texts)
            desk.restart()
            want_texts("the desk was away", hook, *texts)
        ops.send({"promote": {"service": "web"}})
        ops.send({"start": {"service": "web", "version": "v3"}})
        judge(ops, 2, 50)
        with notifying_all(desk.folder, variables(desk), hook.port):
            texts.append("web v3 at 0%: aborted by run 2")
            want_texts("what is the last while it was dead", hook, *texts)
        expect("its file", (desk.folder / "last").read_text(encoding="ascii").splitlines(),
               ["web v3 at 0%: aborted by run 2", "shop v2 at 50%: waits for a promotion",
                "api v2 at 0%: aborted"])


# Histories of a service at the pause of step 1 that say nothing of it, or of another moment.
NO_HISTORIES = [
    (404, {"code": "unknown-service"}), (503, {"code": "storage"}), (200, b""), (200, []),
    (200, {"code": "ok", "lines": []}), (200, {"lines": ["step 1 pause"]}),
    (200, {"lines": ["2026-01-01T00:00:02Z step 2 pause"]}),
    (200, {"lines": ["2026-01-01T00:00:02Z abort run 7"]}),
    (200, {"lines": ["2026-01-01T00:00:02Z step 1 pause\"", "<!channel>"]})]


def try_notify_table_words(world):
    """A history that does not fit its service is asked for again, and holds up no other service; of
    a long one the end counts; no word of it is posted."""
    folder = world.place("notify-table-words")
    (folder / "table").write_text("web\nshop\n", encoding="utf-8")
    (folder / "last").write_text("web v1 at 100%: done\n", encoding="utf-8")
    with webhook() as hook, spoken() as desk:
        desk.say("web", "v1", "v2", 20)
        desk.stands["web/history"] = NO_HISTORIES[0]
        with notifying_all(folder, desk.variables(), hook.port) as (started, said):
            for number, history in enumerate(NO_HISTORIES):
                desk.stands["web/history"] = history
                desk.say("shop", "v7", f"v{number}", 40, status="Progressing")
                wait_until(f"{history}", lambda number=number: (
                    f"shop v{number} at 40%" in hook.texts()), LONGEST)
            wait_said(said, "web: it has no history that fits it: asked again")
            expect("nothing of web", [text for text in hook.texts() if text[:3] == "web"], [])
            lines = [f"2026-01-01T00:00:02Z {words}" for words in (
                *["promote"] * 100_000, "step 1 pause 600s", "run 1 Successful")]
            desk.stands["web/history"] = 200, {"code": "ok", "lines": lines, "service": "web"}
            wait_until("a timed pause", lambda: "web v2 at 20%" in hook.texts(), LONGEST)
            desk.stands["web/history"] = 200, {"lines": ["2026-01-01T00:00:02Z step 1 pause"]}
            desk.say("web", "v1", "v2", 30)
            wait_until("a pause", lambda: "web v2 at 30%: waits for a promotion" in hook.texts(),
                       LONGEST)
            expect("each once", len(hook.texts()), len({*hook.texts()}))
            expect("it goes on", started.poll(), None)
