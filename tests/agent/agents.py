"""Agents that are tried, what they measure, and what came of it: what the parts of tests/agent
share."""
import collections
import concurrent.futures
import contextlib
import functools
import http.client
import json
import subprocess
import threading
import time

from journal_rule import journal_of
from world import (
    Caller, Unsafe, Wrong, answering, end, environment, expect, process, rollout, running)
from world import wait_until as look_until

# A measurement in the desk's table: what was reported is a result or a failure.
Measured = collections.namedtuple("Measured", "service run metric ordinal taken result failure")


# To look at a desk's tables takes some time.
wait_until = functools.partial(look_until, pause=.1)


def want_rest(row, count, seconds=2):
    """A count grows no more: soon it is the same for so many seconds."""
    known = [count(), time.monotonic()]

    def is_at_rest():
        if (found := count()) != known[0]:
            known[:] = found, time.monotonic()
        return time.monotonic() - known[1] > seconds

    wait_until(row, is_at_rest, 30)


# ---- manifests

def metric(name, provider, **more):
    """A metric of a template that is asked for each second, and whose errors end nothing."""
    return {"name": name, "interval": "1s", "consecutiveErrorLimit": 1000, "failureLimit": 1000,
            "provider": provider, **more}


def template(name, *metrics):
    return {"apiVersion": "argoproj.io/v1alpha1", "kind": "AnalysisTemplate",
            "metadata": {"name": name}, "spec": {"metrics": [*metrics]}}


def analysis(*names):
    return {"templates": [{"templateName": name} for name in names]}


def measured_beside(name, of, *steps):
    """A Rollout whose analysis goes on beside its steps: one pause without an end, if none is
    given."""
    return rollout(name, *(steps or ({"setWeight": 20}, {"pause": {}})), analysis=analysis(of))


def measured_in_step(name, of):
    """A Rollout that waits for the verdict of its analysis, and is done then."""
    return rollout(name, {"setWeight": 20}, {"analysis": analysis(of)})


def of_web(port, path="", **more):
    return {"web": {"url": f"http://127.0.0.1:{port}/{path}", **more}}


def of_prometheus(port, query="up", **more):
    return {"prometheus": {"address": f"http://127.0.0.1:{port}", "query": query, **more}}


def listed(*manifests):
    return {"apiVersion": "v1", "kind": "List", "items": [*manifests]}


# ---- releases

@contextlib.contextmanager
def desk_for(world, name, *manifests, version="v2"):
    """A desk that has these manifests by `do --argo`, each Rollout of them in a release, and the
    file manifests.json with them."""
    with world.desk(name) as desk:
        if manifests:
            release(desk, listed(*manifests), version)
        yield desk


def release(desk, manifests, version="v2", file="manifests.json", is_begun=True):
    """Adds templates and services, and begins the release of each service, unless that comes
    later."""
    desk.write(file, manifests)
    for words in (("template", file), ("service", file, "v1")):
        ended = desk.do(*words, caller="setup", journal="setup.journal", options=("--argo",))
        expect(f"{words}: {ended.errors}", ended.status, 0)
    names = [each["metadata"]["name"] for each in manifests["items"] if each["kind"] == "Rollout"]
    if is_begun and names:
        begin(desk, *names, version=version)


def begin(desk, *names, version="v2"):
    """Begins a release of each of these services."""
    caller = Caller(desk, f"start-{names[0]}-{version}")
    for name in names:
        caller.send({"start": {"service": name, "version": version}})


def ask(desk, path):
    """What a desk answers to a query; none if it does not know that."""
    connection = http.client.HTTPConnection("127.0.0.1", desk.port, timeout=30)
    with contextlib.closing(connection):
        connection.request("GET", path)
        answer = connection.getresponse()
        body = json.loads(answer.read())
        return body if answer.status == 200 else None


def state(desk, name="web"):
    return ask(desk, f"/services/{name}")


def status(desk, name="web"):
    return state(desk, name)["status"]


def history(desk, name="web"):
    """What happened to a service: each line without its moment."""
    return [line.split(" ", 1)[1] for line in ask(desk, f"/services/{name}/history")["lines"]]


def measured(desk, *names):
    """The measurements of services, or of web, that stand in the desk's tables, in their order."""
    names = names or ("web",)
    found = desk.rows("SELECT service, run, metric, ordinal, taken, outcome FROM measurement"
                    " ORDER BY place")
    metrics = functools.cache(lambda name, run: [
        each["name"] for each in ask(desk, f"/services/{name}/runs/{run}")["metrics"]])
    return [Measured(name, run, metrics(name, run)[metric], ordinal, taken, *outcome_of(outcome))
            for name, run, metric, ordinal, taken, outcome in found if name in names]


def outcome_of(text):
    """The result and the failure of a measurement, of which one is empty."""
    return ("", text[1:]) if text.startswith("!") else (text, "")


def services_measured(desk):
    """How many services have a measurement."""
    return desk.rows("SELECT count(DISTINCT service) FROM measurement")[0][0]


def count_measured(desk, name="web", run=1):
    """How many measurements of each metric a run has, as the desk answers it."""
    found = ask(desk, f"/services/{name}/runs/{run}")
    return {each["name"]: each["measurements"] for each in found["metrics"]} if found else {}


def wait_measured(desk, count, name="web", run=1, seconds=60):
    """Waits until each metric of a run has so many measurements."""
    wait_until(f"{name} has {count} measurements",
               lambda: min(count_measured(desk, name, run).values(), default=0) >= count, seconds)


def wait_status(desk, wanted, name="web", seconds=60):
    wait_until(f"{name} is {wanted}", lambda: status(desk, name) == wanted, seconds)


def want_once(row, found):
    """The measurements of each metric are numbered from 1 on, at moments that grow."""
    numbers = collections.defaultdict(list)
    for each in found:
        numbers[each.service, each.run, each.metric].append((each.ordinal, each.taken))
    for key, known in numbers.items():
        ordinals, moments = [ordinal for ordinal, _ in known], [taken for _, taken in known]
        if ordinals != [*range(1, len(known) + 1)] or moments != sorted(set(moments)):
            raise Unsafe(f"{row}: {key}: ordinals {ordinals}, taken at {moments}")


# ---- agents

def beside(function, rows):
    """Does this with each of these rows, all beside one another."""
    with concurrent.futures.ThreadPoolExecutor(len(rows)) as pool:
        return list(pool.map(function, rows))


def agent_words(desk, *files, journals="journals", options=(), port=None):
    """The words of an agent of this desk."""
    where = ["--journals", str(desk.folder / journals)] if journals else []
    return ["agent", "--desk", f"127.0.0.1:{port or desk.port}", *where, *options, "--",
            *(files or ("manifests.json",))]


def but_late(errors):
    """What an agent said, but for measurements that are late, as they may be on a busy machine."""
    return "".join(line for line in errors.splitlines(keepends=True) if "late by" not in line)


class Agent:
    """An agent that runs; what it says is in files."""

    def __init__(self, desk, *files, name="agent", front=(), stdin=subprocess.DEVNULL,
                 variables=None, **more):
        self.desk, self.stopped = desk, False
        self.output, self.said = (desk.folder / f"{name}.{end}" for end in ("output", "errors"))
        words = [*front, desk.world.program, *agent_words(desk, *files, **more)]
        with open(self.output, "ab") as output, open(self.said, "ab") as errors:
            self.process = subprocess.Popen(words, cwd=desk.folder, stdin=stdin, stdout=output,
                                            stderr=errors, env=environment(**(variables or {})))
        running.add(self.process)

    def signal(self, number):
        self.process.send_signal(number)

    def has_ended(self):
        return self.process.poll() is not None

    def kill(self):
        end(self.process)

    def lines(self):
        """The lines of its output that are whole, as values."""
        whole = self.output.read_bytes().split(b"\n")[:-1]
        return [json.loads(line) for line in whole]

    def errors(self):
        return self.said.read_text(encoding="utf-8", errors="surrogateescape")

    def wait_said(self, text, count=1, seconds=60):
        """Waits until it has said a text so often on standard error."""
        wait_until(f"it says {text!r}", lambda: self.errors().count(text) >= count
                   or self.must_run(), seconds)

    def must_run(self):
        if self.has_ended():
            raise Wrong(f"the agent has ended with {self.process.returncode}: {self.errors()!r}")
        return False


@contextlib.contextmanager
def agent_of(desk, *files, **more):
    """An agent that runs until the block ends, and ran until then."""
    agent = Agent(desk, *files, **more)
    try:
        yield agent
        agent.must_run()
    finally:
        if agent.process in running:
            agent.kill()


@contextlib.contextmanager
def traced(agent, path, log, change):
    """Changes a call of the agent on the file at a path, in strace's words CALL:CHANGE."""
    words = ["strace", "-f", "-o", str(log), "-p", str(agent.process.pid), "-P", str(path), "-e",
             f"trace={change.partition(':')[0]}", "-e", f"inject={change}"]
    with process(words, stdin=subprocess.DEVNULL, stdout=subprocess.DEVNULL,
                 stderr=subprocess.PIPE) as tracer:
        if b"attached" not in (told := tracer.stderr.readline()):
            raise Wrong(f"strace: {told!r}")
        yield
        tracer.terminate()
        tracer.wait()


def run_agent(desk, *files, timeout=60, stdin=subprocess.DEVNULL, **more):
    """Runs an agent that ends by itself, and has what came of it."""
    return desk.world.run(agent_words(desk, *files, **more), desk.folder, timeout, stdin=stdin)


def journals_of(desk, folder="journals"):
    """The journals in a folder by their callers, by the rule."""
    found = {}
    for file in sorted((desk.folder / folder).iterdir()):
        journal = journal_of(file.read_bytes())
        if journal is None:
            raise Wrong(f"{file.name} is no journal: {file.read_bytes()[-200:]!r}")
        found[file.name] = journal
    return found


def reported(journal):
    """The measurements of a journal's reports that the desk took, and those that are pending."""
    taken, pending = [], []
    for kept in journal.kept:
        if kept.status == 200:
            taken += entries_of(kept.body_asked)
    if journal.pending is not None:
        pending += entries_of(journal.pending.body_asked)
    return taken, pending


def entries_of(body):
    """The measurements of a report's body."""
    report = json.loads(body).get("report")
    if report is None:
        return []
    return [Measured(report["service"], report["run"], each["metric"], each["ordinal"],
                     each["taken"], result_of(each.get("result")), each.get("failure", ""))
            for each in report["entries"]]


def result_of(result):
    """A result as an export writes it."""
    if result is None:
        return ""
    return f"[{';'.join(map(str, result))}]" if isinstance(result, list) else str(result)


def want_reported(row, desk, found, folder="journals"):
    """The measurements in the tables are those that the journals' settled reports have."""
    told = []
    for name, journal in journals_of(desk, folder).items():
        taken, pending = reported(journal)
        expect(f"{row}: pending in {name}", pending, [])
        told += taken
    expect(f"{row}: reported", sorted(told), sorted(found))


# ---- providers

Asked = collections.namedtuple("Asked", "method target fields body moment")


class Provider:
    """A server that is asked for measurements. `answer` gets what was asked and the connection,
    and gives the bytes of the reply, or none if it has done what there is to do."""

    def __init__(self, answer):
        self.answer, self.asked, self.lock = answer, [], threading.Lock()
        self.port = None

    def serve(self, client):
        asked = read_message(client)
        if asked is None:
            return
        with self.lock:
            self.asked.append(asked)
        reply = self.answer(asked, client)
        if reply is not None:
            client.sendall(reply)

    def targets(self):
        with self.lock:
            return [each.target for each in self.asked]


def read_message(client):
    """A message of HTTP, or none if the connection ends before it is whole."""
    data = b""
    while b"\r\n\r\n" not in data:
        some = client.recv(65536)
        if not some:
            return None
        data += some
    head, body = data.split(b"\r\n\r\n", 1)
    first, *fields = head.decode("latin-1").split("\r\n")
    method, target, _ = first.split(" ", 2)
    length = 0
    for field in fields:
        if field.lower().startswith("content-length:"):
            length = int(field.split(":")[1])
    while len(body) < length:
        body += client.recv(65536)
    return Asked(method, target, fields, body, time.monotonic())


@contextlib.contextmanager
def provider(answer):
    made = Provider(answer)
    with answering(made.serve) as port:
        made.port = port
        yield made


def reply(body, status="200 OK", *fields):
    """The bytes of a reply with this body, a text or JSON."""
    data = body if isinstance(body, bytes) else (
        body if isinstance(body, str) else json.dumps(body)).encode()
    lines = [f"HTTP/1.1 {status}", f"Content-Length: {len(data)}", *fields, "", ""]
    return "\r\n".join(lines).encode() + data


def vector(*values):
    """What Prometheus answers to a query at a moment: a series for each value."""
    return {"status": "success", "data": {"resultType": "vector", "result": [
        {"metric": {"place": str(at)}, "value": [time.time(), value]}
        for at, value in enumerate(values)]}}
