"""The agent, of which one allocation is refused: a part of refused.py."""
import contextlib
import http.server
import json
import os
import shutil
import threading

from asking import desk_of
from story_words import Wrong, expect

OUT_OF_MEMORY = [(1, b"", b"canary: memory"), (5, b"", b"canary: out of memory")]


class Provider(http.server.BaseHTTPRequestHandler):
    """A provider that answers each question alike."""

    def do_GET(self):
        body = b'{"a":[0]}'
        self.send_response(200)
        self.send_header("Content-Length", str(len(body)))
        self.end_headers()
        self.wfile.write(body)

    def log_message(self, *_):
        pass


@contextlib.contextmanager
def provider():
    """A provider, and its port."""
    with http.server.ThreadingHTTPServer(("127.0.0.1", 0), Provider) as server:
        threading.Thread(target=server.serve_forever, daemon=True).start()
        try:
            yield server.server_address[1]
        finally:
            server.shutdown()


def write_manifests(file, port):
    """What an agent measures of web, once an hour, of the provider at a port."""
    with open(file, "w", encoding="utf-8") as manifests:
        json.dump({"kind": "List", "items": [
            {"kind": "AnalysisTemplate", "metadata": {"name": "t"}, "spec": {"metrics": [
                {"name": "m", "interval": "1h", "successCondition": "result < 1",
                 "provider": {"web": {"url": f"http://127.0.0.1:{port}/", "jsonPath": "{$.a[0]}",
                                      "headers": [{"key": "A", "value": "b"}]}}}]}},
            {"kind": "Rollout", "metadata": {"name": "web"}, "spec": {"strategy": {"canary": {
                "analysis": {"templates": [{"templateName": "t"}]},
                "steps": [{"setWeight": 20}, {"pause": {}}]}}}}]}, manifests)


def read_refused(trial, share):
    """The agent asks nobody for what it does not know: as its files are read, memory runs out for
    the call, and no provider is refused for that."""
    write_manifests(trial.rows, 1)
    words = ["agent", "--dry-run", "--desk", "127.0.0.1:1", "--", trial.rows]
    away = (3, b"", b"canary: web: no desk answered")
    expect("agent", trial.run(words), away)

    def refuse(number):
        found = trial.run(words, number)
        asked = trial.asked()
        if found != away and (number > asked or found not in OUT_OF_MEMORY):
            raise Wrong(f"agent: when allocation {number} is refused: {found}")
        return asked

    share.refuse_each("agent", refuse)


def begin_release(trial, address):
    """A desk without anything has the template and the service, and a release that is measured."""
    with contextlib.suppress(FileNotFoundError):
        os.remove(trial.file)
    do = ["do", "--desk", address, "--as", "ops", "--journal", trial.file]
    for words in (["--argo", "template", trial.rows], ["--argo", "service", trial.rows, "v1"],
                  ["start", "web", "v2"]):
        expect(f"agent: {words}", trial.run([*do, *words])[::2], (0, b""))


def report_refused(trial, share):
    """An agent of which an allocation is refused reports what came, or ends for memory, or its
    report is pending. The next one settles that, or reports what the first one did not: there is
    one measurement, and it is no failure."""
    folder = trial.file + "-journals"

    def report(address, number=0):
        return trial.run(["agent", "--once", "--desk", address, "--journals", folder, "--",
                          trial.rows], number)

    def refuse(number):
        shutil.rmtree(folder, ignore_errors=True)
        with desk_of(trial.program) as address:
            begin_release(trial, address)
            found = report(address, number)
            asked = trial.asked()
            if found[::2] != (0, b"") and found[0] not in (1, 3, 5):
                raise Wrong(f"agent: when allocation {number} is refused: {found}")
            again = report(address)
            expect(f"agent: after a refusal of allocation {number}", again[::2], (0, b""))
            shown = trial.run(["get", "--desk", address, "web", "1"])
            expect(f"agent: the run after a refusal of allocation {number}", counts_of(shown[1]),
                   [(1, 1)])
        return asked

    with provider() as port:
        write_manifests(trial.rows, port)
        share.refuse_each("agent --once", refuse)
    shutil.rmtree(folder, ignore_errors=True)


def counts_of(run):
    """How many measurements each metric of a run has, and how many of them passed."""
    return [(metric["measurements"], metric["passes"]) for metric in json.loads(run)["metrics"]]
