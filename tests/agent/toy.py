"""A service whose versions have a given share of errors, and a Prometheus that scrapes it."""
import contextlib
import json
import subprocess
import time
import urllib.parse
import urllib.request

from agents import provider, reply, wait_until
from world import Wrong, end, free_port, running

# How many requests each version has in a second.
REQUESTS = 200

CONFIG = """\
global: {{scrape_interval: 1s, scrape_timeout: 1s}}
scrape_configs:
- job_name: toy
  static_configs: [{{targets: ["127.0.0.1:{port}"]}}]
"""

QUERY = ('sum(rate(requests_total{service="{{args.service-name}}",code!~"5.."}[10s])) /\n'
         'sum(rate(requests_total{service="{{args.service-name}}"}[10s]))')


@contextlib.contextmanager
def toy(**shares):
    """A server whose /metrics counts the requests of services, of which this share are errors."""
    begun = time.time()

    def answer(asked, _):
        count = int((time.time() - begun) * REQUESTS)
        rows = [f'requests_total{{service="{name}",code="{code}"}} {int(count * share)}'
                for name, bad in shares.items()
                for code, share in (("200", 1 - bad), ("500", bad))]
        return reply("# TYPE requests_total counter\n" + "\n".join(rows) + "\n", "200 OK",
                     "Content-Type: text/plain; version=0.0.4")

    with provider(answer) as server:
        yield server.port


class Prometheus:
    """A Prometheus on a free port, in a folder of its own."""

    def __init__(self, folder, port):
        self.folder, self.port, self.process = folder, free_port(), None
        (folder / "prometheus.yml").write_text(CONFIG.format(port=port), encoding="utf-8")
        self.start()

    def start(self):
        with open(self.folder / "log", "ab") as log:
            self.process = subprocess.Popen(
                ["prometheus", "--config.file=prometheus.yml", "--storage.tsdb.path=data",
                 f"--web.listen-address=127.0.0.1:{self.port}", "--log.level=error"],
                cwd=self.folder, stdin=subprocess.DEVNULL, stdout=log, stderr=log)
        running.add(self.process)

    def kill(self):
        end(self.process)

    def query(self, text):
        """The values of a query, or none if it does not answer."""
        asked = urllib.parse.urlencode({"query": text})
        try:
            with urllib.request.urlopen(f"http://127.0.0.1:{self.port}/api/v1/query?{asked}",
                                        timeout=5) as answer:
                found = json.loads(answer.read())
        except OSError:
            return None
        return [each["value"][1] for each in found["data"]["result"]]

    def wait_for(self, name):
        """Waits until the share of a service is known."""
        def is_known():
            if self.process.poll() is not None:
                raise Wrong(f"prometheus: {(self.folder / 'log').read_text(encoding='utf-8')}")
            values = self.query(QUERY.replace("{{args.service-name}}", name))
            return values and values[0] != "NaN"
        wait_until(f"Prometheus knows {name}", is_known, 40)


@contextlib.contextmanager
def prometheus(folder, port):
    made = Prometheus(folder, port)
    try:
        yield made
    finally:
        made.kill()
