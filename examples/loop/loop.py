"""The whole loop of a release: loop.py PROGRAM FOLDER. README.md beside it says what it shows."""
import collections
import contextlib
import csv
import http.client
import io
import json
import os
import pathlib
import signal
import socket
import subprocess
import sys
import time
import urllib.parse
import urllib.request

HERE = pathlib.Path(__file__).resolve().parent
OPERATIONS = HERE.parent / "operations"
# The share of errors of each version.
VERSIONS = {"v1": 0.01, "v2": 0.01, "v3": 0.3}
# The parts that have a port; `web` is HAProxy's.
LISTENING = (*VERSIONS, "prometheus", "web", "desk")
# How many requests the service gets in a second.
REQUESTS = 50
QUERY = ('sum(rate(requests_total{track="canary",code!~"5.."}[5s]))'
         ' / sum(rate(requests_total{track="canary"}[5s]))')


class Wrong(Exception):
    """The loop is not as it should be."""


# The sockets of free ports. The system gives such a port to no program that asks for any port, also
# while a part is killed.
HELD = []


def free_ports(count):
    """Ports on which nobody listens, until parts of the loop do."""
    held = [socket.socket() for _ in range(count)]
    for each in held:
        each.setsockopt(socket.SOL_SOCKET, socket.SO_REUSEADDR, 1)
        each.bind(("127.0.0.1", 0))
    HELD.extend(held)
    return [each.getsockname()[1] for each in held]


def wait_until(what, is_so, seconds=60):
    until = time.monotonic() + seconds
    while not is_so():
        if time.monotonic() > until:
            raise Wrong(f"{what}: not in {seconds} seconds")
        time.sleep(.1)


def get(port, path, timeout=2):
    with contextlib.closing(http.client.HTTPConnection("127.0.0.1", port, timeout=timeout)) as one:
        one.request("GET", path)
        reply = one.getresponse()
        return reply.status, reply.read().decode()


def listens(port):
    with socket.socket() as client:
        return client.connect_ex(("127.0.0.1", port)) == 0


class Loop:
    """The parts, and what they say."""
    manifests = "web.yaml"

    def __init__(self, program, folder):
        self.folder = pathlib.Path(folder)
        self.port = dict(zip(LISTENING, free_ports(len(LISTENING))))
        self.running, self.shown = {}, collections.Counter()
        # The path of a socket is short, and HAProxy's configuration takes no blank in it.
        os.chdir(self.folder)
        (self.folder / "bin").mkdir()
        (self.folder / "bin" / "canary").symlink_to(program)
        self.variables = {**os.environ, "PATH": f"{self.folder}/bin:{os.environ['PATH']}",
                          "CANARY_DESK": self.at("desk"), "CANARY_AS": "ops",
                          "CANARY_JOURNAL": str(self.folder / "ops.journal")}

    def at(self, name):
        return f"127.0.0.1:{self.port[name]}"

    # ---- the parts

    def words_of(self, name):
        """The command line of a part."""
        if name in VERSIONS:
            return [sys.executable, HERE / "service.py", self.port[name], name, VERSIONS[name]]
        return {
            "prometheus": ["prometheus", "--config.file=prometheus.yml", "--log.level=error",
                           "--storage.tsdb.path=data",
                           f"--web.listen-address={self.at('prometheus')}"],
            "haproxy": ["haproxy", "-db", "-f", "haproxy.cfg"],
            "desk": ["canary", "serve", "--listen", self.at("desk"), "--db", "desk.db"],
            "traffic": [sys.executable, HERE / "traffic.py", self.port["web"], REQUESTS],
            "agent": ["canary", "agent", "--journals", "journals", self.manifests],
            "follower": [OPERATIONS / "follow-haproxy", "web", "socket", "web", "web.state"],
        }[name]

    def start(self, name):
        words = [str(word) for word in self.words_of(name)]
        with open(self.folder / f"{name}.log", "ab") as log:
            self.running[name] = subprocess.Popen(
                words, cwd=self.folder, env=self.variables, stdin=subprocess.DEVNULL, stdout=log,
                stderr=subprocess.STDOUT)
        short = [os.path.basename(word) for word in words if word != sys.executable]
        print(f"          {name} started: {' '.join(short)}", flush=True)

    def kill(self, name):
        """Kills a part as `kill -9` does."""
        self.running[name].kill()
        self.running[name].wait()

    def start_all(self):
        self.write_files()
        for name in (*VERSIONS, "prometheus", "haproxy", "desk"):
            self.start(name)
        for name in LISTENING:
            wait_until(f"{name} listens", lambda name=name: listens(self.port[name]))
        self.start("traffic")
        self.do("--argo", "template", self.manifests)
        self.do("--argo", "service", self.manifests, "v1")
        self.start("agent")
        self.start("follower")

    def stop_all(self):
        for process in self.running.values():
            process.kill()
        for process in self.running.values():
            process.wait()

    def write_files(self):
        text = (OPERATIONS / "follow.haproxy.cfg").read_text(encoding="utf-8")
        for old, new in (("/run/haproxy/admin.sock", "unix@socket"),
                         ("/var/lib/canary-follow", self.folder),
                         ("bind :8081", f"bind {self.at('web')}"),
                         ("127.0.0.1:9101", self.at("v1")), ("127.0.0.1:9102", self.at("v2"))):
            text = text.replace(old, str(new))
        text += f"    server v3 {self.at('v3')} weight 0\n"
        (self.folder / "haproxy.cfg").write_text(text, encoding="utf-8")
        text = (HERE / self.manifests).read_text(encoding="utf-8")
        text = text.replace("127.0.0.1:9090", self.at("prometheus"))
        (self.folder / self.manifests).write_text(text, encoding="utf-8")
        text = (HERE / "prometheus.yml").read_text(encoding="utf-8")
        (self.folder / "prometheus.yml").write_text(text, encoding="utf-8")
        self.deploy({"v1": "stable"})

    def deploy(self, tracks):
        """Tells Prometheus which versions there are, and which of them is the new one."""
        targets = [{"targets": [self.at(version)],
                    "labels": {"service": "web", "track": track, "version": version}}
                   for version, track in tracks.items()]
        new = self.folder / "targets.json.new"
        new.write_text(json.dumps(targets), encoding="utf-8")
        new.rename(self.folder / "targets.json")

    def run(self, *words):
        """A command that ends."""
        return subprocess.run(["canary", *words], cwd=self.folder, env=self.variables,
                              stdin=subprocess.DEVNULL, capture_output=True, text=True, check=False)

    def do(self, *words):
        """A command of the engineer's."""
        done = self.run("do", *words)
        if done.returncode:
            raise Wrong(f"canary do {' '.join(words)}: {done.stdout}{done.stderr}")
        print(f"          ops: canary do {' '.join(words)}", flush=True)

    # ---- what they say

    def ask(self, path):
        """What the desk answers to a query."""
        return json.loads(get(self.port["desk"], path)[1])

    def stand(self, service="web"):
        return self.ask(f"/services/{service}")

    def history(self, service="web"):
        return self.ask(f"/services/{service}/history")["lines"]

    def weights(self):
        """The weights that HAProxy has."""
        with socket.socket(socket.AF_UNIX) as haproxy:
            haproxy.settimeout(5)
            haproxy.connect("socket")
            haproxy.sendall(b"show stat\n")
            text = b"".join(iter(lambda: haproxy.recv(65536), b"")).decode()
        rows = csv.DictReader(io.StringIO(text.lstrip("# ")))
        return {row["svname"]: int(row["weight"]) for row in rows if row["svname"] in VERSIONS}

    def success(self):
        """The share of good answers of the new version, as Prometheus has it."""
        asked = urllib.parse.urlencode({"query": QUERY})
        found = json.loads(get(self.port["prometheus"], f"/api/v1/query?{asked}")[1])
        values = [each["value"][1] for each in found["data"]["result"]]
        return f"{float(values[0]):.2f}" if values else "-"

    def said(self, name):
        """The lines that a part has written since the last time."""
        lines = (self.folder / f"{name}.log").read_text(encoding="utf-8").split("\n")[:-1]
        new, self.shown[name] = lines[self.shown[name]:], len(lines)
        return new

    def second(self, longest=1.5):
        """Waits until a second of the traffic is over: who answered how many of its requests, and
        how many ended in which error. None of both if the traffic says nothing for so long."""
        until = time.monotonic() + longest
        while not (lines := self.said("traffic")) and time.monotonic() < until:
            time.sleep(.05)
        answered, errors = collections.Counter(), collections.Counter()
        for line in map(json.loads, lines):
            answered.update(line["answered"])
            errors.update(line["errors"])
        return answered, errors

    def show(self):
        """A line for a second."""
        answered, errors = self.second()
        stand, weights = self.stand(), self.weights()
        print(f"{time.strftime('%H:%M:%S')}  {stand['status']:11} step {stand['step']}"
              f"  {stand['version']} {stand['weight']:3}%  | "
              f"{' '.join(f'{name} {weight:>3}' for name, weight in weights.items())}  | "
              f"{sum(answered.values()):3}: {shares_of(answered, errors):19} | {self.success()}",
              flush=True)
        for line in self.said("agent"):
            print(f"          agent: {line}", flush=True)
        return stand, [*answered, *(name for name in errors if name != "500")]

    def release(self, stable, version, wanted):
        """Releases a version, and shows each second until it has ended so."""
        self.deploy({stable: "stable", version: "canary"})
        self.do("start", "web", version)
        until = time.monotonic() + 70
        while (stand := self.show()[0])["status"] == "Progressing":
            if time.monotonic() > until:
                raise Wrong(f"the release of {version} does not end")
        if (stand["status"], stand["version"]) != (wanted, version):
            raise Wrong(f"{version} is {stand['status']}, and not {wanted}")
        self.show_end(version if wanted == "Healthy" else stable)

    def show_end(self, version):
        """Shows three seconds, or as many as it takes until this version answers alone."""
        who = [self.show()[1] for _ in range(3)]
        while who[-1] != [version]:
            if len(who) > 20:
                raise Wrong(f"others than {version} still answer: {who[-1]}")
            who.append(self.show()[1])

    def draw(self):
        """Writes the page of the desk's file."""
        drawn = self.run("page", "--db", "desk.db", "desk.html")
        if drawn.returncode:
            raise Wrong(f"canary page: {drawn.stderr}")


def shares_of(answered, errors):
    """Who answered which share of the requests, and which share of them nobody did."""
    nobody = sum(errors.values()) - errors["500"]
    count = max(1, sum(answered.values()) + nobody)
    found = {**dict(sorted(answered.items())), **({"nobody": nobody} if nobody else {})}
    return " ".join(f"{name} {of * 100 / count:3.0f}%" for name, of in found.items())


def play(loop, act):
    """Starts the parts, does what is to be done with them, and ends all of them in any case."""
    signal.signal(signal.SIGTERM, lambda *_: sys.exit(143))
    try:
        loop.start_all()
        act(loop)
    except Wrong as wrong:
        sys.exit(f"loop: {wrong}")
    finally:
        loop.stop_all()


def two_releases(loop):
    print("time      desk                                  | HAProxy's weights   |"
          " answers: by whom         | Prometheus")
    loop.release("v1", "v2", "Healthy")
    loop.release("v2", "v3", "Degraded")
    loop.draw()
    print("\nWhat the desk says of it:")
    for line in loop.history():
        print(f"  {line}")
    print("\nWhat the follower did:")
    for line in loop.said("follower"):
        print(f"  {line}")


if __name__ == "__main__":
    play(Loop(os.path.realpath(sys.argv[1]), sys.argv[2]), two_releases)
