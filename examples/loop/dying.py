"""Kills each part of the loop in turn, in the midst of a release: dying.py PROGRAM FOLDER AWAY
[PART..]. README.md beside it says what it shows. It ends by the status 1 if something is otherwise
than docs/NIGHT.md, "If something dies", has it."""
import collections
import contextlib
import dataclasses
import http.client
import json
import os
import signal
import sqlite3
import subprocess
import sys
import time

from claims import expect, want_row
from journal_rule import journal_of
from loop import Loop, Wrong, listens, play, shares_of, wait_until

# The row of docs/NIGHT.md for each part.
ROWS = {
    "desk": "the desk",
    "agent": "the agent",
    "job": "the job that promotes",
    "follower": "who follows the weights",
    "haproxy": "the router, or all its clients",
    "traffic": "the router, or all its clients",
    "prometheus": "the provider",
    "new": "the new version",
    "stable": "the stable version",
}
ABORTED = ("haproxy", "traffic", "prometheus", "new")
OVER = ("Healthy", "Degraded")
# How many seconds a part may be away beyond those that were asked for, until its row is seen.
LONGEST = 60


@dataclasses.dataclass
class View:
    """How a service stands, its history, and its runs by their numbers."""
    stand: dict
    lines: list
    runs: dict

    def status(self):
        return self.stand["status"]

    def step(self):
        return self.stand["step"]

    def run(self, place):
        return list(self.runs.values())[place]

    def measured(self):
        return sum(metric["measurements"]
                   for run in self.runs.values() for metric in run["metrics"])


class Round:
    """What is seen as one part is away. `begun` has how many lines the history of each service had
    before its release, and the views are those before the kill, at the end of the time away, and
    once the release has ended."""

    def __init__(self, loop, name):
        self.loop, self.name, self.begun, self.seen = loop, name, {}, {}
        self.before = self.back = self.after = None
        # Those of the time away, and those after it.
        self.seconds, self.later = [], []

    def errors(self, seconds):
        """The errors that clients saw then, without those that a version answered."""
        found = collections.Counter()
        for second in seconds:
            found.update(second["errors"])
        return {name: count for name, count in found.items() if name != "500" and count}

    def old_shares(self):
        """The share of the new version, by second, while the desk wants a larger one."""
        return [round(second["answered"][self.loop.new] * 100 / sum(second["answered"].values()))
                for second in self.seconds
                if second["weight"] not in (None, 0, 20) and second["answered"]]


class Dying(Loop):
    """The loop with the releases of dying.yaml, of which v1 and v2 are the new version in turn."""
    manifests = "dying.yaml"

    def __init__(self, program, folder, away):
        super().__init__(program, folder)
        self.away, self.pause = away, max(2, away // 2)
        self.stable, self.new, self.count, self.copies = "v1", "v2", 0, 0

    def write_files(self):
        super().write_files()
        path = self.folder / self.manifests
        text = path.read_text(encoding="utf-8")
        path.write_text(text.replace("duration: 10s", f"duration: {self.pause}s"), encoding="utf-8")
        self.deploy({"v1": "any", "v2": "any"})

    # ---- the parts

    def process_of(self, name):
        return {"new": self.new, "stable": self.stable}.get(name, name)

    def kill_part(self, name):
        if name == "job":
            return self.kill_job()
        return self.kill(self.process_of(name))

    def start_part(self, name):
        if name == "job":
            return self.job("promote", "manual")
        name = self.process_of(name)
        self.start(name)
        if name in self.port:
            wait_until(f"{name} listens", lambda: listens(self.port[name]))
        elif name == "haproxy":
            wait_until("haproxy listens", lambda: self.weights() is not None)

    def job_words(self, *words):
        return ["canary", "do", "--as", "job", "--journal", "job.journal", *words]

    def job(self, *words):
        """A job, which has a journal of its own."""
        done = self.run(*self.job_words(*words)[1:])
        if done.returncode:
            raise Wrong(f"the job, {' '.join(words)}: {done.stdout}{done.stderr}")
        print(f"          job: canary do {' '.join(words)}", flush=True)

    def kill_job(self):
        """Kills a job once it has sent its promotion, and before the desk has answered."""
        desk = self.running["desk"].pid
        os.kill(desk, signal.SIGSTOP)
        try:
            job = subprocess.Popen(self.job_words("promote", "manual"), cwd=self.folder,
                                   env=self.variables, stdin=subprocess.DEVNULL,
                                   stdout=subprocess.DEVNULL, stderr=subprocess.DEVNULL)
            wait_until("the promotion is sent", lambda: (
                journal := self.journal("job.journal")) is not None and journal.pending)
            time.sleep(.2)
            job.kill()
            job.wait()
        finally:
            os.kill(desk, signal.SIGCONT)

    # ---- what is seen

    def weights(self):
        """None if HAProxy does not answer."""
        try:
            return super().weights()
        except OSError:
            return None

    def stand_or_none(self):
        try:
            return self.stand()
        except (OSError, http.client.HTTPException):
            return None

    def view(self, service):
        stand = self.stand(service)
        runs = {number: self.ask(f"/services/{service}/runs/{number}")
                for number in range(1, stand["runs"] + 1)}
        return View(stand, self.history(service), runs)

    def views(self):
        return {service: self.view(service)
                for service in ("web", "timed", "beside", "unmeasured", "manual")}

    def show_second(self, mark):
        """A line for a second, and what was seen in it."""
        answered, errors = self.second(1.2)
        stand, weights = self.stand_or_none(), self.weights()
        wants = f"{stand['status']:11} {self.new} {stand['weight']:3}%" if stand else "no answer"
        has = " ".join(f"{name} {weight:>3}" for name, weight in (weights or {}).items()
                       if name != "v3")
        failed = ", ".join(f"{name}: {count}" for name, count in errors.items() if name != "500")
        print(f"{time.strftime('%H:%M:%S')} {mark:>5}  {wants:19} | {has or 'no answer':13} | "
              f"{shares_of(answered, errors):27} | {failed or '-'}", flush=True)
        return {"answered": answered, "errors": errors, "weight": stand and stand["weight"]}

    def journal(self, name):
        return journal_of((self.folder / name).read_bytes())

    def tell_logs(self):
        """What each part wrote, each line once."""
        for name in ("desk", "agent", "follower", "haproxy", "prometheus", "v1", "v2"):
            lines = collections.Counter(
                line for line in map(told, self.said(name)) if line is not None)
            for line, count in lines.most_common(4):
                print(f"  {name} says{f' {count} times' if count > 1 else ''}: {line[:200]}")

    # ---- a round

    def begin(self, it):
        """Starts the releases, up to the first measurement of web and of beside."""
        for name in ("desk", "agent", "follower", "haproxy", "prometheus", "v1", "v2", "traffic"):
            self.said(name)
        self.count += 1
        it.begun = {name: len(view.lines) for name, view in self.views().items()}
        measured = {name: self.view(name).measured() for name in ("web", "beside")}
        self.do("start", "web", self.new)
        self.do("start", "beside", self.new)
        if it.name == "job":
            self.job("start", "manual", f"r{self.count}")
        for name, count in measured.items():
            wait_until(f"{name} is measured",
                       lambda name=name, count=count: self.view(name).measured() > count)
        self.do("start", "timed", f"r{self.count}")
        it.before = self.views()

    def is_seen(self, it):
        """What the row says of the time away has come about."""
        if it.name == "desk":
            return True
        if it.name in ABORTED:
            return all(self.stand(name)["status"] == "Degraded" for name in ("web", "beside"))
        is_over = self.stand("timed")["status"] == "Healthy"
        if it.name == "agent":
            it.seen["late"] = self.run("due", "--late", "1", "web")
            return is_over and self.stand("unmeasured")["status"] == "Healthy" \
                and it.seen["late"].returncode == 0
        if it.name == "follower":
            return is_over and len(it.old_shares()) > 2 and self.view("web").run(-1)["metrics"][0][
                "measurements"] > 0
        return is_over and all(self.view(name).measured() > it.before[name].measured() + 1
                               for name in ("web", "beside"))

    def play(self, name):
        """Kills a part, starts it again, and wants what its row says. Each service has the new
        version as its stable one then."""
        it, row = Round(self, name), ROWS[name]
        print(f"\n== {row} ({self.process_of(name)}): killed in the midst of a release", flush=True)
        self.begin(it)
        self.second(.1)
        self.kill_part(name)
        begun = time.monotonic()
        if name == "agent":
            self.do("start", "unmeasured", f"r{self.count}")
        self.stay_away(it, begun)
        self.start_part(name)
        it.back = self.views()
        self.go_on(it)
        self.tell_logs()
        for words in want_row(row, it):
            print(f"  seen, {words}")
        self.end()

    def stay_away(self, it, begun):
        while (seconds := time.monotonic() - begun) < self.away or not self.is_seen(it):
            if seconds > self.away + LONGEST:
                self.tell_logs()
                raise Wrong(f"{ROWS[it.name]}: what its row says is not seen in {seconds:.0f} s")
            it.seconds.append(self.show_second(f"+{seconds:.0f}"))

    def go_on(self, it):
        """Until web's release has ended as it should, and HAProxy has its weights."""
        begun, wanted = time.monotonic(), "Degraded" if it.name in ABORTED else "Healthy"
        while self.stand()["status"] not in OVER:
            if time.monotonic() > begun + 2 * LONGEST:
                raise Wrong(f"{ROWS[it.name]}: the release does not end")
            it.later.append(self.show_second("again"))
        it.after = self.views()
        expect(f"{ROWS[it.name]}: the release", it.after["web"].status(), wanted)
        whole = self.new if wanted == "Healthy" else self.stable
        wait_until(f"{whole} has all requests", lambda: (weights := self.weights()) is not None
                   and {name for name, weight in weights.items() if weight} == {whole})
        print(f"  after it: web is {wanted} {time.monotonic() - begun:.0f} s later, and {whole} has"
              " all requests")

    def end(self):
        """Releases the new version for good, wherever it stands, and looks whether all that was
        asked was settled once."""
        for service in ("web", "beside", "unmeasured"):
            if self.stand(service)["status"] == "Degraded":
                self.do("retry", service)
            if self.stand(service)["status"] != "Healthy":
                self.do("promote-full", service)
        self.stable, self.new = self.new, self.stable
        wait_until(f"{self.stable} has all requests",
                   lambda: self.weights() == {"v1": 0, "v2": 0, "v3": 0, self.stable: 100})
        print(f"  settled once each, {self.want_once()}")

    # ---- what is settled

    @contextlib.contextmanager
    def records(self):
        """The desk's tables, out of a copy of its file."""
        self.copies += 1
        copy = f"copy-{self.copies}.db"
        expect("canary backup", self.run("backup", "--db", "desk.db", copy).returncode, 0)
        with contextlib.closing(sqlite3.connect(self.folder / copy)) as records:
            yield records
        for path in self.folder.glob(f"{copy}*"):
            path.unlink()

    def taken(self, service, run):
        """When the measurements of a run were taken."""
        with self.records() as records:
            rows = records.execute("SELECT taken FROM measurement WHERE service = ? AND run = ?"
                                   " ORDER BY place", (service, run)).fetchall()
        return [taken for taken, in rows]

    def want_once(self):
        """Each journal has the replies that the desk keeps, byte for byte, and the history has each
        command that was answered 200 once, and each measurement."""
        journals = [*self.folder.glob("*.journal"), *self.folder.glob("journals/agent-*")]
        found = [self.journal(path) for path in journals]
        with self.records() as records:
            for journal in found:
                rows = records.execute("SELECT number, status, body FROM kept WHERE caller = ?"
                                       " ORDER BY number", (journal.caller,)).fetchall()
                kept = [(at, each.status, each.body) for at, each in enumerate(journal.kept, 1)]
                expect(f"{journal.caller}: pending, kept", (journal.pending, kept), (None, rows))
            lines = [line.split(" ")[0] for line, in records.execute("SELECT line FROM history")]
            (measured,), = records.execute("SELECT count(*) FROM measurement")
        return compare(found, collections.Counter(lines), measured)


def compare(journals, lines, measured):
    """The commands of these journals that acted are those of the history."""
    done, entries = collections.Counter(), 0
    for each in (each for journal in journals for each in journal.kept if each.status == 200):
        (command, value), = json.loads(each.body_asked).items()
        done[{"promoteFull": "promote"}.get(command, command)] += 1
        entries += len(value["entries"]) if command == "report" else 0
    for command in ("start", "retry", "promote"):
        expect(f"{command} in the history", lines[command], done[command])
    expect("measurements", measured, entries)
    numbers = ", ".join(f"{journal.caller} {len(journal.kept)}" for journal in journals)
    return (f"numbers: {numbers}; in the history {lines['start']} starts, {lines['retry']} retries,"
            f" {lines['promote']} promotions, {measured} measurements")


def told(line):
    """A line of a part's log, without what differs from one time to the next: of a report of the
    agent's, that it failed."""
    try:
        failure = json.loads(line).get("failure")
    except (ValueError, AttributeError):
        return line
    return failure and f"a failure: {failure}"


def main():
    program, folder, away, *names = sys.argv[1:]
    names = names or ROWS
    if set(names) - set(ROWS):
        sys.exit(f"loop: the parts are {' '.join(ROWS)}")

    def kill_each(loop):
        print("time           web at the desk     | HAProxy's     | who answered                |"
              " errors")
        for name in names:
            loop.play(name)
        loop.draw()

    play(Dying(os.path.realpath(program), folder, int(away)), kill_each)


main()
