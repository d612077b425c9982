"""What `status --prometheus` writes for the textfile collector of node_exporter, beside the rules
of the format and of that collector, beside `status --json`, and beside what was worked out by
hand."""
import contextlib
import json
import os
import re
import shutil
import subprocess
import time
import urllib.request

import stories
from world import free_port

HERE = os.path.dirname(os.path.abspath(__file__))
OPERATIONS = os.path.join(HERE, "..", "..", "examples", "operations")
LIMIT = 60
WORDS = ("service_info", "service_status", "service_weight_percent", "service_step",
         "service_steps", "service_held", "service_open_runs", "measurement_late_seconds",
         "service_late_seconds", "service_unmeasured_runs")
FAMILIES = [f"canary_{word}" for word in WORDS]
STATUSES = ("Healthy", "Degraded", "Paused", "Progressing")
# A sample of version 0.0.4 without a timestamp, whose labels need no escapes.
SAMPLE = re.compile(r'([a-z_]+)\{((?:[a-z]+="[A-Za-z0-9._ -]*",?)+)\} (0|[1-9][0-9]*)')


class Wrong(Exception):
    """What a text has is not what it has to have."""


def expect(what, told, wanted):
    if told != wanted:
        raise Wrong(f"{what}: {told!r} in place of {wanted!r}")


def samples_of(text):
    """The samples of a text, each by its family and its labels. The text is one by the rules: it
    ends with a newline, each family has its two comments and then all of its samples, none of which
    has a timestamp, and no series stands twice."""
    lines = text.decode("ascii").split("\n")
    expect("what stands after the last newline", lines.pop(), "")
    found, begun, place = {}, [], 0
    while place < len(lines):
        helped = re.fullmatch(r"# HELP ([a-z_]+) [^\\]+", lines[place])
        if not helped:
            raise Wrong(f"line {place + 1} begins no family: {lines[place]!r}")
        name = helped[1]
        expect("a second comment", lines[place + 1], f"# TYPE {name} gauge")
        begun.append(name)
        place += 2
        while place < len(lines) and not lines[place].startswith("#"):
            sample = SAMPLE.fullmatch(lines[place])
            if not sample or sample[1] != name:
                raise Wrong(f"line {place + 1} is no sample of {name}: {lines[place]!r}")
            labels = tuple(re.findall(r'([a-z]+)="([^"]*)"', sample[2]))
            expect("labels of one name", len(dict(labels)), len(labels))
            if (name, labels) in found:
                raise Wrong(f"line {place + 1} is a series that stands twice: {lines[place]!r}")
            found[name, labels] = int(sample[3])
            place += 1
    expect("the families", begun, FAMILIES)
    return found


def family(samples, name):
    """The samples of a family, each by what its labels say."""
    return {tuple(value for _, value in labels): number
            for (of, labels), number in samples.items() if of == name}


def without_ending(label):
    """The label without an ending that says how numbers are reported, as docs/OPERATIONS.md has
    it."""
    return re.sub(r"(?<=.)\.e([6-9]|1[0-8])[nis]?(f|[pl][0-9]+)?$", "", label)


def said_by_values(values):
    """What a text has to say by `status --json`, but for holds, for how late it is and for what was
    not measured."""
    wanted = {word: {} for word in WORDS}
    metrics = set()
    for value in map(json.loads, values.decode().splitlines()):
        name = value["name"]
        wanted["service_info"][name, value["version"], value["stable"]] = 1
        for status in STATUSES:
            wanted["service_status"][name, status] = int(value["status"] == status)
        wanted["service_weight_percent"][name,] = value["weight"]
        wanted["service_step"][name,] = value["step"]
        wanted["service_steps"][name,] = value["steps"]
        wanted["service_open_runs"][name,] = len(value["runs"])
        for run in value["runs"]:
            at = "background" if run["step"] is None else f"step {run['step']}"
            metrics |= {(name, str(run["run"]), at, without_ending(metric["name"]), metric["name"])
                        for metric in run["metrics"] if metric["due"] is not None}
    return wanted, metrics


def look(text, values):
    """A text says what `status --json` says; and the largest of what a service's measurements are
    late is what the service is."""
    samples = samples_of(text)
    wanted, metrics = said_by_values(values)
    for word in WORDS[:5] + WORDS[6:7]:
        expect(word, family(samples, f"canary_{word}"), wanted[word])
    held = family(samples, "canary_service_held")
    expect("who may be held", set(held), set(wanted["service_step"]))
    late = family(samples, "canary_measurement_late_seconds")
    expect("the measurements that are wanted", set(late), metrics)
    latest = {(name,): max([0, *(late[one] for one in late if one[0] == name)])
              for (name,) in wanted["service_step"]}
    expect("service_late_seconds", family(samples, "canary_service_late_seconds"), latest)
    expect("what may be unmeasured", set(family(samples, "canary_service_unmeasured_runs")),
           set(wanted["service_step"]))
    return samples


# For how long measurements have been due, by the messages of stories.py: those of `late` and
# `decimals`. A service is judged at the moment of its last message.
LATE = {
    "late": {("aa-timed", "errors"): 20, ("bb-due", "errors"): 10, ("cc-silent", "errors"): 20,
             ("dd-pause", "errors"): 20, ("ee-step", "open"): 20, ("ee-step", "hourly"): 20,
             ("ff-delay", "slow"): 0, ("gg-once", "once"): 20},
    "decimals": {("rates", "success-rate.e6f"): 59, ("rates", "latency.e6n"): 29,
                 ("rates", "pair.e6p2"): 9, ("rates", "size.e6l1"): 0},
}
# Who is held, of `states`.
HELD = {"states": {"ee-held", "ff-held"}}
# How many runs of the last release that is done had no measurement, where there are some.
UNMEASURED = {"ended": {"aa-silent": 1, "bb-old": 1}, "unmeasured": {"aa-aborted": 1, "cc-two": 2}}


def look_at_case(name, text, values):
    """The text of the desk of stories.py that has this name."""
    samples = look(text, values)
    held = family(samples, "canary_service_held")
    expect("who is held", {of for (of,), is_so in held.items() if is_so}, HELD.get(name, set()))
    expect("unmeasured", unmeasured_of(samples), UNMEASURED.get(name, {}))
    if name in LATE:
        late = family(samples, "canary_measurement_late_seconds")
        expect("late", {(one[0], one[-1]): number for one, number in late.items()}, LATE[name])


def unmeasured_of(samples):
    """The services with runs that had no measurement, each with how many."""
    found = family(samples, "canary_service_unmeasured_runs")
    return {of: count for (of,), count in found.items() if count}


def worked():
    """A service of each status. At second 90 of the desk `web` has two open runs: of the
    background, which wants its first measurement at 70; and of a step, since 40, with a metric that
    is completed, two that people read alike, wanted at 40 and at 60, and one that is wanted
    later."""
    desk = stories.Desk()
    desk.template("rates", stories.metric("probe", count=1),
                  stories.metric("rate.e6", interval="10s", count=5),
                  stories.metric("rate.e6n", interval="10s", count=5, initialDelay="20s"),
                  stories.metric("slow", interval="10s", count=5, initialDelay="1h"))
    desk.template("errors", stories.metric("errors", interval="60s", initialDelay="30s"))
    desk.service("api", "v1", [])
    desk.service("web", "v1", [stories.weight(20), stories.analysis("rates"), stories.weight(60),
                               stories.pause()], {"templates": [{"templateName": "errors"}]})
    desk.start("web", "v2")
    desk.report("web", 2, "probe", 1)
    for _ in range(4):
        desk.command("tick", "web")
    desk.template("smoke", stories.metric("smoke", count=3, successCondition="result > 10",
                                          failureCondition="result < 5"))
    desk.service("cart", "v1", [stories.weight(10), stories.analysis("smoke"), stories.pause()])
    desk.start("cart", "v2")
    desk.report("cart", 1, "smoke", 7)
    desk.service("shop", "v1", [stories.weight(40), stories.pause()])
    desk.start("shop", "v2")
    desk.command("abort", "shop")
    return desk


def look_at_worked(text):
    """The text of the desk `worked`, byte for byte."""
    with open(os.path.join(HERE, "textfile.prom"), "rb") as file:
        wanted = file.read().split(b"\n")
    told = text.split(b"\n")
    for number, (line, other) in enumerate(zip(told, wanted), 1):
        expect(f"line {number} of the worked desk", line, other)
    expect("lines of the worked desk", len(told), len(wanted))


def promtool(words, **more):
    """promtool of Prometheus finds nothing to object to."""
    done = subprocess.run(["promtool", *words], capture_output=True, timeout=LIMIT, check=False,
                          **more)
    if done.returncode or (done.stderr and words[0] == "check"):
        raise Wrong(f"promtool {' '.join(words)}: {done.returncode}, {done.stdout + done.stderr}")


def look_at_alerts():
    """The rules of examples/operations are rules, and fire as alerts_test.yml says."""
    promtool(["check", "rules", os.path.join(OPERATIONS, "canary-alerts.yml")])
    promtool(["test", "rules", os.path.join(HERE, "alerts_test.yml")])


def collect(folder, text):
    """What node_exporter shows of a text that stands in its folder is the same, if node_exporter is
    there."""
    exporter = shutil.which("prometheus-node-exporter") or shutil.which("node_exporter")
    if not exporter:
        return
    place = os.path.join(folder, "textfile")
    os.mkdir(place)
    with open(os.path.join(place, "canary.prom"), "wb") as file:
        file.write(text)
    port = free_port()
    shown = subprocess.Popen([exporter, "--collector.disable-defaults", "--collector.textfile",
                              f"--collector.textfile.directory={place}",
                              f"--web.listen-address=127.0.0.1:{port}"], stdin=subprocess.DEVNULL,
                             stdout=subprocess.DEVNULL, stderr=subprocess.DEVNULL)
    try:
        lines = asked(port).splitlines()
    finally:
        shown.kill()
        shown.wait()
    expect("node_textfile_scrape_error", [line for line in lines
           if line.startswith("node_textfile_scrape_error")], ["node_textfile_scrape_error 0"])
    times = [line for line in lines if re.match(r'node_textfile_mtime_seconds\{file="(.*/)?canary\.'
                                                r'prom"\} ', line)]
    expect("node_textfile_mtime_seconds", len(times), 1)
    expect("what node_exporter shows", sets_of(line for line in lines if "canary_" in line),
           sets_of(text.decode().splitlines()))


def sets_of(lines):
    """Lines in any order, with the labels of each in any order."""
    return sorted((line.split("{")[0], sorted(re.findall(r'([a-z]+)="([^"]*)"', line)),
                   line.split("} ")[-1]) for line in lines)


def asked(port):
    """What an exporter shows that has just been started."""
    until = time.monotonic() + LIMIT
    while time.monotonic() < until:
        with contextlib.suppress(OSError):
            with urllib.request.urlopen(f"http://127.0.0.1:{port}/metrics", timeout=10) as reply:
                return reply.read().decode()
        time.sleep(.05)
    raise Wrong(f"node_exporter: no reply in {LIMIT} seconds")
