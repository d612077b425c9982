"""The files in JSON that `canary page --json` writes beside a page: what they say, and under which
names nothing is written. Each `try_` is a part of pages.py."""
import csv
import io
import json
import os
import re
import signal
import stat
import subprocess
import time

import stories
from conversation import limits_writes, without_progress

LIMIT = 300
AT = stories.AT

# All characters that JSON escapes, a mark of each other kind, and characters of two, three and four
# bytes: 200 bytes at most.
HOSTILE = "".join(map(chr, range(0x20))) + '"\\/</script>\x7f\x80é\u2028\u202e\ufeff\U0001f600'


class Wrong(Exception):
    """What a file says that it should not, or does not say."""


def keys_ascend(pairs):
    keys = [key for key, _ in pairs]
    if keys != sorted(set(keys)):
        raise ValueError(f"keys {keys}")
    return dict(pairs)


def want(row, found, wanted):
    if found != wanted:
        raise Wrong(f"{row}: {found!r} in place of {wanted!r}"[:1500])


def value_in(path):
    """The one value of a file, which is UTF-8, has no control but in escapes, and keys in order."""
    with open(path, "rb") as file:
        text = file.read().decode()
    if re.search("[\x00-\x1f]", text):
        raise Wrong(f"{path}: a control")
    return json.loads(text, object_pairs_hook=keys_ascend)


def tried(program, *words, **more):
    """The exit status of `page`, and its standard error but for lines that say how far it is."""
    done = subprocess.run([program, "page", *words], stdout=subprocess.DEVNULL,
                          stderr=subprocess.PIPE, timeout=LIMIT, check=False, **more)
    return done.returncode, without_progress(done.stderr)


DONE, REFUSED = (0, b""), (1, b"canary: file\n")


def drawn(program, file, folder):
    """The values of the files of a desk, by their names, and that they are all that is there."""
    want(f"{file}: page --json", tried(program, "--db", file, "--json", folder, "-"), DONE)
    values = {name: value_in(os.path.join(folder, name)) for name in os.listdir(folder)}
    index = values.pop("_services.json")
    want(f"{file}: the names", sorted(values), [f"{one['service']}.json"
                                                for one in index["services"]])
    return index, {value["service"]: value for value in values.values()}


def told():
    """A release that a metric aborts, beside one that is dry-run, and its retry."""
    desk = stories.Desk()
    desk.template("checks", stories.metric(
        "errors", count=9, failureLimit=1, inconclusiveLimit=2, consecutiveErrorLimit=3,
        successCondition="result < 5", failureCondition="result > 100"), stories.metric(
            "success-rate.e6f", interval="2s", count=5, passAfter=2, initialDelay="3s",
            successCondition="result[0] >= 950000"), dry=["success-rate.e6f"])
    desk.service("web", "v1", [stories.weight(20), stories.analysis("checks"), stories.weight(50)])
    desk.start("web", "v2")                          # AT+20
    desk.report("web", 1, "errors", 3)               # AT+30
    desk.report("web", 1, "success-rate.e6f", [953215, 7])
    desk.report("web", 1, "errors", HOSTILE)         # AT+50
    desk.report("web", 1, "success-rate.e6f", [-5])
    desk.report("web", 1, "errors", 50, 500, 501)    # AT+70 to AT+90
    desk.command("retry", "web")                     # AT+100
    return desk


def measurement(run, metric, ordinal, after, phase, outcome, shown):
    is_failure = isinstance(outcome, str)
    return {"failure": outcome if is_failure else None, "metric": metric, "ordinal": ordinal,
            "phase": phase, "result": None if is_failure else outcome, "run": run, "shown": shown,
            "taken": AT + after}


ERRORS, RATE = "errors", "success-rate.e6f"

MEASURED = [
    measurement(1, ERRORS, 1, 30, "Successful", 3, "3"),
    measurement(1, RATE, 1, 40, "Successful", [953215, 7], ["0.953215", "0.000007"]),
    measurement(1, ERRORS, 2, 50, "Error", HOSTILE, None),
    measurement(1, RATE, 2, 60, "Failed", [-5], ["-0.000005"]),
    measurement(1, ERRORS, 3, 70, "Inconclusive", 50, "50"),
    measurement(1, ERRORS, 4, 80, "Failed", 500, "500"),
    measurement(1, ERRORS, 5, 90, "Failed", 501, "501"),
]


def condition(text, shown=None):
    return {"shown": shown or text, "text": text}


# What stays of each metric from run to run: its conditions and its limits.
OF_ERRORS = {
    "conditions": {"failure": condition("result > 100"), "success": condition("result < 5")},
    "consecutiveErrorLimit": 3, "count": 9, "dryRun": False, "failureLimit": 1,
    "inconclusiveLimit": 2, "initialDelay": 0, "interval": 1, "name": ERRORS, "passAfter": None,
    "shown": "errors",
}
OF_RATE = {
    "conditions": {"failure": None,
                   "success": condition("result[0] >= 950000", "result[0] >= 0.95")},
    "consecutiveErrorLimit": 4, "count": 5, "dryRun": True, "failureLimit": 0,
    "inconclusiveLimit": 0, "initialDelay": 3, "interval": 2, "name": RATE, "passAfter": 2,
    "shown": "success-rate",
}


def metric(always, phase, due=None, **counts):
    none = dict.fromkeys(("consecutive", "counted", "errors", "failed", "inconclusive",
                          "measurements", "passes"), 0)
    return {**always, **none, **counts, "due": due, "phase": phase}


def run(number, started, closed, verdict, *metrics):
    return {"closed": closed and AT + closed, "metrics": list(metrics), "outside": False,
            "run": number, "started": AT + started, "step": 1,
            "templates": [{"name": "checks", "revision": 1}], "verdict": verdict}


def history(*lines):
    return [{"event": event, "moment": AT + after} for after, event in lines]


WANTED = {
    "history": history(
        (10, "created v1"), (20, "start v2"), (20, "step 0 setWeight 20"),
        (20, "step 1 analysis run 1"), (90, "run 1 Failed"), (90, "abort run 1"),
        (100, "retry v2"), (100, "step 0 setWeight 20"), (100, "step 1 analysis run 2")),
    "hold": "none", "measurements": MEASURED, "moment": AT + 100,
    "runs": [
        run(1, 20, 90, "Failed",
            metric(OF_ERRORS, "Failed", counted=4, errors=1, failed=2, inconclusive=1,
                   measurements=5),
            metric(OF_RATE, "Failed", counted=2, failed=1, measurements=2)),
        run(2, 100, None, "Running", metric(OF_ERRORS, "Pending", AT + 100),
            metric(OF_RATE, "Pending", AT + 103)),
    ],
    "service": "web", "stable": "v1", "status": "Progressing", "step": 1, "steps": 3,
    "version": "v2", "weight": 20,
}


def folder_in(folder, name):
    made = os.path.join(folder, name)
    os.mkdir(made)
    return made


def try_told(program, folder, make_desk):
    """All of a service that was aborted and tried again; and once its template is revised."""
    file, desk = os.path.join(folder, "told.db"), told()
    make_desk(program, file, "told", desk)
    index, values = drawn(program, file, folder_in(folder, "told"))
    want("told: the list", index["services"],
         [{"service": "web", "status": "Progressing", "waits": False}])
    want("told", values, {"web": WANTED})
    before = len(desk.messages)
    desk.template("checks", stories.metric(ERRORS, count=1))
    desk.command("abort", "web")
    later = stories.Desk(at=desk.now)
    later.messages = desk.messages[before:]
    make_desk(program, file, "revised", later)
    index, values = drawn(program, file, os.path.join(folder, "told"))
    want("revised: the list", index["services"],
         [{"service": "web", "status": "Degraded", "waits": True}])
    page = subprocess.run([program, "page", "--db", file, "-"], capture_output=True, timeout=LIMIT,
                          check=True).stdout
    want("revised: why it is aborted, on the page",
         b"Aborted by a command. v1 is to have all traffic." in page, True)
    web = values["web"]
    want("revised: conditions", [one["conditions"] for each in web["runs"]
                                 for one in each["metrics"]], [None] * 4)
    second = web["runs"][1]
    want("revised: run 2", (second["closed"], second["outside"], second["verdict"],
                            second["metrics"][0]["phase"]),
         (web["moment"], True, "Successful", "Successful"))


def answers(program, file, targets):
    """What a desk over the file answers to queries, after all that happened to its services."""
    stream = "".join(f"GET {target} HTTP/1.1\r\n\r\n" for target in targets).encode()
    done = subprocess.run([program, "pipe", "--at", "0", "--step", "0", "--db", file], input=stream,
                          capture_output=True, timeout=LIMIT, check=True)
    return [json.loads(body) for body in re.findall(rb"\r\n\r\n(\{.*?\})(?=HTTP/1|$)", done.stdout,
                                                    re.DOTALL)]


def moment_of(line):
    return time.strftime("%Y-%m-%dT%H:%M:%SZ", time.gmtime(line["moment"])) + " " + line["event"]


def look_at_value(program, file, value):
    """A service's value says what the queries and an export say, and has each run once."""
    name, runs = value["service"], value["runs"]
    targets = [f"/services/{name}", f"/services/{name}/history"]
    targets += [f"/services/{name}/runs/{number + 1}" for number in range(len(runs))]
    state, lines, *asked = answers(program, file, targets)
    for key in ("hold", "moment", "service", "stable", "status", "step", "version", "weight"):
        want(f"{name}: {key}", value[key], state[key])
    want(f"{name}: runs", (len(asked), len(runs)), (state["runs"], state["runs"]))
    want(f"{name}: history", [moment_of(line) for line in value["history"]], lines["lines"])
    for mine, its in zip(runs, asked):
        want(f"{name}: run", {key: mine[key] for key in mine if key in its and key != "metrics"},
             {key: its[key] for key in its if key not in ("code", "metrics", "service")})
        pairs = zip(mine["metrics"], its["metrics"], strict=True)
        want(f"{name}: metrics", [{key: one[key] for key in other} for one, other in pairs],
             its["metrics"])
        look_at_phases(name, mine, value["measurements"])
    done = subprocess.run([program, "export", "--db", file, "--caller", "agent", name],
                          capture_output=True, timeout=LIMIT, check=True)
    want(f"{name}: measurements", [row_of(one) for one in value["measurements"]],
         [row[3:] for row in csv.reader(io.StringIO(done.stdout.decode(), newline=""))][1:])


def look_at_phases(name, its_run, measurements):
    """As many measurements of each metric have a phase as the metric counts."""
    for one in its_run["metrics"]:
        phases = [each["phase"] for each in measurements
                  if (each["run"], each["metric"]) == (its_run["run"], one["name"])]
        counts = [phases.count(phase) for phase in ("Failed", "Inconclusive", "Error")]
        want(f"{name}: phases of {one['name']} in run {its_run['run']}", (len(phases), counts),
             (one["measurements"], [one["failed"], one["inconclusive"], one["errors"]]))


def row_of(one):
    """A measurement as an export has it."""
    result = one["result"]
    if isinstance(result, list):
        result = "[" + ";".join(map(str, result)) + "]"
    numbers = (one["run"], one["metric"], one["ordinal"], one["taken"])
    return [*map(str, numbers), "" if result is None else str(result), one["failure"] or ""]


def try_case(program, folder, name):
    """The files of a desk that pages.py has made say what its queries and exports say."""
    file, place = os.path.join(folder, f"{name}.db"), folder_in(folder, f"{name}-json")
    _, values = drawn(program, file, place)
    for value in values.values():
        look_at_value(program, file, value)
    if name == "breaking":
        want(name, [one["failure"] for one in values["texts"]["measurements"]], stories.BREAKING)


def crossed():
    """Runs of a background and of steps by turns, of more pages than one: 600 measurements."""
    desk = stories.Desk(step=1)
    desk.template("back", stories.metric("back", failureLimit=999))
    desk.template("step", stories.metric("one", count=128), stories.metric("two", count=128))
    background = {"templates": [{"templateName": "back"}]}
    desk.service("web", "v1", [stories.analysis("step"), stories.analysis("step"),
                               stories.pause()], background)
    desk.start("web", "v2")
    for number in range(256):
        step_run = 2 + number // 128
        desk.report("web", step_run, "one", number)
        desk.report("web", step_run, "two", -number)
        if number % 3 == 0:
            desk.report("web", 1, "back", number)
    desk.report("web", 1, "back", 1, 2)
    return desk


def try_pages(program, folder, make_desk):
    """Measurements at the end of a page of 256, and after it; runs that lie across one another."""
    file = os.path.join(folder, "crossed.db")
    make_desk(program, file, "crossed", crossed())
    _, values = drawn(program, file, folder_in(folder, "crossed"))
    want("crossed", (len(values["web"]["measurements"]), len(values["web"]["runs"])), (600, 3))
    look_at_value(program, file, values["web"])
    for count in (255, 256, 257, 512):
        desk, file = stories.Desk(step=1), os.path.join(folder, f"{count}-pages.db")
        desk.template("load", stories.metric("load"))
        desk.service("load", "v1", [stories.pause()], {"templates": [{"templateName": "load"}]})
        desk.start("load", "v2")
        desk.report("load", 1, "load", *range(count))
        make_desk(program, file, f"{count} measurements", desk)
        _, values = drawn(program, file, folder_in(folder, f"{count}-pages"))
        want(f"{count} measurements", [one["result"] for one in values["load"]["measurements"]],
             list(range(count)))


def write(path, text):
    with open(path, "w", encoding="utf-8") as file:
        file.write(text)


def read(path):
    with open(path, "rb") as file:
        return file.read()


def places_of_names(folder):
    """A folder for files, a page beside it, and the words that draw both."""
    place, out = os.path.join(folder, "names"), os.path.join(folder, "names.html")
    return place, out, ["--db", os.path.join(folder, "told.db"), "--json", place, out]


def try_refused(program, folder):
    """A FIFO, a folder, a device and the desk's own file under the name of a file are refused, also
    at the end of a link, and stay as they are. There is no page then."""
    file, fifo = os.path.join(folder, "told.db"), os.path.join(folder, "fifo")
    place, out, words = places_of_names(folder)
    os.mkdir(place)
    os.mkfifo(fifo)
    makers = {"FIFO": os.mkfifo, "folder": os.mkdir,
              "device": lambda path: os.symlink("/dev/null", path),
              "link to a FIFO": lambda path: os.symlink(fifo, path),
              "link to the desk": lambda path: os.symlink(file, path),
              "name of the desk": lambda path: os.link(file, path)}
    desk = read(file)
    for path in (os.path.join(place, "web.json"), os.path.join(place, "_services.json")):
        for kind, make in makers.items():
            row = f"{os.path.basename(path)}: a {kind}"
            make(path)
            before = os.lstat(path)
            # a desk's file that has another name is not opened
            refused = (1, b"canary: storage\n") if kind == "name of the desk" else REFUSED
            want(row, tried(program, *words), refused)
            want(f"{row} after", (os.lstat(path).st_ino, read(file)), (before.st_ino, desk))
            left = [one for one in os.listdir(place) if ".part-" in one]
            want(f"{row}, what is left", (left, os.path.exists(out)), ([], False))
            (os.rmdir if stat.S_ISDIR(before.st_mode) else os.unlink)(path)


def try_replaced(program, folder):
    """A file is replaced, and keeps its mode; a link to a file is replaced, and not the file.
    Others stay."""
    place, _, words = places_of_names(folder)
    name, stranger = os.path.join(place, "web.json"), os.path.join(place, "stranger.json")
    victim = os.path.join(folder, "victim")
    write(victim, "kept")
    write(stranger, "kept")
    if os.path.exists(name):
        os.unlink(name)
    os.symlink(victim, name)
    want("a link to a file", tried(program, *words), DONE)
    want("a link to a file, after", (value_in(name)["service"], os.path.islink(name)),
         ("web", False))
    os.chmod(name, 0o640)
    want("once more", tried(program, *words), DONE)
    want("once more: its mode", stat.S_IMODE(os.stat(name).st_mode), 0o640)
    want("strangers", (read(victim), read(stranger)), (b"kept", b"kept"))
    want("all that is there", sorted(os.listdir(place)),
         ["_services.json", "stranger.json", "web.json"])


def try_folders(program, folder):
    """A folder that is not there, or no folder: nothing is drawn. A link to one is one."""
    file, out = os.path.join(folder, "told.db"), os.path.join(folder, "folders.html")
    for place in (os.path.join(folder, "no-folder"), file, "", "/dev/null"):
        want(f"--json {place!r}", tried(program, "--db", file, f"--json={place}", out), REFUSED)
        want(f"--json {place!r}: a page", os.path.exists(out), False)
    place = folder_in(folder, "real")
    os.symlink(place, os.path.join(folder, "linked"))
    words = ["--db", file, "--json", os.path.join(folder, "linked"), out]
    want("a link to a folder", tried(program, *words), DONE)
    want("a link to a folder: its files", sorted(os.listdir(place)), ["_services.json", "web.json"])
    os.chmod(place, 0o500)
    if os.geteuid() != 0:
        want("a folder that is shut", tried(program, *words), REFUSED)
    os.chmod(place, 0o700)


def try_page_among(program, folder):
    """A page that would have the name of a file beside it is refused, by whatever name, before
    anything is written. Another name in that folder is a page's."""
    place, _, words = places_of_names(folder)
    linked, desk = os.path.join(folder, "linked-names"), words[:4]
    os.symlink(place, linked)
    there = {name: read(os.path.join(place, name)) for name in os.listdir(place)}
    want("a page among files: the files", sorted(there),
         ["_services.json", "stranger.json", "web.json"])
    for out in (*(os.path.join(place, name) for name in (*there, "none.json", ".json")),
                os.path.join(linked, "web.json"), os.path.join(place, ".", "web.json"),
                os.path.join(place, "..", "linked-names", "_services.json")):
        want(f"a page among files: {out}", tried(program, *desk, out), REFUSED)
        want(f"the same by a link: {out}", tried(program, *desk[:3], linked, out), REFUSED)
    want("a page among files: web.json", tried(program, *desk, "web.json", cwd=place), REFUSED)
    want("a page among files: after", {name: read(os.path.join(place, name))
                                       for name in os.listdir(place)}, there)
    page = os.path.join(place, "web.html")
    want("a page beside files", tried(program, *desk, page), DONE)
    want("a page beside files: it", (read(page)[-8:], value_in(os.path.join(place, "web.json"))[
        "service"]), (b"</html>\n", "web"))
    os.unlink(page)
    other = os.path.join(folder, "elsewhere.json")
    want("a page with that ending elsewhere", tried(program, *desk, other), DONE)
    want("a page with that ending elsewhere: it", read(other)[-8:], b"</html>\n")


def try_full(program, folder):
    """A disk that is full in the midst of a file: the file is as it was, and nothing is left."""
    file, place = os.path.join(folder, "thinned.db"), folder_in(folder, "full")
    words = ["--db", file, "--json", place, "-"]
    want("before it is full", tried(program, *words), DONE)
    sizes = {name: os.stat(os.path.join(place, name)).st_size for name in os.listdir(place)}
    size = sizes["load.json"]
    for most in (512, 4096, size // 2, size - 1):
        for name in sizes:
            write(os.path.join(place, name), "kept")
        found = tried(program, *words, preexec_fn=lambda: limits_writes(most))
        want(f"a disk of {most} bytes", found, (1, b"canary: write\n"))
        want(f"a disk of {most} bytes: the file", read(os.path.join(place, "load.json")), b"kept")
        want(f"a disk of {most} bytes: what is there", sorted(os.listdir(place)), sorted(sizes))
    out = os.path.join(folder, "full.html")
    want("a page on a full disk", tried(program, "--db", file, out,
                                        preexec_fn=lambda: limits_writes(4096)),
         (1, b"canary: write\n"))
    want("a page on a full disk: it", os.path.exists(out), False)


def try_kills(program, folder):
    """`page` is killed on its way, again and again: each file is whole, and what is left beside
    them is their owner's alone, unless it is whole and was about to get its name."""
    file, place = os.path.join(folder, "thinned.db"), folder_in(folder, "killed")
    page = os.path.join(folder, "killed.html")
    words = [program, "page", "--db", file, "--json", place, page]
    begun = time.monotonic()
    subprocess.run(words, timeout=LIMIT, check=True)
    takes = time.monotonic() - begun
    names, ends = sorted(os.listdir(place)), set()
    for part in range(1, 20):
        ended = subprocess.Popen(words)
        time.sleep(takes * part / 20)
        ended.send_signal(signal.SIGKILL)
        ends.add(ended.wait())
        for name in names:
            value_in(os.path.join(place, name))
        with open(page, "rb") as shown:
            want("a page whose program was killed is whole", shown.read()[-8:], b"</html>\n")
        for name in set(os.listdir(place)) - set(names):
            path = os.path.join(place, name)
            if stat.S_IMODE(os.stat(path).st_mode) != 0o600:
                value_in(path)
    want("kills on the way, and no other faults", ends - {0}, {-signal.SIGKILL})


def try_watch(program, folder):
    """Files that are written again and again, while a desk serves, are whole at each moment."""
    file, place = os.path.join(folder, "states.db"), folder_in(folder, "watched")
    desk = subprocess.Popen([program, "serve", "--listen", "127.0.0.1:0", "--db", file],
                            stdout=subprocess.PIPE, stderr=subprocess.DEVNULL)
    desk.stdout.readline()
    watch = subprocess.Popen([program, "page", "--db", file, "--watch", "1", "--json", place,
                              os.path.join(folder, "watched-too.html")])
    try:
        seen, index = set(), os.path.join(place, "_services.json")
        end = time.monotonic() + LIMIT
        while len(seen) < 3 and time.monotonic() < end:
            if os.path.exists(index):
                services = value_in(index)["services"]
                values = [value_in(os.path.join(place, f"{one['service']}.json"))
                          for one in services]
                want("watch: the names", [value["service"] for value in values],
                     [one["service"] for one in services])
                seen.add(os.stat(index).st_ino)
        want("watch: the times", len(seen), 3)
        want("watch: what ended", (watch.poll(), desk.poll()), (None, None))
    finally:
        for process in (watch, desk):
            process.kill()
            process.wait()


def try_all(program, folder, make_desk):
    try_told(program, folder, make_desk)
    for case in stories.CASES:
        try_case(program, folder, case.__name__)
    try_pages(program, folder, make_desk)
    try_refused(program, folder)
    try_replaced(program, folder)
    try_page_among(program, folder)
    try_folders(program, folder)
    try_full(program, folder)
    try_kills(program, folder)
    try_watch(program, folder)
