"""What `canary argo` reads, and streams that fail."""
import json
import os

from asked import Faults, expect, folder_in, read, run, timed, write
from closing import SUBSETS, closing
from outputs import EXAMPLE, JOB, example, want_files
from wanted import TAKEN
from world import MARKS

NOTHING = "no Rollout is here, and no AnalysisTemplate whose arguments have values"
MOST_FILE, MOST_YAML = 16 * 2 ** 20, 2 ** 20


def in_json(trial, words, given=None, **more):
    """The status, and what is made in JSON without the places of files."""
    done = run(trial.program, ["argo", "--json", *words], given, **more)
    expect(f"{words}: errors", done.errors, b"")
    return done.status, json.loads(done.output)


def made_of(found):
    return {key: found[key] for key in ("plan", "services", "templates")}


def wanted_of(file):
    made = TAKEN[file]
    return {"plan": made.plan, "services": made.services, "templates": made.templates}


def texts_of(found, of="findings"):
    return [it["text"] for it in found[of]]


# ---- files and documents

def try_standard_input(trial):
    """`-` is standard input, a file, a pipe or a FIFO, and its name in findings."""
    faults = Faults()
    for file in TAKEN:
        with faults:
            status, found = in_json(trial, ["-"], read(example(trial, file)))
            expect(f"{file} as input", (status, made_of(found)), (0, wanted_of(file)))
    with faults:
        with open(example(trial), "rb") as opened:
            status, found = in_json(trial, ["-"], stdin=opened)
        expect("a file as input", (status, made_of(found)), (0, wanted_of(EXAMPLE)))
    with faults:
        _, found = in_json(trial, ["-"], read(example(trial, "refused.yaml")))
        expect("the name of the input", {it["file"] for it in found["findings"]}, {"-"})
    faults.end()
    return f"{len(TAKEN) + 2} inputs"


def split(text):
    """The documents of an example."""
    return [f"{part.rstrip()}\n" for part in text.split("\n---\n")]


def try_documents(trial):
    """The documents of a file in files of their own, in any order, and between markers."""
    place, faults = folder_in(trial, "documents"), Faults()
    for file in TAKEN:
        parts = split(read(example(trial, file)).decode())
        names = [os.path.basename(write(os.path.join(place, f"{at}-{file}"), part))
                 for at, part in enumerate(parts)]
        for row, words, text in (
                ("in files of their own", names, None),
                ("without what is empty", ["-"], "---\n---\n" + "---\n".join(parts) + "---\n"),
                ("after ends", ["-"], "...\n---\n".join(parts)),
                ("with ends of lines of DOS", ["-"], "---\n".join(parts).replace("\n", "\r\n"))):
            with faults:
                status, found = in_json(trial, words, text and text.encode(), cwd=place)
                expect(f"{file} {row}", (status, made_of(found)), (0, wanted_of(file)))
        with faults:
            status, found = in_json(trial, names[::-1], cwd=place)
            expect(f"{file} from its end", (status, sorted(
                it["metadata"]["name"] for it in found["templates"])), (0, sorted(
                    it["metadata"]["name"] for it in TAKEN[file].templates)))
    held = {"kind": "Rollout", "metadata": {"name": "web"},
            "spec": {"strategy": {"canary": {"steps": [{"pause": {}}]}}}}
    for mark in (b"", b"\xef\xbb\xbf"):
        with faults:
            status, found = in_json(trial, ["-"], mark + json.dumps(held).encode(), cwd=place)
            expect(f"JSON after {mark!r}", (status, [
                it["metadata"]["name"] for it in found["services"]]), (0, ["web"]))
    faults.end()
    return f"{5 * len(TAKEN) + 2} ways to read documents"


def listed(*items):
    return json.dumps({"apiVersion": "v1", "kind": "List", "items": list(items)}, indent=2)


def rollout(name, *templates):
    steps = [{"analysis": {"templates": [{"templateName": it} for it in templates]}}]
    return {"kind": "Rollout", "metadata": {"name": name},
            "spec": {"strategy": {"canary": {"steps": steps}}}}


SECRET = {"kind": "Secret", "metadata": {"name": "token"}, "data": {"token": "c2VjcmV0"}}
IGNORED = "Secret token: ignored; only AnalysisTemplates and Rollouts are converted"
# A list, the status, the findings and the notes.
LISTS = (
    ("a List", listed(JOB, rollout("web", "smoke")), 0, [], []),
    ("no List", json.dumps(JOB), 0, [], []),
    ("a Secret", listed(SECRET, JOB), 0, [], [IGNORED]),
    ("a Secret alone", listed(SECRET), 1, [NOTHING], [IGNORED]),
    ("an empty List", listed(), 1, [NOTHING], []),
    ("a List in a List", listed(JOB, {"kind": "List", "items": []}), 1,
     ["List: expected items, which are no Lists"], []),
    ("no kind", json.dumps({"metadata": {"name": "web"}}), 1,
     ["expected AnalysisTemplate, Rollout or List"], []),
    ("a template twice", listed(JOB, JOB), 1,
     ["AnalysisTemplate smoke is there already: leave one of the two out"], []),
    ("a template of the cluster", listed({**JOB, "kind": "ClusterAnalysisTemplate"}), 1,
     ["ClusterAnalysisTemplate: write an AnalysisTemplate"], []),
    ("a template that is nowhere", listed(JOB, rollout("web", "smoke", "load")), 1,
     ["AnalysisTemplate load is in none of the files"], []),
)


def places_in_lists():
    """Rollouts in a List, each with the path, the line and the column of what is found in it."""
    scaled = rollout("web", "smoke")
    scaled["spec"]["strategy"]["canary"]["steps"].append({"setCanaryScale": {"replicas": 2}})
    path = "items[1].spec.strategy.canary.steps"
    return (("what is translated", rollout("web", "smoke", "load"),
             (f"{path}[0].analysis.templates[1].templateName", 39, 39)),
            ("what is checked", scaled, (f"{path}[1].setCanaryScale", 42, 35)))


def try_lists(trial):
    """A List is its items; a manifest of another kind is ignored, with a note."""
    faults, places = Faults(), places_in_lists()
    for row, text, status, findings, notes in LISTS:
        with faults:
            ended, found = in_json(trial, ["-"], text.encode())
            expect(row, (ended, texts_of(found), texts_of(found, "notes")),
                   (status, findings, notes))
            expect(f"{row}: the templates", [it["metadata"]["name"] for it in found["templates"]],
                   [] if findings else ["smoke"])
            if findings:
                expect(f"{row}: what is made", made_of(found),
                       {"plan": [], "services": [], "templates": []})
    for row, manifest, wanted in places:
        with faults:
            _, found = in_json(trial, ["-"], listed(JOB, manifest).encode())
            expect(f"the place in a List, of {row}", [
                (it["path"], it["line"], it["column"]) for it in found["findings"]], [wanted])
    faults.end()
    return f"{len(LISTS) + len(places)} lists"


def try_many_findings(trial):
    """`argo` shows a hundred findings, of translations or of checks, each with what to write, and
    counts the others."""
    metrics = [{"name": f"m{at}", "successCondition": "result > 1e-18",
                "provider": {"web": {"url": "http://any/"}}} for at in range(30)]
    items = [{"kind": "AnalysisTemplate", "metadata": {"name": f"t{at}"},
              "spec": {"metrics": metrics}} for at in range(5)]
    done = run(trial.program, ["argo", "-"], listed(*items).encode())
    lines = done.output.decode().splitlines()
    expect("150 findings", (done.status, len(lines), lines[-1]), (1, 101, "and 50 more"))
    steps = {"strategy": {"canary": {"steps": [{"setCanaryScale": {}}] * 60}}}
    items = [{"kind": "Rollout", "metadata": {"name": f"s{at}"}, "spec": steps} for at in range(2)]
    done = run(trial.program, ["argo", "-"], listed(*items).encode())
    lines = done.output.decode().splitlines()
    expect("120 findings", (done.status, [line[:4] == "    " for line in lines], lines[-1]),
           (1, [False, True] * 100 + [False], "and 20 more"))
    return "150 and 120 findings"


def try_many_of_one(trial):
    """The check of one template finds more than a hundred: that it has more than 32 metrics, and
    three members of each of its 64. Of 103 files none is a manifest, and each is found."""
    place, faults = folder_in(trial, "many-of-one"), Faults()
    metrics = [{"name": f"m{at}", "interval": "x", "count": -1, "failureLimit": "x"}
               for at in range(64)]
    template = {"kind": "AnalysisTemplate", "metadata": {"name": "t"}, "spec": {"metrics": metrics}}
    write(os.path.join(place, "template.json"), json.dumps(template))
    names = [f"{at}.json" for at in range(103)]
    for name in names:
        write(os.path.join(place, name), "{")
    for row, words, last in (("193 findings", ["template.json"], "and 93 more"),
                             ("103 files", names, "and 3 more")):
        with faults:
            done = run(trial.program, ["argo", *words], cwd=place)
            lines = done.output.decode().splitlines()
            expect(row, (done.status, len(lines), lines[-1]), (1, 101, last))
    faults.end()
    return "193 findings, and 103 files"


def documents(count):
    """A template without a Rollout, after so many documents of another kind."""
    others = [json.dumps({"kind": "Secret", "metadata": {"name": f"s{at}"}}) for at in range(count)]
    return "".join(f"---\n{it}\n" for it in [*others, json.dumps(JOB)]).encode()


def try_most(trial):
    """As many documents and items as there may be, and one more. `argo` shows a hundred notes, and
    counts the others."""
    faults = Faults()
    with faults:
        done = run(trial.program, ["argo", "-"], documents(999))
        lines = done.errors.decode().splitlines()
        expect("1,000 documents", (done.status, done.output, len(lines), lines[-1:]), (
            0, b"template smoke\n  smoke\n    success: result == 1\n", 101,
            ["canary: note: and 899 more"]))
    with faults:
        done = run(trial.program, ["argo", "-"], documents(1000))
        expect("a document more", tuple(done), (
            1, b"-:2:1: more than 1,000 documents: convert fewer at a time\n", b""))
    for count, findings in ((64, []), (65, ["expected a list, of 64 items at most"])):
        arguments = [{"name": f"a{at}", "value": "x"} for at in range(count)]
        manifest = {**JOB, "spec": {**JOB["spec"], "args": arguments}}
        with faults:
            _, found = in_json(trial, ["-"], json.dumps(manifest).encode())
            expect(f"{count} arguments", texts_of(found), findings)
    faults.end()
    return "4 counts"


def try_one_unread(trial):
    """Beside a file that is no manifest nothing else is found, since it may have what others
    need."""
    place, faults = folder_in(trial, "one-unread"), Faults()
    write(os.path.join(place, "web.json"), json.dumps(rollout("web", "load")))
    for name, text, line, column in (
            ("load.yaml", "kind: AnalysisTemplate\nmetadata: {name: load\n", 3, 1),
            ("load.json", '{"kind": "AnalysisTemplate",,', 1, 29)):
        write(os.path.join(place, name), text)
        with faults:
            status, found = in_json(trial, ["web.json", name], cwd=place)
            expect(f"{name} beside a Rollout", (status, [
                (it["file"], it["line"], it["column"]) for it in found["findings"]]),
                   (1, [(name, line, column)]))
    faults.end()
    return "2 files"


# ---- what cannot be read

def cannot_read(name):
    return 1, b"", f"canary: cannot read {name}\ncanary: file\n".encode()


def try_unread(trial):
    """A file that cannot be read or is too long ends the program; a text without a manifest is a
    finding."""
    place, faults = folder_in(trial, "unread"), Faults()
    os.mkdir(os.path.join(place, "folder"))
    os.symlink("nothing", os.path.join(place, "link"))
    with open(os.path.join(place, "long.json"), "wb") as made:
        made.truncate(20_000_000)
    write(os.path.join(place, "empty.yaml"), "")
    for name in ("nothing", "folder", "link", "long.json", "nothing/here", "empty.yaml/here"):
        for words in ([name], [example(trial), name], ["--json", name], ["--out", "new", name]):
            with faults:
                expect(f"argo {words}", tuple(run(trial.program, ["argo", *words], cwd=place)),
                       cannot_read(name))
    with faults:
        expect("what is made", os.path.lexists(os.path.join(place, "new")), False)
    with faults:
        done, seconds = timed(trial.program, ["argo", "-"], b" " * 20_000_000)
        expect("20 MB of input", tuple(done), cannot_read("-"))
        expect(f"20 MB of input in {seconds:.2f} seconds", seconds < 2, True)
    for row, text in (("nothing", b""), ("a comment", b"# nothing\n"), ("null", b"null"),
                      ("documents", b"---\n---\n")):
        with faults:
            expect(row, tuple(run(trial.program, ["argo", "-"], text)),
                   (1, f"-:1:1: {NOTHING}\n".encode(), b""))
    for row, text in (("no UTF-8", b"a: \xff"), ("no JSON", b'{"kind": Rollout'),
                      ("no YAML", b"a: [b"), ("a byte more", b"#" * (MOST_YAML + 1))):
        with faults:
            done = run(trial.program, ["argo", "-"], text)
            expect(row, (done.status, done.output.count(b"\n"), done.output[:2], done.errors),
                   (1, 1, b"-:", b""))
    faults.end()
    return "36 files and texts"


def try_long(trial):
    """16 MiB of JSON are read."""
    text = json.dumps(JOB).encode()
    done, seconds = timed(trial.program, ["argo", "-"], text + b" " * (MOST_FILE - len(text)))
    expect("16 MiB", (done.status, done.output), (0, b"template smoke\n  smoke\n"
                                                     b"    success: result == 1\n"))
    expect("a byte more", tuple(run(trial.program, ["argo", "-"],
                                    text + b" " * (MOST_FILE + 1 - len(text)))), cannot_read("-"))
    return f"16 MiB in {seconds:.2f} seconds of a processor"


# ---- streams

def want_closed(trial, file, closed, folder):
    """With these streams closed `argo` writes its files, unless its input is one of them; it shows
    what it can on the others, and reports what it cannot show."""
    program, *words = closing(closed, [trial.program, "argo", "--out", folder, file])
    with open(example(trial), "rb") as stdin:
        done = run(program, words, stdin=stdin)
    row = f"argo {os.path.basename(file)}, closed {closed}"
    is_unread = 0 in closed and file == "-"
    wanted = 1 if is_unread or 1 in closed else 0
    expect(row, done.status, wanted)
    if is_unread:
        expect(f"{row}: files", os.path.lexists(folder), False)
    else:
        want_files(trial, TAKEN[EXAMPLE], folder)
    expect(f"{row}: output", done.output.decode(), "" if wanted else TAKEN[EXAMPLE].text())
    if 2 not in closed:
        last = done.errors.decode().splitlines()[-1]
        expect(f"{row}: the last line of errors", last[:13], {
            0: "canary: warni", 1: "canary: file" if is_unread else "canary: write"}[wanted])


def try_closed(trial):
    """Each set of the three streams closed, and outputs that take nothing: what is written is
    whole, and no file takes the place of a stream."""
    place, faults = folder_in(trial, "closed"), Faults()
    for at, closed in enumerate(SUBSETS[1:]):
        for file in (example(trial), "-"):
            with faults:
                want_closed(trial, file, closed, os.path.join(place, f"{at}{len(file)}"))
    for row, output in (("/dev/full", "/dev/full"), ("a folder", place)):
        with faults:
            opened = os.open(output, os.O_RDONLY if row == "a folder" else os.O_WRONLY)
            done = run(trial.program, ["argo", example(trial)], stdout=opened)
            os.close(opened)
            expect(f"to {row}", (done.status, done.errors.endswith(b"canary: write\n")), (1, True))
    with faults:
        with open("/dev/full", "wb") as full:
            done = run(trial.program, ["argo", example(trial)], stderr=full)
        expect("errors to /dev/full", (done.status, done.output.decode()),
               (0, TAKEN[EXAMPLE].text()))
    faults.end()
    return f"{2 * len(SUBSETS[1:]) + 3} sets of streams"


# ---- control characters

def marked(*front):
    return "".join([*front, *map(chr, MARKS)])


def want_clean(row, done):
    """Neither stream has a control character or a mark of direction, but ends of lines."""
    for name, text in (("output", done.output), ("errors", done.errors)):
        found = sorted({f"U+{ord(letter):04X}" for letter in text.decode()
                        if ord(letter) in MARKS and letter != "\n"})
        expect(f"{row}: marks in its {name}", found, [])


def with_member(value, path, member):
    """A copy of a value with something else at a path."""
    copy = json.loads(json.dumps(value))
    at = copy
    for key in path[:-1]:
        at = at[key]
    at[path[-1]] = member
    return copy


def manifests_with(text):
    """Manifests with that text at each place, each with the name of the place."""
    web = {"kind": "AnalysisTemplate", "metadata": {"name": "t"}, "spec": {
        "args": [{"name": "a", "value": "1"}, {"name": "b"}], "dryRun": [{"metricName": "m"}],
        "metrics": [{"name": "m", "successCondition": "result > {{args.a}}", "interval": "1s",
                     "provider": {"web": {"url": "http://any/{{args.b}}"}}}]}}
    use = {"kind": "Rollout", "metadata": {"name": "s"}, "spec": {"strategy": {"canary": {
        "steps": [{"setWeight": 1}, {"analysis": {
            "templates": [{"templateName": "t"}], "args": [{"name": "b", "value": "x"}]}}]}}}}
    metric, canary = ("spec", "metrics", 0), ("spec", "strategy", "canary")
    rows = (
        (0, ("kind",)), (0, ("metadata", "name")), (0, ("apiVersion",)), (0, (*metric, "name")),
        (0, (*metric, "successCondition")), (0, (*metric, "failureCondition")),
        (0, (*metric, "interval")), (0, (*metric, "count")), (0, ("spec", "args", 0, "name")),
        (0, ("spec", "args", 0, "value")), (0, ("spec", "dryRun", 0, "metricName")),
        (0, (*metric, "provider")), (0, (*metric, "provider", "web", "url")),
        (1, ("kind",)), (1, ("metadata", "name")), (1, (*canary, "steps", 0, text)),
        (1, (*canary, "steps", 0, "setWeight")),
        (1, (*canary, "steps", 1, "analysis", "templates", 0, "templateName")),
        (1, (*canary, "steps", 1, "analysis", "args", 0, "value")),
        (1, (*canary, "steps", 1, "analysis", "args", 0, "name")),
        (1, (*canary, "steps", 1, "analysis", text)),
    )
    for at, path in rows:
        items = [web, use]
        items[at] = with_member(items[at], path, text)
        yield ".".join("TEXT" if it == text else str(it) for it in path), listed(*items)
    yield "a provider's key", listed(
        with_member(web, (*metric, "provider"), {text: {"query": "{{args.b}}"}}), use)
    yield "an argument's place", listed(
        with_member(web, (*metric, "successCondition"), f"result > {{{{args.{text}}}}}"), use)
    yield "a field", listed(web, with_member(
        use, (*canary, "steps", 1, "analysis", "args", 0), {
            "name": "b", "valueFrom": {"fieldRef": {"fieldPath": text}}}))
    yield "a key", listed({**web, text: 1}, {**use, text: {text: text}})


def try_control_characters(trial):
    """Control characters and marks of direction in names and texts of manifests, and in names of
    files, are shown escaped, or not at all."""
    faults, count = Faults(), 0
    for text in (marked("a"), marked("a", "b "), "\x1b[31mred", "\u202eabc", "a\rb"):
        for row, manifest in manifests_with(text):
            count += 1
            with faults:
                done = run(trial.program, ["argo", "-"], manifest.encode())
                expect(f"{text[:9]!r} as {row}: its status", done.status in (0, 1), True)
                want_clean(f"{text[:9]!r} as {row}", done)
    place = folder_in(trial, "marks")
    name = marked("file")[:80].replace("\0", "")
    write(os.path.join(place, name), "a: b: c")
    for words in ([name], [name + "x"]):
        with faults:
            done = run(trial.program, ["argo", *words], cwd=place)
            expect("a file's name", done.status, 1)
            want_clean("a file's name", done)
    faults.end()
    return f"{count + 2} places"
