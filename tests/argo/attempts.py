"""What `canary argo` finds of manifests that a desk takes and whose starts it refuses, and what it
warns of: by hand, and as a desk and `canary check` say it."""
import json
import os

from asked import Faults, expect, folder_in, run, write
from inputs import listed
from story_words import B, put, replies

STEPS, BESIDE = "spec.strategy.canary.steps", "spec.strategy.canary.analysis"
ONCE = "expected metrics of different names (the desk refuses each start: duplicate-metric)"
ENDLESS = ("expected metrics that end, since the step waits for them (the desk refuses each start: "
           "endless-metric)")
MANY = ("expected templates with 32 metrics at most, together (the desk refuses each start: "
        "bad-strategy)")


def metric(name, **more):
    return {"name": name, "successCondition": "result > 1", **more}


def template(name, *metrics, **more):
    return {"kind": "AnalysisTemplate", "metadata": {"name": name},
            "spec": {"metrics": list(metrics), **more}}


def analysis(*templates):
    return {"templates": [{"templateName": name} for name in templates]}


def step(*templates):
    return {"analysis": analysis(*templates)}


def rollout(name, *steps, spec=None, beside=None):
    canary = {"steps": list(steps)} | ({"analysis": beside} if beside else {})
    return {"kind": "Rollout", "metadata": {"name": name},
            "spec": {**(spec or {}), "strategy": {"canary": canary}}}


def numbered(front, count):
    return [metric(f"{front}{at}") for at in range(count)]


def other_name(name, first, second):
    return f"{ONCE}\n    instead: give {name} another name in {second} than in {first}"


def with_end(name, template_name):
    return f"{ENDLESS}\n    instead: give {name} in {template_name} a count, or passAfter"


T, U = template("t", metric("m")), template("u", metric("n"), metric("m"))
V = template("v", metric("m", interval="1m"))
W = template("w", metric("a", interval="1m"), metric("b", interval="1m", count=2),
             metric("c", interval="1m", passAfter=2), metric("d"), metric("e", interval="5s"),
             dryRun=[{"metricName": "e"}])
PAUSE = {"pause": {}}
# Templates, the Rollout, what a desk answers to its start, and what argo finds there.
ROWS = {
    "one name in two templates of a step": (
        [T, U], rollout("web", PAUSE, step("t", "u")), "duplicate-metric",
        [(f"{STEPS}[1].analysis", other_name("m", "t", "u"))]),
    "the same, beside the steps": (
        [T, U], rollout("web", PAUSE, beside=analysis("u", "t")), "duplicate-metric",
        [(BESIDE, other_name("m", "u", "t"))]),
    "one name in three templates": (
        [T, U, V], rollout("web", PAUSE, beside=analysis("t", "u", "v")), "duplicate-metric",
        [(BESIDE, other_name("m", "t", "u")), (BESIDE, other_name("m", "t", "v"))]),
    "one name in two analyses": (
        [T, U], rollout("web", step("t"), step("u"), beside=analysis("u")), "ok", []),
    "a metric of a step without end": (
        [V], rollout("web", PAUSE, PAUSE, step("v")), "endless-metric",
        [(f"{STEPS}[2].analysis", with_end("m", "v"))]),
    "one beside the steps": ([V], rollout("web", PAUSE, beside=analysis("v")), "ok", []),
    "metrics with an end, and dry runs": (
        [W], rollout("web", step("w"), PAUSE, step("w")), "endless-metric",
        [(f"{STEPS}[{at}].analysis", with_end(name, "w")) for at in (0, 2) for name in "ae"]),
    "no endless metric": (
        [template("w", *W["spec"]["metrics"][1:4])], rollout("web", step("w")), "ok", []),
    "one name, without end": (
        [T, V], rollout("web", step("t", "v")), "duplicate-metric",
        [(f"{STEPS}[0].analysis", other_name("m", "t", "v")),
         (f"{STEPS}[0].analysis", with_end("m", "v"))]),
    "32 metrics": (
        [template("x", *numbered("x", 20)), template("y", *numbered("y", 12))],
        rollout("web", step("x", "y")), "ok", []),
    "33 metrics": (
        [template("x", *numbered("x", 20)), template("y", *numbered("y", 13))],
        rollout("web", step("x", "y"), beside=analysis("y", "x")), "bad-strategy",
        [(f"{STEPS}[0].analysis", MANY), (BESIDE, MANY)]),
}


def told(trial, place, text):
    """What `argo --json` says of a file, and its status."""
    write(os.path.join(place, "list.json"), text)
    done = run(trial.program, ["argo", "--json", "list.json"], cwd=place)
    expect("argo --json: errors", done.errors, b"")
    return done.status, json.loads(done.output)


def in_list(found, at):
    """The paths in an item of a List and the texts of what is found there."""
    front = f"items[{at}]."
    return [(it["path"].removeprefix(front), it["text"]) for it in found
            if it["path"].startswith(front)]


def started(trial, templates, service):
    """The code of a desk's answer to a start, once it has these manifests."""
    bodies = [{"template": it} for it in templates]
    bodies += [{"service": {"version": "v1", "manifest": service}},
               {"start": {"service": service["metadata"]["name"], "version": "v2"}}]
    asked = [put("ops", at, json.dumps(it).encode()) for at, it in enumerate(bodies, 1)]
    done = run(trial.program, ["pipe", "--at", str(B), "--step", "1"], b"".join(asked))
    *taken, last = replies(done.output)
    expect("the manifests", [status for status, _, _ in taken], [200] * (len(bodies) - 1))
    return json.loads(last[1])["code"]


def try_attempts(trial):
    """Argo finds in manifests just what a desk refuses as a release starts."""
    place, faults = folder_in(trial, "attempts"), Faults()
    for row, (templates, service, code, wanted) in ROWS.items():
        with faults:
            expect(f"{row}: a desk", started(trial, templates, service), code)
        with faults:
            status, found = told(trial, place, listed(*templates, service))
            expect(row, (status, in_list(found["findings"], len(templates))),
                   (1 if wanted else 0, wanted))
            expect(f"{row}: what else is found", len(found["findings"]), len(wanted))
            expect(f"{row}: what is made", [it["metadata"]["name"] for it in found["services"]],
                   [] if wanted else ["web"])
    faults.end()
    return f"{len(ROWS)} Rollouts"


IN_YAML = """kind: AnalysisTemplate
metadata: {name: latency}
spec:
  args:
  - name: limit
  metrics:
  - name: p99
    interval: 1m
    successCondition: result[0] < {{args.limit}} || isNaN(result[0])
    provider: {prometheus: {query: up}}
---
kind: Rollout
metadata: {name: cart}
spec:
  strategy:
    canary:
      steps:
      - setWeight: 10
      - analysis:
          templates: [{templateName: latency}]
          args: [{name: limit, value: 0.5}]
"""


def try_attempt_in_yaml(trial):
    """The line and the column of an analysis in YAML, with the names of the translation."""
    done = run(trial.program, ["argo", "-"], IN_YAML.encode())
    wanted = f"-:20:11: {STEPS}[1].analysis: {with_end('p99.e6nf', 'latency-for-cart')}\n"
    expect("an analysis in YAML", (done.status, done.output.decode(), done.errors),
           (1, wanted, b""))
    return "1 analysis"


# ---- warnings

IN_A_ROW = ("a setWeight directly after another: no time passes at weight 10: put a pause or an "
            "analysis step between them, or leave the first out")
NO_DEADLINE = ("the desk ignores it, and has no deadline: have a job look for late measurements, "
               "and abort")
NO_PODS = ("the desk ignores it, and waits for no pods: put a pause before the first analysis, or "
           "start once the pods are ready")
NO_STEPS = ("no step waits for anybody: a version reaches 100 % even if nothing is measured: put a "
            "setWeight, and an analysis step, or pause: {}, after it")
# A manifest, and what is warned of it.
WARNED = {
    "nothing": (rollout("web", {"setWeight": 10}, PAUSE), []),
    "no step": (rollout("web"), [(STEPS, NO_STEPS)]),
    "weights in a row": (
        rollout("web", {"setWeight": 10}, {"setWeight": 20}, PAUSE), [(f"{STEPS}[1]", IN_A_ROW)]),
    "members that are left out": (
        rollout("web", {"setWeight": 10}, PAUSE,
                spec={"minReadySeconds": 30, "progressDeadlineSeconds": 600, "replicas": 5}),
        [("spec.minReadySeconds", NO_PODS), ("spec.progressDeadlineSeconds", NO_DEADLINE)]),
    "a metric without a condition": (
        template("t", metric("m"), {"name": "n"}),
        [("spec.metrics[1]", '(metric "n"): no condition, so each result is Successful')]),
}


def checked(trial, place, manifest):
    """The warnings of `check`, without the places of metrics in them."""
    file = write(os.path.join(place, "manifest.json"), json.dumps(manifest))
    done = run(trial.program, ["check", file])
    expect("check", (done.status, done.output), (0, b"ok\n"))
    return [line.removeprefix("canary: warning: ") for line in done.errors.decode().splitlines()]


def try_warnings(trial):
    """Argo warns of what `check` warns of, with file, line and column, and finds nothing in it."""
    place, faults = folder_in(trial, "warnings"), Faults()
    for row, (manifest, wanted) in WARNED.items():
        with faults:
            lines = [line.replace(" (", ": (") for line in checked(trial, place, manifest)]
            expect(f"{row}: by check", sorted(lines),
                   sorted(f"{path}: {text}" for path, text in wanted))
        with faults:
            status, found = told(trial, place, listed(manifest))
            expect(row, (status, sorted(in_list(found["warnings"], 0))), (0, sorted(wanted)))
        with faults:
            done = run(trial.program, ["argo", "list.json"], cwd=place)
            front = "canary: warning: list.json:"
            lines = [line for line in done.errors.decode().splitlines() if line.startswith(front)]
            expect(f"{row}: in lines", (done.status, sorted(
                line.split(": ", 3)[3] for line in lines)), (0, sorted(
                    f"items[0].{path}: {text}" for path, text in wanted)))
    with faults:
        manifest = rollout("web", PAUSE, {"setCanaryScale": {}}, spec={"minReadySeconds": 30})
        text = json.dumps(manifest)
        done = run(trial.program, ["argo", "-"], text.encode())
        wanted = f"canary: warning: -:1:{text.index('30') + 1}: spec.minReadySeconds: {NO_PODS}\n"
        expect("beside a finding", (done.status, done.errors.decode()), (1, wanted))
    faults.end()
    return f"{len(WARNED) + 1} manifests"
