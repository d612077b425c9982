"""Members that Argo Rollouts has, misspelt ones and odd ones: which of them `canary argo` warns
of. The names are those of Argo's documentation and of its definitions."""
import json

from asked import Faults, expect, run
from inputs import listed, want_clean

FRONT = "canary: warning: "
UNKNOWN, IGNORED = "unknown field", "unknown field: it is ignored"
ARGUMENTS = ["name", "value", "valueFrom"]
ANALYSIS = ["templates", "args", "dryRun", "measurementRetention", "analysisRunMetadata"]
NAMED = ["templateName", "clusterScope"]
CANARY = "spec.strategy.canary"
STEP = f"{CANARY}.steps[2].analysis"
# The members at each place that is looked at: of a template, and of a Rollout.
OF_TEMPLATE = {
    "spec": ["metrics", "args", "dryRun", "measurementRetention", "templates"],
    "spec.metrics[0]": [
        "name", "provider", "interval", "initialDelay", "count", "successCondition",
        "failureCondition", "failureLimit", "inconclusiveLimit", "consecutiveErrorLimit",
        "consecutiveSuccessLimit"],
    "spec.args[0]": ARGUMENTS,
}
OF_ROLLOUT = {
    "spec.strategy": ["canary", "blueGreen"],
    CANARY: [
        "steps", "analysis", "canaryService", "stableService", "canaryMetadata", "stableMetadata",
        "trafficRouting", "pingPong", "maxSurge", "maxUnavailable", "minPodsPerReplicaSet",
        "antiAffinity", "dynamicStableScale", "scaleDownDelaySeconds",
        "scaleDownDelayRevisionLimit", "abortScaleDownDelaySeconds"],
    f"{CANARY}.steps[0]": [
        "setWeight", "pause", "analysis", "experiment", "setCanaryScale", "setHeaderRoute",
        "setMirrorRoute", "plugin"],
    f"{CANARY}.steps[1].pause": ["duration"],
    STEP: ANALYSIS,
    f"{STEP}.templates[0]": NAMED,
    f"{STEP}.args[0]": ARGUMENTS,
    f"{CANARY}.analysis": [*ANALYSIS, "startingStep"],
    f"{CANARY}.analysis.templates[0]": NAMED,
    f"{CANARY}.analysis.args[0]": ARGUMENTS,
}
# Members below those, and of places that are not looked at. Argo knows no `x` anywhere.
ANYTHING = {"x": {"y": [1]}}
PROVIDERS = {
    "prometheus": {"address": "http://p:9090", "query": "up", "timeout": 40, "insecure": False,
                   "headers": [{"key": "a", "value": "b"}], "rangeQuery": {"start": "a"},
                   "authentication": {"sigv4": {"region": "r"}, "oauth2": {"tokenUrl": "u"}}},
    "datadog": {"apiVersion": "v2", "interval": "5m", "query": "q", "queries": {"a": "b"},
                "formula": "a", "aggregator": "last", "secretRef": {"name": "s"}},
    "newRelic": {"profile": "p", "query": "q", "timeout": 30},
    "wavefront": {"address": "a", "query": "q"},
    "web": {"url": "u", "method": "GET", "headers": [], "timeoutSeconds": 20, "jsonPath": "{$.a}",
            "jsonBody": {"a": 1}, "body": "b", "insecure": False, "authentication": {}},
    "job": {"metadata": {}, "spec": {"template": {}}},
    "kayenta": {"address": "a", "application": "b", "scopes": [{"name": "c"}]},
    "cloudWatch": {"interval": "30m", "metricDataQueries": [{"id": "r"}]},
    "graphite": {"address": "a", "query": "q"},
    "influxdb": {"profile": "p", "query": "q"},
    "skywalking": {"address": "a", "query": "q", "interval": "5m"},
    "plugin": {"argoproj-labs/metrics": {"address": "a"}},
    "x": ANYTHING,
}
SPEC = {
    "replicas": 5, "selector": {"matchLabels": {"app": "a"}}, "template": ANYTHING,
    "workloadRef": {"apiVersion": "apps/v1", "kind": "Deployment", "name": "a",
                    "scaleDown": "never"},
    "minReadySeconds": 30, "revisionHistoryLimit": 3, "progressDeadlineSeconds": 600,
    "progressDeadlineAbort": False, "restartAt": "2020-03-30T21:19:35Z",
    "rollbackWindow": {"revisions": 3},
    "analysis": {"successfulRunHistoryLimit": 10, "unsuccessfulRunHistoryLimit": 10},
    "x": ANYTHING,
}
IN_CANARY = {
    "canaryService": "c", "stableService": "s", "canaryMetadata": {"labels": {"role": "canary"}},
    "stableMetadata": {"annotations": {"role": "stable"}}, "maxSurge": "20%", "maxUnavailable": 1,
    "minPodsPerReplicaSet": 2, "dynamicStableScale": True, "scaleDownDelaySeconds": 30,
    "scaleDownDelayRevisionLimit": 2, "abortScaleDownDelaySeconds": 30,
    "pingPong": {"pingService": "a", "pongService": "b", "x": ANYTHING},
    "antiAffinity": {"requiredDuringSchedulingIgnoredDuringExecution": {}, "x": ANYTHING},
    "trafficRouting": {
        "managedRoutes": [{"name": "a"}], "maxTrafficWeight": 1000, "istio": {"virtualService": {}},
        "nginx": {"stableIngress": "i"}, "alb": {}, "smi": {}, "ambassador": {}, "traefik": {},
        "appMesh": {}, "apisix": {}, "plugins": {}, "x": ANYTHING},
}
OTHER_STEPS = [
    {"setCanaryScale": {"replicas": 1, "weight": 2, "matchTrafficWeight": True, "x": ANYTHING}},
    {"setHeaderRoute": {"name": "a", "match": [{"headerName": "b", "headerValue": {}}]}},
    {"setMirrorRoute": {"name": "a", "percentage": 10, "match": [], "x": ANYTHING}},
    {"experiment": {"duration": "1h", "templates": [], "analyses": [], "x": ANYTHING}},
    {"plugin": {"name": "a", "config": ANYTHING}},
    {"pause": {"duration": 10}}, {"pause": {"duration": "1h"}}, {"pause": {}}, {"pause": None},
]
# Where a value of an argument comes from, and what of a measurement is kept.
SOURCES = [{"secretKeyRef": {"name": "s", "key": "k"}}, {"podTemplateHashValue": "Latest"},
           {"fieldRef": {"fieldPath": "metadata.labels['a']"}}, ANYTHING]
KEPT = {"dryRun": [{"metricName": ".*", "x": 1}],
        "measurementRetention": [{"metricName": ".*", "limit": 20, "x": 1}]}


def template():
    return {"kind": "AnalysisTemplate", "metadata": {"name": "t"}, "spec": {
        "args": [{"name": "a", "value": "1"}],
        "metrics": [{"name": "m", "successCondition": "result > 1",
                     "provider": {"web": {"url": "http://any/"}}}]}}


def rollout():
    use = {"templates": [{"templateName": "t"}], "args": [{"name": "a", "value": "1"}]}
    steps = [{"setWeight": 5}, {"pause": {}}, {"analysis": use}]
    return {"kind": "Rollout", "metadata": {"name": "web"},
            "spec": {"strategy": {"canary": {"steps": steps, "analysis": use}}}}


def manifests():
    """New ones: a template, and a Rollout that has an analysis in a step and beside the steps."""
    return json.loads(json.dumps([template(), rollout()]))


def part_at(value, path):
    """The part of a manifest that a path leads to."""
    for key in path.replace("[", ".").replace("]", "").split("."):
        value = value[int(key) if key.isdigit() else key]
    return value


PLACES = [(item, path, names) for item, places in enumerate((OF_TEMPLATE, OF_ROLLOUT))
          for path, names in places.items()]


def warnings_of(trial, text):
    """What is warned of in a file, in JSON, but for what `check` warns of."""
    found = json.loads(run(trial.program, ["argo", "--json", "-"], text).output)
    return [(it["path"], it["text"]) for it in found["warnings"] if it["text"].startswith(UNKNOWN)]


def documents(items):
    """A text with these manifests, one after the other."""
    return "".join(f"---\n{json.dumps(it, ensure_ascii=False)}\n" for it in items)


def warned(trial, items):
    return warnings_of(trial, documents(items).encode())


# ---- members of Argo

def full_analysis(**more):
    arguments = [{"name": f"a{at}", "valueFrom": it} for at, it in enumerate(SOURCES)]
    return {"templates": [{"templateName": "t", "clusterScope": False}], "args": arguments,
            "analysisRunMetadata": {"labels": {}, "x": ANYTHING}, **KEPT, **more}


def full_template():
    limits = {name: 3 for name in OF_TEMPLATE["spec.metrics[0]"] if name.endswith("Limit")}
    times = {"interval": "5m", "initialDelay": "1m", "count": 5, "successCondition": "result > 1",
             "failureCondition": "result < 0", **limits}
    metrics = [{"name": f"m{at}", "provider": {kind: PROVIDERS[kind]}, **times}
               for at, kind in enumerate(PROVIDERS)]
    arguments = [{"name": "a", "value": "1"}, *full_analysis()["args"]]
    return {"apiVersion": "argoproj.io/v1alpha1", "kind": "AnalysisTemplate",
            "metadata": {"name": "t", "labels": {}, "x": ANYTHING}, "status": ANYTHING,
            "spec": {"args": arguments, "metrics": metrics, "templates": [], **KEPT}}


def full_rollout():
    steps = [{"setWeight": 5}, {"analysis": full_analysis()}, *OTHER_STEPS]
    canary = {"steps": steps, "analysis": full_analysis(startingStep=2), **IN_CANARY}
    return {"apiVersion": "argoproj.io/v1alpha1", "kind": "Rollout",
            "metadata": {"name": "web", "annotations": {}, "x": ANYTHING}, "status": ANYTHING,
            "spec": {**SPEC, "strategy": {"canary": canary, "blueGreen": {
                "activeService": "a", "prePromotionAnalysis": full_analysis(), "x": ANYTHING}}}}


def try_known_members(trial):
    """Argo's members, all of them at once, and one at a time with null: no warning."""
    faults, count = Faults(), 0
    with faults:
        expect("all at once", warned(trial, [full_template(), full_rollout()]), [])
    for item, path, names in PLACES:
        for name in names:
            items, count = manifests(), count + 1
            part_at(items[item], path).setdefault(name, None)
            with faults:
                expect(f"{path}.{name}", warned(trial, items), [])
    with faults:
        items = manifests()
        part_at(items[0], "spec.metrics[0]")["passAfter"] = 2
        expect("the desk's own one", warned(trial, items), [])
    faults.end()
    return f"{count} members"


# ---- misspelt ones

def misspellings(name):
    """How a name is misspelt, in one letter or two."""
    middle, first = len(name) // 2, next((at for at, it in enumerate(name) if it.isupper()), None)
    made = [name + "s", name[:-1], f"{name[:middle]}{name[middle]}{name[middle:]}",
            name[:-2] + name[-1] + name[-2], name[1:], name[:1].upper() + name[1:], f"{name}ed",
            f"x{name[1:-1]}x"]
    if first is not None:
        made.append(f"{name[:first]}{name[first].lower()}{name[first + 1:]}")
        made.append(f"{name[:first]}_{name[first].lower()}{name[first + 1:]}")
    return made


def want_misspelt(trial, item, path, name):
    """Each misspelling of a name beside what stands there: its line asks for that name."""
    made = misspellings(name)
    items = manifests()
    part_at(items[item], path).update(dict.fromkeys(made, 1))
    what = UNKNOWN if path.endswith("steps[0]") else IGNORED
    expect(f"{path}.{name}", sorted(warned(trial, items)),
           sorted((f"{path}.{it}", f"{what}; did you mean {name}?") for it in made))
    return len(made)


def want_others(trial, item, path):
    """Names that are three letters away from any: their lines ask for none."""
    names = ["xyz", "x" * 30, "é", "ÄÖÜ", "spec", "status"]
    items = manifests()
    part_at(items[item], path).update(dict.fromkeys(names, 1))
    what = UNKNOWN if path.endswith("steps[0]") else IGNORED
    expect(f"{path}: others", sorted(warned(trial, items)),
           sorted((f"{path}.{it}", what) for it in names))


def try_misspelt_members(trial):
    """Each of Argo's members misspelt, at each place that is looked at; and other names there."""
    faults, count = Faults(), 0
    for item, path, names in PLACES:
        for name in names:
            with faults:
                count += want_misspelt(trial, item, path, name)
        with faults:
            want_others(trial, item, path)
    faults.end()
    return f"{count} misspellings"


def try_members_in_list(trial):
    """A member that Argo does not know, at each place of a manifest in a List: its path, and the
    line and the column of what it has."""
    faults = Faults()
    for item, path, _ in PLACES:
        items = manifests()
        part_at(items[item], path)["xyz"] = 987
        text = listed(*items)
        front = text[:text.index("987")]
        line, column = front.count("\n") + 1, len(front) - front.rfind("\n")
        with faults:
            found = json.loads(run(trial.program, ["argo", "--json", "-"], text.encode()).output)
            expect(path, [(it["path"], it["line"], it["column"]) for it in found["warnings"]],
                   [(f"items[{item}].{path}.xyz", line, column)])
    faults.end()
    return f"{len(PLACES)} places"


# ---- odd ones

ODD = {
    "a control": "\x1b[31mx", "an end of a line": "a\r\nb", "zero": "\0", "a mark": "\u202eab",
    "letters": "größe", "beyond the plane": "\U0001d538xyz", "a quote": '"', "a blank": " ",
    "a point": "a.b", "brackets": "[7].b", "long": "n" * 10_000, "long and wide": "ß" * 10_000}


def want_odd(trial, row, name, items):
    """One line, in which nothing commands a terminal, and the translation is as ever."""
    for kind, text in (("JSON", listed(*items)), ("YAML", documents(items))):
        done = run(trial.program, ["argo", "-"], text.encode())
        expect(f"{row} in {kind}: its status", done.status, 0)
        want_clean(f"{row} in {kind}", done)
        lines = [it for it in done.errors.decode().split("\n") if UNKNOWN in it]
        expect(f"{row} in {kind}: lines", [it.split(": ", 3)[-1].split(": ", 1)[-1]
                                           for it in lines], [IGNORED])
        expect(f"{row} in {kind}: their length", len(lines[0]) < 6 * len(name) + 200, True)
        expect(f"{row} in {kind}: in JSON", [it[1] for it in warnings_of(trial, text.encode())],
               [IGNORED])


def try_odd_members(trial):
    """A member with an odd name at some places: one line, at status 0, also in JSON."""
    faults = Faults()
    for row, name in ODD.items():
        for item, path in ((0, "spec"), (0, "spec.metrics[0]"), (1, CANARY)):
            items = manifests()
            part_at(items[item], path)[name] = 1
            with faults:
                want_odd(trial, f"{row} in {path}", name, items)
    want_nameless_or_twice(trial, faults)
    faults.end()
    return f"{len(ODD) + 2} names"


def want_nameless_or_twice(trial, faults):
    """A member without a name is warned of once. A name twice is one member in JSON, the last one,
    and is found in YAML."""
    for item, path, _ in PLACES:
        items = manifests()
        part_at(items[item], path)[""] = 1
        with faults:
            what = UNKNOWN if path.endswith("steps[0]") else IGNORED
            expect(f"no name in {path}", warned(trial, items), [(f'{path}.""', what)])
    text = listed(template()).replace('"args":', '"metric": 1, "metric": 2, "args":')
    with faults:
        expect("a name twice", warnings_of(trial, text.encode()),
               [("items[0].spec.metric", f"{IGNORED}; did you mean metrics?")])
    with faults:
        done = run(trial.program, ["argo", "-"], f"---\n{text}".encode())
        expect("a name twice in YAML", (done.status, done.errors, done.output.count(b"\n"),
                                        b"a key that this mapping has already" in done.output),
               (1, b"", 1, True))


# ---- many

def lines_of(trial, items):
    """The status, and the warnings in lines."""
    done = run(trial.program, ["argo", "-"], listed(*items).encode())
    return done.status, [it for it in done.errors.decode().splitlines() if it.startswith(FRONT)]


def with_unknown(count, spec=()):
    """A template, and a Rollout with so many members that Argo does not know."""
    items = manifests()
    part_at(items[1], CANARY).update({f"unknown{at}": 1 for at in range(count)})
    items[1]["spec"].update(spec)
    return items


def try_many_warnings(trial):
    """A hundred warnings are shown, of one manifest or of several, and the others are counted."""
    faults = Faults()
    checked = {"minReadySeconds": 1, "progressDeadlineSeconds": 1}
    several = [{**template(), "metadata": {"name": f"t{at}"}, "y": 1} for at in range(60)]
    for at, it in enumerate(several):
        it["spec"].update({"y": at, "z": at})
    for row, items, shown, more in (
            ("none", with_unknown(0), 0, 0), ("100", with_unknown(100), 100, 0),
            ("101", with_unknown(101), 100, 1), ("150", with_unknown(150), 100, 50),
            ("a thousand", with_unknown(1000), 100, 900),
            ("of several", several, 100, 20),
            ("with those of `check`", with_unknown(99, checked), 100, 1),
            ("before those of `check`", with_unknown(150, checked), 100, 52)):
        with faults:
            status, lines = lines_of(trial, items)
            last = [f"{FRONT}and {more} more"] if more else []
            expect(row, (status, len(lines), lines[shown:]), (0, shown + len(last), last))
        with faults:
            done = run(trial.program, ["argo", "--json", "-"], listed(*items).encode())
            expect(f"{row}: in JSON", (done.status, done.errors,
                                       len(json.loads(done.output)["warnings"])), (0, b"", shown))
    faults.end()
    return "8 counts"
