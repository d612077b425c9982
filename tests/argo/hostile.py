"""Changed and hostile manifests: each is answered within a second of a quiet machine's processor,
at status 0 or 1, by lines that are whole, and never in silence."""
import json
import os
import random
import re

from asked import Faults, Wrong, expect, read, slowness, timed
from inputs import JOB, listed

CHANGED, WITHIN = 400, 1.0
MOST = 2 ** 20
NO_JSON, TOO_DEEP = "no JSON from here on", "nested more than 127 deep"
FINDING = re.compile(r"-:[1-9][0-9]*:[1-9][0-9]*: \S.*|    .*|and [1-9][0-9]* more")
# What is put into an example, or takes the place of a part of it.
PIECES = [b"\n", b"\n\n", b"---\n", b": ", b"- ", b"  ", b"{", b"}", b"[", b"]", b'"', b"'", b"|\n",
          b">\n", b"#", b"&a ", b"*a", b"!!str ", b"? ", b"\t", b"\0", b"\xff", b"\xe2\x80\xae",
          b"null", b"{{args.", b"}}", b"result", b"result[0]", b" && ", b"!", b"(", b")", b"0.95",
          b"999999999999999", b"1e9", b"-", b"0x", b"_", b"asInt(", b"isInf(", b"default(", b", 0)",
          b"kind: Rollout\n", b"templates:\n", b"spec:\n"]


def changed(rng, text):
    """A text with some changes, each at a random place."""
    for _ in range(rng.randint(1, 6)):
        at, kind = rng.randrange(len(text) + 1), rng.randrange(5)
        end = min(len(text), at + rng.choice([1, 1, 2, 5, 20, 80]))
        if kind == 0:
            text = text[:at] + rng.choice(PIECES) + text[at:]
        elif kind == 1:
            text = text[:at] + text[end:]
        elif kind == 2:
            text = text[:at] + rng.choice(PIECES) + text[end:]
        elif kind == 3:
            text = text[:end] + text[at:]
        else:
            lines = text.split(b"\n")
            first, other = (rng.randrange(len(lines)) for _ in range(2))
            lines[first], lines[other] = lines[other], lines[first]
            text = b"\n".join(lines)
    return text


def want_answered(trial, row, text):
    """The status, the seconds, and the lines; each line of what is found has its place."""
    done, seconds = timed(trial.program, ["argo", "-"], text)
    for _ in range(2 if seconds > WITHIN else 0):
        again = timed(trial.program, ["argo", "-"], text)[1] / slowness()
        seconds = min(seconds, again)
    if done.status not in (0, 1):
        raise Wrong(f"{row}: status {done.status}: {done.errors[-300:]}")
    if seconds > WITHIN:
        raise Wrong(f"{row}: {seconds:.2f} seconds of a processor")
    expect(f"{row}: its input is read", b"cannot read" in done.errors, len(text) > 16 * MOST)
    if not done.output + done.errors:
        raise Wrong(f"{row}: status {done.status}, and not a word")
    lines = done.output.decode().split("\n")
    expect(f"{row}: whole lines", lines.pop(), "")
    odd = [line for line in lines if done.status and not FINDING.fullmatch(line)]
    expect(f"{row}: lines without a place", odd[:3], [])
    return done.status, seconds, lines


def try_changed(trial):
    """Examples that are changed at random."""
    rng, faults, statuses = random.Random(f"{trial.seed} changed"), Faults(), []
    names = sorted(name for name in os.listdir(trial.examples) if name.endswith(".yaml"))
    texts = [read(os.path.join(trial.examples, name)) for name in names]
    for _ in range(CHANGED):
        text = changed(rng, rng.choice(texts))
        with faults:
            statuses.append(want_answered(trial, repr(text)[:20000], text)[0])
    faults.end()
    expect("some are translated, and some are not", set(statuses), {0, 1})
    return f"{CHANGED} changed examples, {statuses.count(0)} of them translated"


# ---- hostile ones

def filled(piece, front="", end=""):
    """As many of the piece as a text of a million bytes has room for."""
    return front + piece * ((MOST - len(front) - len(end)) // len(piece)) + end


def analysis(name, metrics, args=()):
    return {"kind": "AnalysisTemplate", "metadata": {"name": name},
            "spec": {"args": list(args), "metrics": metrics}}


def metric(name="m", condition="result > 1", **more):
    return {"name": name, "successCondition": condition,
            "provider": {"web": {"url": "http://any/"}}, **more}


def uses(*names, service="s", args=()):
    templates = [{"templateName": name} for name in names]
    return {"kind": "Rollout", "metadata": {"name": service}, "spec": {"strategy": {"canary": {
        "analysis": {"templates": templates, "args": list(args)}}}}}


def of_condition(condition):
    return listed(analysis("t", [metric(condition=condition)]))


def nested(levels):
    """A manifest whose provider nests so deep that the whole does by so many levels."""
    inner = "[" * (levels - 6) + "]" * (levels - 6)
    return ('{"kind": "AnalysisTemplate", "metadata": {"name": "t"}, "spec": {"metrics": [{"name": '
            f'"m", "provider": {{"web": {{"a": {inner}}}}}}}]}}}}')


TEXTS = {
    "127 deep": lambda: nested(127),
    "128 deep": lambda: nested(128),
    "127 deep in YAML": lambda: "# YAML\n" + nested(127),
    "128 deep in YAML": lambda: "# YAML\n" + nested(128),
    "a million brackets": lambda: filled("["),
    "a million bytes of a name": lambda: listed(analysis(filled("n", end="n" * 200), [])),
    "a million bytes of a condition": lambda: of_condition(filled("x", "result > 1 || ", "")),
    "a million brackets of a condition": lambda: of_condition(filled("(")),
    "nots": lambda: of_condition(filled("not ")),
    "comparisons": lambda: of_condition(filled("result>1||", "", "result>1")),
    "blanks": lambda: of_condition(filled(" ", "result > ", "1")),
    "digits": lambda: of_condition(filled("1", "result > ")),
    "a long exponent": lambda: of_condition(filled("9", "result > 1e")),
    "a long exponent below 0": lambda: of_condition(filled("9", "result > 1e-")),
    "a great exponent": lambda: of_condition("result > 1e999999999 || result > 1e-999999999"),
    "zeros of an exponent": lambda: of_condition(filled("0", "result > 1e", "1")),
    "hexadecimal digits": lambda: of_condition(filled("F", "result > 0x")),
    "marks between digits": lambda: of_condition(filled("_", "result > 1", "0")),
    "values with a default": lambda: of_condition(
        filled("default(result,0)>1||", "", "default(result,0)>1")),
    "whole numbers": lambda: of_condition(filled("asInt(result)==1||", "", "asInt(result)==1")),
    "operands in brackets": lambda: of_condition(filled("(result)>(1)||", "", "(result)>(1)")),
    "zeros": lambda: of_condition(filled("0", "result > ", "1")),
    "places": lambda: of_condition("result > 1 || " + filled("{{args.a}} ")),
    "open places": lambda: of_condition(filled("{{args.")),
    "ends of places": lambda: of_condition(filled("}}")),
    "places in a query": lambda: listed(
        analysis("t", [metric(provider={"web": {"url": filled("{{args.a}}")}})], [
            {"name": "a", "value": "x"}]), uses("t")),
    "a long argument in many places": lambda: listed(
        analysis("t", [metric(provider={"web": {"url": "{{args.a}}" * 1000}})], [
            {"name": "a", "value": "x" * 8000}]), uses("t")),
    "arguments": lambda: listed(analysis("t", [metric(
        provider={"web": {"url": "{{args.a9999}}"}})], [
            {"name": f"a{at}", "value": "x"} for at in range(10000)]), uses("t")),
    "arguments, each in a place": lambda: listed(analysis("t", [metric(
        provider={"web": {"url": "".join(f"{{{{args.a{at}}}}}" for at in range(1000))}})], [
            {"name": f"a{at}", "value": "x"} for at in range(1000)]), uses("t")),
    "late arguments, each in a place": lambda: listed(analysis("t", [metric(
        provider={"web": {"url": "".join(f"{{{{args.a{at}}}}}" for at in range(1000))}})], [
            {"name": f"a{at}", "valueFrom": {"podTemplateHashValue": "Latest"}}
            for at in range(1000)]), uses("t")),
    "metrics": lambda: listed(analysis("t", [metric(f"m{at}") for at in range(5000)])),
    "metrics that are dry runs": lambda: listed({**analysis("t", []), "spec": {
        "metrics": [metric(f"m{at}") for at in range(1000)],
        "dryRun": [{"metricName": f"m{at}"} for at in range(1000)]}}),
    "templates": lambda: listed(*[analysis(f"t{at}", [metric()]) for at in range(3000)]),
    "templates and Rollouts": lambda: listed(*[it for at in range(1200) for it in (
        analysis(f"t{at}", [metric()]), uses(f"t{at}", service=f"s{at}"))]),
    "one template of many Rollouts": lambda: listed(
        analysis("t", [metric(condition="result > {{args.a}}")], [{"name": "a"}]), *[
            uses("t", service=f"s{at}", args=[{"name": "a", "value": str(at)}])
            for at in range(1500)]),
    "one template many times": lambda: listed(analysis("t", [metric()]), uses(*["t"] * 3000)),
    "a Rollout of many templates": lambda: listed(*[
        analysis(f"t{at}", [metric()]) for at in range(1000)], uses(*[
            f"t{at}" for at in range(1000)])),
    "steps": lambda: listed({"kind": "Rollout", "metadata": {"name": "s"}, "spec": {"strategy": {
        "canary": {"steps": [{"setWeight": 1}] * 20000}}}}),
    "misspelt members": lambda: listed({"kind": "Rollout", "metadata": {"name": "s"}, "spec": {
        "strategy": {"canary": {f"maxSurg{at}": 1 for at in range(50000)}}}}),
    "a misspelt member in each metric": lambda: listed(*[analysis(f"t{at}", [
        metric(f"m{to}", failureLimits=1) for to in range(30)]) for at in range(200)]),
    "a million bytes of a misspelt member": lambda: listed(analysis("t", [
        metric(**{filled("n", end="n" * 200): 1})])),
    "other kinds": lambda: listed(*[{"kind": f"K{at}"} for at in range(20000)]),
    "documents": lambda: filled("---\nkind: Rollout\n"),
    "documents of one template": lambda: filled("---\n" + json.dumps(JOB) + "\n"),
    "refused metrics": lambda: listed(*[analysis(f"t{at}", [
        metric(f"m{to}", "result > x") for to in range(30)]) for at in range(200)]),
    "a mapping in lines": lambda: "kind: Rollout\nspec:\n" + "".join(
        f"  k{at}: [{at}]\n" for at in range(59000)),
    "a refused line at the end": lambda: json_lines() + "---\nkind: Experiment\n",
}


# Of those that nest deep, what keeps them from being read.
UNREAD = {"127 deep": [], "128 deep": [NO_JSON], "127 deep in YAML": [],
          "128 deep in YAML": [TOO_DEEP], "a million brackets": [TOO_DEEP]}


def json_lines():
    """Templates that fill a file in YAML, with a metric each that is refused."""
    return "".join(f"---\nkind: AnalysisTemplate\nmetadata:\n  name: t{at}\nspec:\n  metrics:\n"
                   f"  - name: m\n    successCondition: result > x{at}\n"
                   "    provider: {web: {}}\n" for at in range(7000))


def try_hostile(trial):
    """Large and deep manifests."""
    faults, slowest = Faults(), (0, "")
    for row, make in TEXTS.items():
        with faults:
            text = make().encode()
            status, seconds, lines = want_answered(trial, f"{row}, {len(text)} bytes", text)
            slowest = max(slowest, (seconds, row))
            if row in UNREAD:
                why = [why for why in (NO_JSON, TOO_DEEP) if why in "\n".join(lines)]
                expect(f"{row}: what keeps it from being read", why, UNREAD[row])
                expect(f"{row}: its status", status >= bool(why), True)
    faults.end()
    return f"{len(TEXTS)} manifests, the slowest in {slowest[0]:.2f} seconds: {slowest[1]}"
