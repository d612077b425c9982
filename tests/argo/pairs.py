"""Random conditions of Argo Rollouts, translated by the program, and values that are reported to a
desk as the labels say: the phase in each reply is that of Argo's condition on the exact value."""
import collections
import json
import random
import time
from fractions import Fraction

import conditions
import doubles
import making
import mistakes
from asked import Wrong, run
from conditions import Meaning
from story_words import B, put, replies

METRICS, VALUES, TEMPLATES = 32, 8, 16
LIMIT, SECONDS, MOST_PAIRS = 1_000_000, 20, 100_000
PHASES = ("Error", "Failed", "Inconclusive", "Successful")
# Why Argo may say something else.
LONG = "differ from Argo by a decimal that is no shortest one"
FAILURE = "are failures here that Argo judges, as it does not look at what has no number"
PROCESSOR = "Argo leaves to the processor"
BESIDE_ARGO = (LONG, FAILURE, PROCESSOR)
# What the conditions and the values must have.
FUNCTIONS = ("asFloat", "asInt", "default", "isInf", "isNaN", "len")
FORMS = (*FUNCTIONS, "(result)", "(number)", "0x", "exponent", "point first", "_",
         *conditions.NUMBERS, "a text")
# Of the mistakes that are planted.
PLANTED_TEMPLATES, MOST_LOTS = 8, 6
MISTAKES = (*mistakes.MEANINGS, *mistakes.DECIMALS, *mistakes.WORDS)


# ---- Argo's manifests, and what the program makes of them

def template(name, metrics):
    return {"apiVersion": "argoproj.io/v1alpha1", "kind": "AnalysisTemplate",
            "metadata": {"name": name},
            "spec": {"metrics": [metric.manifest(LIMIT) for metric in metrics]}}


def rollout(name, of):
    steps = [{"analysis": {"templates": [{"templateName": of}]}}, {"pause": {}}]
    return {"apiVersion": "argoproj.io/v1alpha1", "kind": "Rollout", "metadata": {"name": name},
            "spec": {"strategy": {"canary": {"steps": steps}}}}


class Lot:
    """Templates of random metrics, translated."""

    def __init__(self, trial, seed, templates=TEMPLATES):
        rng = random.Random(seed)
        self.trial, self.metrics = trial, [
            [making.metric(rng, f"m{at}", VALUES) for at in range(METRICS)]
            for _ in range(templates)]
        items = []
        for at, metrics in enumerate(self.metrics):
            items += [template(f"t{at}", metrics), rollout(f"s{at}", f"t{at}")]
        self.made = self.translated({"apiVersion": "v1", "kind": "List", "items": items})

    def translated(self, manifests):
        done = run(self.trial.program, ["argo", "--json", "-"], json.dumps(manifests).encode())
        made = json.loads(done.output) if done.output else {}
        if done.status or done.errors or made.get("findings"):
            raise Wrong(f"conditions are refused: {self.refused(made)} {done.errors[:300]}")
        return made

    def refused(self, made):
        """The first finding, with the conditions of its metric."""
        for found in made.get("findings", [])[:1]:
            words = found["path"].replace("[", " ").replace("]", " ").split()
            at = int(words[1]) // 2
            place = int(words[3]) if len(words) > 3 else 0
            return found, self.metrics[at][place].texts
        return None

    def pairs(self):
        return len(self.metrics) * METRICS * VALUES

    def want_labels(self):
        """Each label says what the conditions need."""
        for at, metrics in enumerate(self.metrics):
            made = {it["metadata"]["name"]: it for it in self.made["templates"]}[f"t{at}"]
            names = [metric["name"] for metric in made["spec"]["metrics"]]
            for metric, name in zip(metrics, names, strict=True):
                if name != metric.label():
                    raise Wrong(f"{metric.texts}: {name} in place of {metric.label()}")

    # ---- what a desk says

    def messages(self, number_of):
        """The requests of each template: it, its service, a start, and the reports."""
        services = {it["metadata"]["name"]: it for it in self.made["services"]}
        templates = {it["metadata"]["name"]: it for it in self.made["templates"]}
        number = 0
        for at, metrics in enumerate(self.metrics):
            yield {"template": templates[f"t{at}"]}
            yield {"service": {"version": "v1", "manifest": services[f"s{at}"]}}
            yield {"start": {"service": f"s{at}", "version": "v2"}}
            number += 3
            for ordinal in range(VALUES):
                entries = [entry(metric, ordinal, B + number, number_of) for metric in metrics]
                yield {"report": {"service": f"s{at}", "run": 1, "entries": entries}}
                number += 1

    def phases(self, number_of):
        """The phase of each measurement, by template, ordinal and metric."""
        asked = [put("ops", at, json.dumps(it).encode())
                 for at, it in enumerate(self.messages(number_of), 1)]
        done = run(self.trial.program, ["pipe", "--at", str(B), "--step", "1"], b"".join(asked))
        got = replies(done.output)
        if done.status or done.errors or len(got) != len(asked):
            raise Wrong(f"a desk ended with {done.status} and {done.errors[:300]}")
        for at, (status, body, _) in enumerate(got):
            if status != 200:
                raise Wrong(f"a desk answers {body[:300]} to {asked[at][:300]}")
        each = VALUES + 3
        return [[json.loads(body)["phases"] for _, body, _ in got[at + 3:at + each]]
                for at in range(0, len(got), each)]

    def differences(self, phases, meaning):
        """The pairs of which the desk says something else than that meaning; and how often each
        phase is meant."""
        found, counts = [], collections.Counter()
        for metric, value, phase in self.judged(phases):
            wanted = meaning.phase(metric.trees, metric.form, value)
            counts[wanted] += 1
            if phase != wanted:
                found.append((metric, value, phase, wanted))
        return found, counts

    def judged(self, phases):
        """Each pair with its phase."""
        return ((metric, value, phases[at][ordinal][place])
                for at, metrics in enumerate(self.metrics) for place, metric in enumerate(metrics)
                for ordinal, value in enumerate(metric.values))

    def beside_argo(self, phases):
        """The pairs of which Argo, with numbers of 64 bits, says something else, though a number
        was reported and each decimal is a shortest one; and how often it does so otherwise."""
        found, counts, argo = [], collections.Counter(), doubles.Argo()
        for metric, value, phase in self.judged(phases):
            wanted = argo.phase(metric.trees, metric.form, value)
            if wanted is None:
                counts[PROCESSOR] += 1
            elif phase != wanted and metric.form.cannot_report(value):
                counts[FAILURE] += 1
            elif phase != wanted and not doubles.has_shortest(metric, value):
                counts[LONG] += 1
            elif phase != wanted:
                found.append((metric, value, phase, wanted))
        return found, counts


def entry(metric, ordinal, taken, number_of):
    made = {"metric": metric.label(), "ordinal": ordinal + 1, "taken": taken}
    number = metric.form.reported(metric.values[ordinal], number_of)
    return made | ({"failure": "no number"} if number is None else {"result": number})


def shown(value):
    """A value as a person reads it."""
    if isinstance(value, conditions.Text):
        return repr(value.text)
    if isinstance(value, list):
        return f"[{', '.join(map(shown, value))}]"
    return f"{value.numerator}/{value.denominator}" if isinstance(value, Fraction) else value


def told(difference):
    metric, value, phase, wanted = difference
    return (f"success {metric.texts[0]!r}, failure {metric.texts[1]!r}, {metric.label()}, value "
            f"{shown(value)}: a desk says {phase}, Argo {wanted}")


def smallest(differences):
    """The one with the shortest conditions."""
    return min(differences, key=lambda it: sum(len(text or "") for text in it[0].texts))


# ---- what was tried

def forms_of_number(word):
    """The forms of a number that a word has."""
    if conditions.is_hexadecimal(word):
        yield "0x"
    elif "e" in word.lower():
        yield "exponent"
    if word.lstrip("-").startswith("."):
        yield "point first"
    if "_" in word:
        yield "_"


def forms_of(text):
    """What a condition has of what may be hardly there."""
    words = conditions.Reader(text).words
    for at, word in enumerate(words):
        if word in FUNCTIONS:
            yield word
        if word[-1:].isalnum() and not word.isalpha():
            yield from forms_of_number(word)
        is_alone = words[at - 1:at] == ["("] and words[at + 1:at + 2] == [")"]
        if is_alone and (at < 2 or words[at - 2] not in FUNCTIONS):
            yield "(result)" if word == "result" else "(number)"


def words_in(metric):
    """The words and texts that are reported in place of a decimal."""
    values = [it for it in metric.values if not metric.form.cannot_report(it)]
    for value in values:
        yield from {one for one in metric.form.looked_at(value) if isinstance(one, str)}
        if doubles.has_text(metric, value):
            yield "a text"


def forms_in(lot):
    """How many metrics have each form, and how many values each word."""
    found = collections.Counter()
    for metric in (metric for metrics in lot.metrics for metric in metrics):
        found.update({form for text in metric.texts if text for form in forms_of(text)})
        found.update(words_in(metric))
    return found


def want_all(tried, counts):
    """Each phase is meant often enough, and each form is there."""
    rare = [phase for phase in PHASES if counts[phase] * 100 < tried]
    rare += [form for form in FORMS if counts[form] * 2000 < tried]
    if rare:
        raise Wrong(f"of {tried} pairs hardly one has {rare}")


def try_pairs(trial):
    """Conditions and values, as many as there is time for."""
    tried, counts, until = 0, collections.Counter(), time.monotonic() + SECONDS
    number = 0
    while tried < MOST_PAIRS and (trial.is_whole or time.monotonic() < until):
        lot = Lot(trial, f"{trial.seed} {number}")
        lot.want_labels()
        phases = lot.phases(conditions.number_of)
        found, more = lot.differences(phases, Meaning())
        found_beside, beside = lot.beside_argo(phases)
        if found or found_beside:
            found = found or found_beside
            raise Wrong(f"lot {number}: {len(found)} differ: {told(smallest(found))}")
        tried, number = tried + lot.pairs(), number + 1
        counts += more + beside + forms_in(lot)
    want_all(tried, counts)
    return f"{tried} conditions with a value: " + ", ".join(
        f"{counts[it]} {it}" for it in (*PHASES, *BESIDE_ARGO))


# ---- mistakes that the comparison must find

def shows(lot, phases, mistake):
    """Whether a mistake shows as a difference."""
    if mistake in mistakes.MEANINGS:
        return bool(lot.differences(phases, mistake())[0])
    phases = lot.phases(mistakes.with_mistake(mistake))
    return bool(lot.differences(phases, Meaning())[0])


def try_planted(trial):
    """Each of some mistakes, of what is meant or of what is reported, shows as a difference."""
    missed, tried = list(MISTAKES), 0
    for number in range(MOST_LOTS):
        lot = Lot(trial, f"{trial.seed} planted {number}", PLANTED_TEMPLATES)
        phases = lot.phases(conditions.number_of)
        if found := lot.differences(phases, Meaning())[0]:
            raise Wrong(f"{len(found)} differ without a mistake: {told(smallest(found))}")
        missed = [mistake for mistake in missed if not shows(lot, phases, mistake)]
        tried += lot.pairs()
        if not missed:
            return f"{len(MISTAKES)} mistakes show in {tried} pairs"
    raise Wrong(f"{tried} pairs do not show {[mistake.__name__ for mistake in missed]}")
