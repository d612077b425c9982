"""Templates and services for bench/streams: what they say, and manifests that say it."""
from dataclasses import dataclass, field

from stream_model import Condition, Metric, Service, binds
from stream_texts import WRONG_CONDITIONS, band, condition, duration, nested

PROVIDER = {"prometheus": {"address": "http://prometheus.example:9090",
                           "query": 'sum(rate(requests{code=~"5.."}[5m])) / 1.5e3'}}
SHORT = (0, 1, 5, 10, 30, 60, 90, 300)


@dataclass
class TemplatePlan:
    """What a template says."""
    name: str
    metrics: list
    dry: list = field(default_factory=list)

    def accepted(self):
        """Whether a desk accepts it, whatever it has."""
        names = [metric.name for metric in self.metrics]
        conditions = [each for metric in self.metrics
                      for each in (metric.success, metric.failure) if each]
        return (all(each.tree for each in conditions)
                and not any(m.count > 1 and m.interval is None for m in self.metrics)
                and len(set(names)) == len(names)
                and all(each in (".*", *names) for each in self.dry))

    def marked(self):
        """Its metrics, with the marks of those that are dry-run."""
        for metric in self.metrics:
            metric.dry = ".*" in self.dry or metric.name in self.dry
        return self.metrics

    def tree(self, chance):
        """A manifest that says it."""
        spec = {"metrics": [metric_tree(chance, metric) for metric in self.metrics]}
        if self.dry or chance.random() < 0.1:
            spec["dryRun"] = [{"metricName": name} for name in self.dry]
        ignored(chance, spec, {"args": [{"name": "most", "value": "5"}], "templates": [],
                               "measurementRetention": None, "more": {"a": [1, 2.5, None]},
                               "deep": nested(chance.choice((3, 3, 123, 124)))})
        tree = {"metadata": {"name": self.name}, "spec": spec}
        ignored(chance, tree["metadata"], {"labels": {"team": "ops"}, "namespace": "canaries"})
        ignored(chance, tree, {"apiVersion": "argoproj.io/v1alpha1", "kind": "AnalysisTemplate",
                               "status": None})
        return {"template": tree}


@dataclass
class ServicePlan:
    """What a service says; its steps are ("weight", n), ("pause", d) and ("analysis", names)."""
    name: str
    version: str
    steps: list
    background: list = None
    starting: int = None

    def analyses(self):
        """The names of each analysis."""
        found = [value for kind, value in self.steps if kind == "analysis"]
        return found + ([self.background] if self.background is not None else [])

    def accepted(self, services, templates):
        """Whether a desk with these services and templates accepts it."""
        return (self.name not in services and len(self.steps) <= 64
                and all(kind != "weight" or value <= 100 for kind, value in self.steps)
                and all(are_named(names, templates) for names in self.analyses()))

    def service(self, templates):
        """The service as it stands when it is accepted."""
        return Service(self.name, self.version, self.steps, self.background, self.starting or 0,
                       templates)

    def tree(self, chance):
        """A manifest that says it, in its command."""
        canary = {"steps": [step_tree(chance, *step) for step in self.steps]}
        if not self.steps and chance.random() < 0.5:
            canary["steps"] = None
        if self.background is not None:
            canary["analysis"] = {"templates": templates_tree(chance, self.background)}
            if self.starting is not None:
                canary["analysis"]["startingStep"] = self.starting
        ignored(chance, canary, {"maxSurge": "25%", "trafficRouting": {"nginx": {}}})
        spec = {"strategy": {"canary": canary}}
        ignored(chance, spec, {"replicas": 3, "paused": False, "template": {"spec": {}}})
        manifest = {"metadata": {"name": self.name}, "spec": spec}
        ignored(chance, manifest, {"kind": "Rollout", "apiVersion": "argoproj.io/v1alpha1"})
        return {"service": {"manifest": manifest, "version": self.version}}


def are_named(names, templates):
    """Whether a strategy may name these templates in an analysis."""
    return 1 <= len(names) <= 8 and all(name in templates for name in names)


def fits(names, templates, step):
    """Whether an attempt is bound to an analysis of these names, too."""
    return are_named(names, templates) and binds(names, templates, step)


def ignored(chance, tree, members):
    """Adds members that are read over, or that say the default."""
    if chance.random() < 0.25:
        for key in chance.sample(list(members), chance.randint(1, len(members))):
            tree.setdefault(key, members[key])


def number_form(chance, number):
    """A number, or a text of its digits."""
    return chance.choice((number, number, number, str(number), "00" + str(number)))


def metric_tree(chance, metric):
    """A metric of a manifest."""
    tree = {"name": metric.name}
    for key, number, default in (("count", metric.count, 0),
                                 ("passAfter", metric.pass_after, 0),
                                 ("failureLimit", metric.failure_limit, 0),
                                 ("inconclusiveLimit", metric.inconclusive_limit, 0),
                                 ("consecutiveErrorLimit", metric.error_limit, 4)):
        if number != default or chance.random() < 0.1:
            tree[key] = number_form(chance, number)
    if metric.interval is not None:
        tree["interval"] = duration(chance, metric.interval)
    if metric.delay or chance.random() < 0.05:
        tree["initialDelay"] = duration(chance, metric.delay)
    for key, each in (("successCondition", metric.success), ("failureCondition", metric.failure)):
        if each:
            tree[key] = each.text
    empty = {"interval": "", "initialDelay": "", "successCondition": "", "failureCondition": None,
             "count": None, "passAfter": None, "consecutiveSuccessLimit": None,
             "failureLimit": None}
    ignored(chance, tree, empty)
    if chance.random() < 0.3:
        tree["provider"] = PROVIDER
    return tree


def templates_tree(chance, names):
    """The list of templates of an analysis."""
    entries = [{"templateName": name} for name in names]
    for entry in entries:
        ignored(chance, entry, {"clusterScope": False, "more": 1})
    return entries


def step_tree(chance, kind, value):
    """A step of a manifest."""
    if kind == "weight":
        tree = {"setWeight": value}
    elif kind == "pause":
        tree = {"pause": {} if value is None else {"duration": duration(chance, value, True)}}
        ignored(chance, tree["pause"], {"more": [], "duration": None})
    else:
        tree = {"analysis": {"templates": templates_tree(chance, value)}}
        ignored(chance, tree["analysis"], {"args": [], "dryRun": [], "startingStep": 70})
    ignored(chance, tree, {"setWeight": None, "pause": None, "analysis": None, "experiment": None})
    return tree


def random_metric(chance, name, endless):
    """A metric that a template may have."""
    shape = chance.choice((0, 0, 0, 0, 1, 2, 3, 16))
    metric = Metric(name, shape=shape)
    conditions = chance.choice(("success", "success", "failure", "both", "band", "band", "none"))
    if conditions in ("success", "both"):
        metric.success = condition(chance, shape)
    if conditions in ("failure", "both"):
        metric.failure = condition(chance, shape)
    if conditions == "band":
        metric.success, metric.failure = band(chance, shape)
    metric.interval = chance.choice((None, *SHORT))
    if metric.interval is not None and not (endless and chance.random() < 0.6):
        metric.count = chance.choice((1, 1, 2, 2, 3, 5))
    elif metric.interval is None:
        metric.count = chance.choice((0, 0, 1))
    metric.pass_after = chance.choice((0, 0, 0, 0, 1, 2, 2, 3, 1_000_000))
    metric.delay = chance.choice((0, 0, 0, 0, 5, 30, 120))
    metric.failure_limit = chance.choice((0, 1, 1, 2, 3, 5, 1_000_000))
    metric.inconclusive_limit = chance.choice((0, 0, 1, 3))
    metric.error_limit = chance.choice((4, 4, 4, 0, 1, 2, 1_000_000))
    return metric


def random_template(chance, number):
    """A template that is accepted."""
    count = chance.choice((1, 1, 1, 1, 2, 2, 3, 4, 6, chance.randint(1, 32)))
    endless = chance.random() < 0.25
    names = [f"m{index}" if number % 5 == 0 else f"Rate_{number}.{index}" for index in range(count)]
    chance.shuffle(names)
    plan = TemplatePlan(f"t{number}", [random_metric(chance, name, endless) for name in names])
    if chance.random() < 0.3:
        plan.dry = chance.sample(names, chance.randint(1, min(3, count)))
    elif chance.random() < 0.04:
        plan.dry = [".*"]
    return plan


def wrong_template(chance, plan):
    """A plan made one that is refused by the desk."""
    metric = chance.choice(plan.metrics)
    turn = chance.randrange(5)
    if turn == 0:
        metric.count, metric.interval = chance.randint(2, 9), None
    elif turn == 1:
        plan.metrics = plan.metrics[:31] + [Metric(chance.choice(plan.metrics).name)]
    elif turn == 2:
        plan.dry = plan.dry + [chance.choice(("nothing", "M0", "*", "..*", metric.name + "x"))]
    else:
        wrong = Condition(chance.choice(WRONG_CONDITIONS))
        setattr(metric, chance.choice(("success", "failure")), wrong)
    return plan


def some_templates(chance, templates, step):
    """Names of one to three templates to which an attempt is bound, or None where none were
    found."""
    for _ in range(6):
        names = chance.sample(list(templates), min(len(templates), chance.choice((1, 1, 1, 2, 3))))
        if names and fits(names, templates, step):
            return names
    return None


def random_step(chance, templates):
    """A step that is accepted, and bound as long as its templates have no new revision."""
    draw = chance.random()
    if draw < 0.3:
        return ("weight", chance.randint(0, 100))
    if draw < 0.42:
        return ("pause", None)
    if draw < 0.56:
        return ("pause", chance.choice((*SHORT, 600, 3600)))
    names = some_templates(chance, templates, True)
    return ("analysis", names) if names else ("pause", 60)


def random_service(chance, name, templates):
    """A service that is accepted where its name is free."""
    count = chance.choice((1, 2, 3, 4, 5, 6, 8, 8, 10, 10, chance.choice((0, 20, 64))))
    plan = ServicePlan(name, version(chance),
                       [random_step(chance, templates) for _ in range(count)])
    if chance.random() < 0.5:
        plan.background = some_templates(chance, templates, False)
        plan.starting = chance.choice((None, None, 0, 1, 2, 64))
    return plan


def wrong_service(chance, plan, services, templates):
    """A plan made one that is refused by the desk, or whose attempts are, mostly."""
    names = list(templates) * (4 if chance.random() < 0.1 else 1) or ["nothing"]
    some = chance.sample(names, min(len(names), chance.choice((2, 2, 9, 10))))
    step = chance.choice((("analysis", some), ("analysis", some + ["nothing"]),
                          ("analysis", ["nothing"]), ("analysis", []), ("weight", 101),
                          ("weight", 1_000_000), ("analysis", [some[0], some[0]])))
    turn = chance.randrange(6)
    if turn == 0 and services:
        plan.name = chance.choice(list(services))
    elif turn == 1:
        plan.steps = plan.steps + [("weight", 5)] * 65
    elif turn == 2 and step[0] == "analysis":
        plan.background = step[1]
    elif turn == 3:
        endless = [name for name in templates if not fits([name], templates, True)] or ["nothing"]
        plan.steps = plan.steps + [("analysis", [chance.choice(endless)])]
    else:
        plan.steps = plan.steps[:10] + [step]
    return plan


def version(chance):
    """A version."""
    return chance.choice(("v1", "v2", "v3", "V.4_x-", f"v{chance.randint(5, 99)}"))
