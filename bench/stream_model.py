"""A light model of releases, by which bench/streams knows what is plausible.

It follows which runs are open, which metric waits for which ordinal and from when on, where a
release stands, and to which revisions of its templates it is bound. Where it is wrong, a message is
refused that was meant to be accepted, and nothing else comes of it: programs are compared with each
other, and not with this model.
"""
import operator
from dataclasses import dataclass, field

WORST_LAST = ("Successful", "Inconclusive", "Error", "Failed")
COMPARE = {"==": operator.eq, "!=": operator.ne, "<": operator.lt, "<=": operator.le,
           ">": operator.gt, ">=": operator.ge}


def worth(operand, result):
    """The number that an operand stands for, or None where it faults."""
    kind, value = operand
    if kind == "number":
        return value
    if value is None:
        return None if isinstance(result, list) else result
    return result[value] if isinstance(result, list) and value < len(result) else None


def holds(tree, result):
    """Whether a condition is true of a result: True, False, or None for a fault."""
    kind = tree[0]
    if kind == "not":
        inner = holds(tree[1], result)
        return None if inner is None else not inner
    if kind in ("and", "or"):
        first = holds(tree[1], result)
        return holds(tree[2], result) if first is (kind == "and") else first
    left, right = worth(tree[1], result), worth(tree[2], result)
    return None if left is None or right is None else COMPARE[kind](left, right)


@dataclass
class Condition:
    """A condition: its text, and its tree, which is None where the text has no reading."""
    text: str
    tree: tuple = None


@dataclass
class Metric:
    """A metric of a template; `shape` is the length of the lists that agents report, or 0."""
    name: str
    success: Condition = None
    failure: Condition = None
    interval: int = None
    delay: int = 0
    count: int = 0
    pass_after: int = 0
    failure_limit: int = 0
    inconclusive_limit: int = 0
    error_limit: int = 4
    dry: bool = False
    shape: int = 0

    def effective(self):
        """How many counted measurements complete it, or None."""
        return self.count or (1 if self.interval is None else None)

    def judge(self, outcome):
        """The phase of a measurement: of ("failure", text) or ("result", value)."""
        if outcome[0] == "failure":
            return "Error"
        wanted = [holds(each.tree, outcome[1]) if each else None
                  for each in (self.success, self.failure)]
        if any(each and truth is None for each, truth in
               zip((self.success, self.failure), wanted)):
            return "Error"
        return self.verdict_of(*wanted)

    def verdict_of(self, success, failure):
        """The phase where no condition faults; None stands for no condition."""
        if failure is None:
            return "Failed" if success is False else "Successful"
        if success is None:
            return "Failed" if failure else "Successful"
        return "Failed" if failure else "Successful" if success else "Inconclusive"


@dataclass
class Tally:
    """What a metric's measurements come to."""
    counted: int = 0
    failed: int = 0
    inconclusive: int = 0
    errors: int = 0
    consecutive: int = 0
    passes: int = 0
    last: int = None

    def add(self, phase, taken):
        """One measurement more."""
        self.last = taken
        self.passes = self.passes + 1 if phase == "Successful" else 0
        if phase == "Error":
            self.errors += 1
            self.consecutive += 1
            return
        self.counted += 1
        self.consecutive = 0
        self.failed += phase == "Failed"
        self.inconclusive += phase == "Inconclusive"

    def recorded(self):
        """How many measurements there are."""
        return self.counted + self.errors

    def completed(self, metric):
        """The phase of a completed metric, or None where it is open."""
        if self.failed > metric.failure_limit:
            return "Failed"
        if self.inconclusive > metric.inconclusive_limit:
            return "Inconclusive"
        if self.consecutive > metric.error_limit:
            return "Error"
        if metric.pass_after and self.passes >= metric.pass_after:
            return "Successful"
        wanted = metric.effective()
        return "Successful" if wanted is not None and self.counted >= wanted else None

    def due(self, metric, started):
        """The moment from which on the next measurement may be taken."""
        if self.last is None:
            return started + metric.delay
        return self.last + (10 if metric.interval is None else metric.interval)


@dataclass
class Run:
    """An open run; its step is None where it is in the background."""
    number: int
    step: int
    started: int
    metrics: list
    tallies: list = field(default_factory=list)

    def __post_init__(self):
        self.tallies = [Tally() for _ in self.metrics]

    def waiting(self):
        """The indices of the metrics that are not completed."""
        return [index for index, metric in enumerate(self.metrics)
                if not self.tallies[index].completed(metric)]

    def verdict(self):
        """The phase at which the run is closed now, or None where it stays open."""
        phases = [(tally.completed(metric), metric.dry)
                  for tally, metric in zip(self.tallies, self.metrics)]
        told = [phase for phase, dry in phases if phase and not dry]
        worst = max(told, key=WORST_LAST.index, default="Successful")
        closing = worst != "Successful" or all(phase for phase, _ in phases)
        return worst if closing else None


def metrics_of(names, templates):
    """The metrics of these templates, together and in order."""
    return [metric for name in names for metric in templates[name]]


def binds(names, templates, step):
    """Whether an attempt is bound to these templates, as an analysis of a step or another."""
    metrics = metrics_of(names, templates)
    if step and any(metric.effective() is None and not metric.pass_after for metric in metrics):
        return False
    return len(metrics) <= 32 and len({metric.name for metric in metrics}) == len(metrics)


class Service:
    """A service: its steps are ("weight", n), ("pause", seconds or None), ("analysis", names).

    `newest` has the metrics of each template's newest revision, and changes as there are new ones;
    `bound` has those of the revisions of the present attempt."""

    def __init__(self, name, version, steps, background, starting, newest):
        self.name, self.version, self.stable = name, version, version
        self.steps, self.background, self.starting = steps, background, starting
        self.newest, self.bound = newest, {}
        self.state, self.step, self.entered = "done", len(steps), 0
        self.holds, self.beside, self.made, self.open = set(), False, 0, []

    def analyses(self):
        """The names of each analysis, and whether it is one of a step."""
        found = [(value, True) for kind, value in self.steps if kind == "analysis"]
        return found + ([(self.background, False)] if self.background else [])

    def binds(self):
        """Whether an attempt that begins now is bound to the newest revisions."""
        return all(binds(names, self.newest, step) for names, step in self.analyses())

    def open_run(self, step, names, moment):
        """Opens the next run."""
        self.made += 1
        self.open.append(Run(self.made, step, moment, metrics_of(names, self.bound)))

    def enter(self, index, moment):
        """Enters a step, or the end."""
        self.step, self.entered = index, moment
        if index == len(self.steps):
            self.stable = self.version
            self.leave("done")
            return
        if self.background and index >= self.starting and not self.beside:
            self.beside = True
            self.open_run(None, self.background, moment)
        kind, value = self.steps[index]
        if kind == "analysis":
            self.open_run(index, value, moment)

    def leave(self, state):
        """Is done or aborted: nothing is open or held."""
        self.state = state
        self.open = []
        self.holds.clear()

    def pass_to(self, moment):
        """Ends each step that ends by time."""
        while self.state == "progress" and not self.holds:
            kind, value = self.steps[self.step]
            if kind == "analysis" or kind == "pause" and value is None:
                return
            end = self.entered if kind == "weight" else self.entered + value
            if end > moment:
                return
            self.enter(self.step + 1, end)

    def paused(self):
        """Whether it can be promoted."""
        return self.state == "progress" and (
            bool(self.holds) or self.steps[self.step][0] == "pause")

    def begin(self, index, moment):
        """Begins an attempt at a step, bound to the newest revisions."""
        names = [name for names, _ in self.analyses() for name in names]
        self.bound = {name: self.newest[name] for name in names}
        self.state, self.beside = "progress", False
        self.holds.clear()
        self.enter(index, moment)
        self.pass_to(moment)

    def start(self, version, moment):
        """The command Start, without effect where it is refused."""
        if self.state == "progress" or self.state == "done" and version == self.stable:
            return
        if not self.binds():
            return
        back = self.state == "aborted" and version == self.stable
        self.version = version
        self.begin(len(self.steps) if back else 0, moment)

    def promote(self, moment):
        """The command Promote, without effect where it is refused."""
        if self.paused():
            again = self.holds == {"background"}
            self.holds.clear()
            self.enter(self.step + (0 if again else 1), moment)
            self.pass_to(moment)

    def command(self, kind, moment):
        """Another command on the service, without effect where it is refused."""
        if kind == "promote":
            self.promote(moment)
        elif kind == "promoteFull" and self.state == "progress":
            self.enter(len(self.steps), moment)
        elif kind == "abort" and self.state == "progress":
            self.leave("aborted")
        elif kind == "retry" and self.state == "aborted" and self.binds():
            self.begin(0, moment)

    def report(self, run, entries, moment):
        """Records (index of metric, taken, outcome) of a run, all of them acceptable."""
        for index, taken, outcome in entries:
            run.tallies[index].add(run.metrics[index].judge(outcome), taken)
        verdict = run.verdict()
        if verdict:
            self.open.remove(run)
            self.close(run, verdict, moment)

    def close(self, run, verdict, moment):
        """What a run's verdict does."""
        if verdict in ("Failed", "Error"):
            self.leave("aborted")
        elif verdict == "Inconclusive":
            self.holds.add("background" if run.step is None else "step")
            self.open = [] if run.step is None else self.open
        elif run.step is not None:
            self.enter(self.step + 1, moment)
            self.pass_to(moment)
