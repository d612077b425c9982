"""The messages of bench/streams, one after another, from a seed."""
import random

from stream_plans import random_service, random_template, version, wrong_service, wrong_template
from stream_texts import compact, get, odd, put
from stream_wrong import wrong_message

COMMANDS = ("start", "promote", "promoteFull", "abort", "retry", "tick")
FAILURES = ("timeout", "down", "\u00e9t\u00e9 \U0001f600", 'no "data"\n', "\u0000\u001f\u007f/\\",
            "x" * 200, "!", "result", "{{args.x}}", "\u00e9" * 100)
LATER = (1, 7, 1_000, 10 ** 9)
GREATEST = 253_370_764_799
REMEMBERED = 5_000


class Making:
    """Makes a stream: `message` gives the next one, and follows what it does in a light model."""

    def __init__(self, seed, services=24, callers=12, at=1_767_225_600, step=7, wrong=4):
        self.chance = random.Random(seed)
        self.most, self.at, self.step = services, at, step
        self.settled = {f"caller-{number}": 0 for number in range(callers)}
        self.callers, self.sent, self.last, self.made = list(self.settled), [], [], 0
        self.services, self.known, self.active = {}, [], []
        self.newest, self.names, self.numbered = {}, [], 0
        self.kinds = ((self.on_service, 70), (self.query, 8), (self.repeat, 3), (self.reworded, 3),
                      (self.reused, 2), (self.ahead, 2), (self.template, 2), (self.service, 3),
                      (self.wrong, wrong))

    def moment(self):
        """The moment of the next message."""
        return min(self.at + self.made * self.step, GREATEST)

    def message(self):
        """The next message."""
        makers, weights = zip(*self.kinds)
        maker = self.chance.choices(makers, weights)[0]
        if len(self.active) < self.most and self.chance.random() < 0.5:
            few = len(self.names) <= len(self.active) // 2
            maker = self.template if few else self.service
        message = maker()
        self.made += 1
        return message

    # Requests and their repeats

    def body(self, command):
        """A command's body; a template's and a service's manifest has random forms."""
        tree = command.tree(self.chance) if hasattr(command, "tree") else command
        text = odd(self.chance, tree) if self.chance.random() < 0.15 else compact(tree)
        return text.encode()

    def settle(self, command, caller=None):
        """The next request of a caller."""
        caller = caller or self.chance.choice(self.callers)
        self.settled[caller] = self.settled.get(caller, 0) + 1
        body = self.body(command)
        self.remember((caller, self.settled[caller], command, body))
        return self.request(caller, self.settled[caller], body)

    def remember(self, request):
        """Keeps the last requests, and some of the older ones."""
        self.last = [*self.last[-19:], request]
        if len(self.sent) < REMEMBERED:
            self.sent.append(request)
        elif self.chance.random() < 0.5:
            self.sent[self.chance.randrange(REMEMBERED)] = request

    def request(self, caller, number, body):
        """A request as a message."""
        return put(self.chance, f"/callers/{caller}/requests/{number}", body)

    def earlier(self):
        """A request that was sent, one of the last ones rather."""
        return self.chance.choice(self.last if self.chance.random() < 0.6 else self.sent)

    def repeat(self):
        """A request again, byte for byte."""
        if not self.sent:
            return self.query()
        caller, number, _, body = self.earlier()
        return self.request(caller, number, body)

    def reworded(self):
        """A request again, its command in other words."""
        if not self.sent:
            return self.query()
        caller, number, command, _ = self.earlier()
        tree = command.tree(self.chance) if hasattr(command, "tree") else command
        return self.request(caller, number, odd(self.chance, tree).encode())

    def reused(self):
        """Another command under an old number."""
        if not self.sent:
            return self.query()
        caller, number, command, _ = self.earlier()
        other = self.earlier()[2]
        if isinstance(command, dict) and "report" in command and self.chance.random() < 0.6:
            entries = [dict(entry) for entry in command["report"]["entries"]]
            entries[-1]["taken"] = (entries[-1]["taken"] + 1) % GREATEST
            other = {"report": {**command["report"], "entries": entries}}
        return self.request(caller, number, self.body(other))

    def ahead(self):
        """A number ahead of its turn, or the first of a caller who is new."""
        name = f"guest-{self.made}"
        if self.chance.random() < 0.3:
            return self.settle({"tick": {"service": self.any_service()}}, name)
        caller = self.chance.choice([*self.callers, name])
        number = self.settled.get(caller, 0) + 1 + self.chance.choice(LATER[:3])
        number = 1_000_000_000 if self.chance.random() < 0.1 else number
        return self.request(caller, number, self.body({"promote": {"service": self.any_service()}}))

    def wrong(self):
        """A message that the wire refuses."""
        return wrong_message(self.chance)

    # Queries

    def any_service(self):
        """The name of a service, which may not be there."""
        draw = self.chance.random()
        if draw < 0.08 or not self.services:
            return self.chance.choice(("nothing", "s", "s0", f"s{self.numbered + 1}"))
        return self.chance.choice(self.active if draw < 0.7 else self.known[-3 * self.most:]
                                  if draw < 0.98 else self.known)

    def query(self):
        """A query of a service, of its history or of one of its runs."""
        name, draw = self.any_service(), self.chance.random()
        if draw < 0.4:
            return get(self.chance, f"/services/{name}")
        if draw < 0.5:
            return get(self.chance, f"/services/{name}/history")
        service = self.services.get(name)
        made = service.made if service else 0
        if service:
            service.pass_to(self.moment())
        numbers = [run.number for run in service.open] if service else []
        numbers += [self.chance.randint(1, made + 1), max(1, made)]
        numbers += [1_000_000_000] if draw < 0.52 else []
        return get(self.chance, f"/services/{name}/runs/{self.chance.choice(numbers)}")

    # Templates and services

    def template(self):
        """A template, or the next revision of one; now and then one that is refused."""
        self.numbered += 1
        plan = random_template(self.chance, self.numbered)
        if self.names and self.chance.random() < 0.4:
            plan.name = self.chance.choice(self.names)
        if self.names and self.chance.random() < 0.35:
            plan = wrong_template(self.chance, plan)
        return self.revise(plan)

    def revise(self, plan):
        """A template as a request; if it is accepted, it is the newest revision of its name."""
        if plan.accepted():
            self.newest[plan.name] = plan.marked()
            others = [name for name in self.names if name != plan.name]
            self.names = [*others[-self.most:], plan.name]
        return self.settle(plan)

    def better(self, service):
        """A revision of a template because of which no attempt of the service is bound."""
        names = [name for names, _ in service.analyses() for name in names]
        for _ in range(9):
            self.numbered += 1
            plan = random_template(self.chance, self.numbered)
            plan.name = self.chance.choice(names)
            before = self.newest[plan.name]
            self.newest[plan.name] = plan.marked()
            if service.binds():
                return self.revise(plan)
            self.newest[plan.name] = before
        return self.query()

    def service(self):
        """A service, which may be refused; the oldest one is left alone from then on."""
        self.numbered += 1
        recent = {name: self.newest[name] for name in self.names}
        plan = random_service(self.chance, f"s{self.numbered}", recent)
        if self.services and self.chance.random() < (0.7 if len(self.active) == self.most else 0.2):
            plan = wrong_service(self.chance, plan, self.active, recent)
        if plan.accepted(self.services, self.newest):
            self.services[plan.name] = plan.service(self.newest)
            self.known.append(plan.name)
            self.active = self.known[-self.most:]
            if len(self.known) > 3 * self.most:
                self.services.pop(self.known[-3 * self.most - 1], None)
        return self.settle(plan)

    # Commands on a service

    def on_service(self):
        """A command or a report on a service."""
        if not self.active:
            return self.template() if len(self.names) < 2 else self.service()
        if self.chance.random() < 0.02:
            name, kind = self.any_service(), self.chance.choice(COMMANDS)
            if name not in self.services:
                return self.settle(self.command(kind, name))
            self.services[name].pass_to(self.moment())
            return self.act(self.services[name], kind)
        some = self.active if self.chance.random() < 0.5 else self.active[-5:]
        service = self.services[self.chance.choice(some)]
        service.pass_to(self.moment())
        if self.chance.random() < 0.07:
            return self.act(service, self.chance.choice(COMMANDS))
        return self.plausible(service)

    def command(self, kind, name):
        """A command by its name."""
        members = {"service": name}
        if kind == "start":
            members["version"] = version(self.chance)
        return {kind: members}

    def act(self, service, kind):
        """A command on a service, followed in the model."""
        command = self.command(kind, service.name)
        if kind == "start":
            if command[kind]["version"] == service.stable:
                command[kind]["version"] += "a"
            if self.chance.random() < 0.12:
                command[kind]["version"] = service.stable
            service.start(command[kind]["version"], self.moment())
        else:
            service.command(kind, self.moment())
        return self.settle(command)

    def plausible(self, service):
        """A command that moves the service on."""
        if service.state != "progress" and not service.binds() and self.chance.random() < 0.8:
            return self.better(service)
        if service.state == "done":
            return self.act(service, "start")
        if service.state == "aborted":
            return self.act(service, self.chance.choice(("start", "retry")))
        if service.open and self.chance.random() < 0.8:
            return self.report(service)
        if service.paused() and self.chance.random() < 0.6:
            return self.act(service, "promote")
        kinds = ("tick", "promote", "abort", "promoteFull")
        return self.act(service, self.chance.choices(kinds, (12, 2, 1, 1))[0])

    # Reports

    def report(self, service):
        """A report, which may be refused."""
        run = self.chance.choice(service.open)
        moment = self.moment()
        right = [index for index in run.waiting()
                 if run.tallies[index].due(run.metrics[index], run.started) <= moment]
        if self.chance.random() < 0.12:
            return self.wrong_report(service, run, right)
        if not right:
            return self.settle(self.command("tick", service.name))
        most = self.chance.choice((1, 2, 4, 32))
        chosen = self.chance.sample(right, min(len(right), most))
        entries = [self.entry(run, index) for index in chosen]
        service.report(run, [(index, entry["taken"], outcome)
                             for index, (entry, outcome) in zip(chosen, entries)], moment)
        return self.reported(service, run.number, [entry for entry, _ in entries])

    def reported(self, service, run, entries):
        """A report as a request."""
        return self.settle({"report": {"service": service.name, "run": run, "entries": entries}})

    def outcome(self, metric):
        """An outcome: now and then a failure, and rather one of a phase than another."""
        if self.chance.random() < 0.06:
            return ("failure", self.chance.choice(FAILURES))
        wanted = self.chance.choice(("Successful", "Successful", "Successful", "Inconclusive"))
        for _ in range(self.chance.choice((1, 3, 6, 10))):
            outcome = ("result", self.result(metric.shape))
            if metric.judge(outcome) == wanted:
                break
        return outcome

    def result(self, shape):
        """A whole number, or a list of the metric's length, mostly."""
        if self.chance.random() < 0.03:
            return self.chance.choice((2 ** 63 - 1, -2 ** 63, [0], [2 ** 63 - 1] * 16, -1))
        values = [self.chance.randint(-2, 12) for _ in range(shape)]
        return values if shape else self.chance.randint(-2, 12)

    def entry(self, run, index):
        """The next measurement of a metric, and its outcome."""
        metric, tally = run.metrics[index], run.tallies[index]
        due, moment = tally.due(metric, run.started), self.moment()
        taken = due if self.chance.random() < 0.5 else self.chance.randint(due, max(due, moment))
        outcome = self.outcome(metric)
        return {"metric": metric.name, "ordinal": tally.recorded() + 1, "taken": taken,
                outcome[0]: outcome[1]}, outcome

    def wrong_report(self, service, run, right):
        """A report that is refused: its run, or an entry behind right ones."""
        if self.chance.random() < 0.2:
            open_runs = {each.number for each in service.open}
            closed = [n for n in range(1, service.made + 1) if n not in open_runs][-9:]
            unknown = [service.made + 1, service.made + 1, 1_000_000_000]
            some = closed if closed and self.chance.random() < 0.7 else unknown
            return self.reported(service, self.chance.choice(some), [self.entry(run, 0)[0]])
        entries = [self.entry(run, index)[0]
                   for index in self.chance.sample(right, min(len(right), 2))]
        wrong = self.wrong_entry(run, [entry["metric"] for entry in entries])
        entries.insert(self.chance.randint(1 if entries else 0, len(entries)), wrong)
        return self.reported(service, run.number, entries)

    def wrong_entry(self, run, named):
        """An entry that is refused behind those of the named metrics."""
        others = [index for index, metric in enumerate(run.metrics) if metric.name not in named]
        index = self.chance.choice(others or range(len(run.metrics)))
        metric, tally = run.metrics[index], run.tallies[index]
        entry, due = self.entry(run, index)[0], tally.due(metric, run.started)
        changes = [{"metric": self.chance.choice(("nothing", "M0", "m99", "Rate_0.0"))},
                   {"ordinal": entry["ordinal"] + self.chance.choice(LATER[:3])},
                   {"taken": min(GREATEST, self.moment() + self.chance.choice(LATER))},
                   {"taken": max(0, due - self.chance.choice(LATER[:3]))}]
        if tally.recorded():
            changes += [{"ordinal": self.chance.randint(1, tally.recorded())}] * 4
        if named and self.chance.random() < 0.15:
            changes = [{"metric": self.chance.choice(named)}]
        return {**entry, **self.chance.choice(changes)}
