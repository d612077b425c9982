"""The desks whose pages are looked at: each function makes one, message by message."""
import json

# The moment of the first message, long after the clock of any machine that draws the page: so time
# passes only by messages.
AT = 7952342400


class Desk:
    """A stream of requests, the clock of which goes on by so many seconds a message."""

    def __init__(self, step=10, at=AT):
        self.step, self.at, self.now, self.messages = step, at, at, []
        self.numbers, self.ordinals = {}, {}

    def put(self, caller, command):
        self.numbers[caller] = number = self.numbers.get(caller, 0) + 1
        body = json.dumps(command, separators=(",", ":"))
        self.messages.append(f"PUT /callers/{caller}/requests/{number} HTTP/1.1\r\n"
                             f"Content-Length: {len(body)}\r\n\r\n{body}")
        self.now += self.step

    def template(self, name, *metrics, dry=()):
        spec = {"metrics": list(metrics)}
        if dry:
            spec["dryRun"] = [{"metricName": one} for one in dry]
        self.put("ops", {"template": {"metadata": {"name": name}, "spec": spec}})

    def service(self, name, version, steps, analysis=None):
        canary = {"steps": steps}
        if analysis:
            canary["analysis"] = analysis
        manifest = {"metadata": {"name": name}, "spec": {"strategy": {"canary": canary}}}
        self.put("ops", {"service": {"version": version, "manifest": manifest}})

    def start(self, name, version):
        self.put("ops", {"start": {"service": name, "version": version}})

    def command(self, word, name):
        self.put("ops", {word: {"service": name}})

    def report(self, service, run, metric, *outcomes):
        """Measurements of a metric, each in a report of its own: numbers, lists, or texts of
        failures."""
        for outcome in outcomes:
            key = (service, run, metric)
            self.ordinals[key] = ordinal = self.ordinals.get(key, 0) + 1
            kind = "failure" if isinstance(outcome, str) else "result"
            entry = {"metric": metric, "ordinal": ordinal, "taken": self.now, kind: outcome}
            self.put("agent", {"report": {"service": service, "run": run, "entries": [entry]}})

    def stream(self):
        return "".join(self.messages).encode()


def weight(percent):
    return {"setWeight": percent}


def pause(duration=None):
    return {"pause": {"duration": duration} if duration else {}}


def analysis(*templates):
    return {"analysis": {"templates": [{"templateName": name} for name in templates]}}


def metric(name, **more):
    return {"name": name, "interval": "1s", **more}


def nothing():
    """A desk without services."""
    return Desk()


def states():
    """A release at each state, and aborted by each cause."""
    desk = Desk()
    desk.template("errors", metric("errors", count=3, successCondition="result < 5"))
    desk.template("rate", metric("rate", successCondition="result >= 95"))
    desk.template("smoke", metric("probe", count=3, successCondition="result > 10",
                                  failureCondition="result < 5"))
    add_going(desk)
    add_ended(desk)
    return desk


def add_going(desk):
    """One without steps, and one in each state in which a release goes on."""
    # done without steps
    desk.service("aa-new", "v1", [])
    # waits for a promotion
    desk.service("bb-pause", "v1", [weight(20), pause(), weight(50)])
    desk.start("bb-pause", "v2")
    # pauses for a time
    desk.service("cc-timed", "v1", [weight(30), pause("2h"), weight(60)])
    desk.start("cc-timed", "v2")
    # is analysed
    desk.service("dd-analysed", "v1", [weight(10), analysis("errors"), weight(100)])
    desk.start("dd-analysed", "v2")
    desk.report("dd-analysed", 1, "errors", 3)
    # held by its step
    desk.service("ee-held", "v1", [weight(10), analysis("smoke"), pause()])
    desk.start("ee-held", "v2")
    desk.report("ee-held", 1, "probe", 7)
    # held by its background
    background = {"templates": [{"templateName": "smoke"}]}
    desk.service("ff-held", "v1", [weight(10), pause()], background)
    desk.start("ff-held", "v2")
    desk.report("ff-held", 1, "probe", 7)


def add_ended(desk):
    """One aborted by each cause, and one that reached its end."""
    # aborted by a command
    desk.service("gg-command", "v1", [weight(40), pause()])
    desk.start("gg-command", "v2")
    desk.command("abort", "gg-command")
    # aborted by the run of a step
    desk.service("hh-step", "v1", [weight(40), analysis("errors")])
    desk.start("hh-step", "v2")
    desk.report("hh-step", 1, "errors", 7)
    # aborted by the background, and tried again
    background = {"templates": [{"templateName": "rate"}]}
    desk.service("ii-background", "v1", [weight(40), pause()], background)
    desk.start("ii-background", "v2")
    desk.report("ii-background", 1, "rate", 94)
    desk.command("retry", "ii-background")
    desk.report("ii-background", 2, "rate", 96, 12)
    # promoted to its end
    desk.service("jj-done", "v1", [weight(40), pause()])
    desk.start("jj-done", "v2")
    desk.command("promote", "jj-done")


def outcomes():
    """Lists and failures as outcomes, a metric that is dry-run, one whose template is revised."""
    desk = Desk()
    first = "result[0] < 5 && result[1] > 2"
    desk.template("lists", metric("pair", count=5, failureLimit=5, successCondition=first),
                  metric("dry", count=5, successCondition="3 < result and result <= 9"),
                  metric("agent", count=9, consecutiveErrorLimit=3), dry=["dry"])
    desk.service("lists", "v1", [analysis("lists")])
    desk.start("lists", "v2")
    desk.report("lists", 1, "pair", [1, 3], [9, 9], [1])
    desk.report("lists", 1, "dry", 4, 40)
    desk.report("lists", 1, "agent", 5, "no route to host", "no route to host")
    desk.template("lists", metric("pair"))
    return desk


BREAKING = [
    "</svg><script>alert(1)</script>",
    "</title></text></style></body>",
    "\"><b onmouseover=\"alert(1)\">'",
    "&lt;b&gt; &amp; &#60;",
    "a\u0000b\u0007c\u001bd\u007fe\r\n\tf",
    "\u202eabc\u2066def\u200f",
    "\u061ca\u0080b\u009b31mc\u2028d\u2029e",
    "\U0001f600" * 50,
    "]]><!-- --!>",
    "{{7*7}} ${7*7} javascript:alert(1)",
]


def breaking():
    """Failures whose texts try to break out of their place."""
    desk = Desk()
    desk.template("texts", metric("texts", count=99, consecutiveErrorLimit=99))
    desk.service("texts", "v1", [analysis("texts")])
    desk.start("texts", "v2")
    for text in BREAKING:
        desk.report("texts", 1, "texts", text)
    return desk


def widest():
    """64 steps, and 32 metrics."""
    desk = Desk()
    desk.template("many", *[metric(f"m{number:02}", successCondition=f"result < {number}")
                            for number in range(32)])
    steps = [weight(number) if number % 2 == 0 else pause("1s") for number in range(63)]
    background = {"templates": [{"templateName": "many"}], "startingStep": 62}
    desk.service("wide", "v1", steps + [pause()], background)
    desk.start("wide", "v2")
    for _ in range(4):
        desk.command("tick", "wide")
    return desk


def thinned():
    """More measurements than a chart shows."""
    desk = Desk(step=1)
    desk.template("load", metric("load", failureLimit=100, successCondition="result < 50"))
    background = {"templates": [{"templateName": "load"}]}
    desk.service("load", "v1", [weight(10), pause()], background)
    desk.start("load", "v2")
    for number in range(1000):
        # the error stands where no measurement is drawn that is Successful
        desk.report("load", 1, "load", "no route to host" if number == 334
                    else 99 if number % 100 == 50 else number % 40)
    # too many that are not Successful to draw all of them
    desk.template("worse", metric("worse", failureLimit=1000, successCondition="result < 50"))
    background = {"templates": [{"templateName": "worse"}]}
    desk.service("worse", "v1", [weight(10), pause()], background)
    desk.start("worse", "v2")
    for number in range(400):
        desk.report("worse", 1, "worse", 50)
    desk.report("worse", 1, "worse", 1)
    return desk


def lists():
    """Results that are lists, as a query of Prometheus returns them, by the places that conditions
    name: each has its own limits, and numbers on either side of a comparison."""
    desk = Desk()
    desk.template("one", metric("rate", count=99, failureLimit=9,
                                successCondition="result[0] >= 95"))
    desk.template("two", metric("pair", count=99, failureLimit=9, inconclusiveLimit=9,
                                successCondition="result[1] > 2 && result[0] < 5",
                                failureCondition="9 <= result[0] || result[1] == -4"))
    desk.template("far", metric("same", count=99, failureLimit=9,
                                successCondition="result[2] > result[10] or result [ 2 ]== 1"))
    wide = " or ".join(f"result[{place}] == {place}" for place in range(10))
    desk.template("wide", metric("ten", count=99, failureLimit=9, successCondition=wide))
    for name in ("one", "two", "far", "wide"):
        desk.service(name, "v1", [analysis(name)])
        desk.start(name, "v2")
    desk.report("one", 1, "rate", [97], [12, 99], [98])
    desk.report("two", 1, "pair", [1, 3], [9, 7], [7, 3], [4], "no route to host")
    desk.report("far", 1, "same", [1, 1, 1], [0, 0, 7, 0, 0, 0, 0, 0, 0, 0, 3])
    desk.report("wide", 1, "ten", [5, 1, 2, 3, 4, 5, 6, 7, 8, 9])
    return desk


def late():
    """Measurements that are late, each at another state of its release, and some that are not."""
    desk = Desk()
    desk.template("errors", metric("errors", interval="10s", successCondition="result < 5"))
    desk.template("slow", metric("slow", interval="10s", initialDelay="1h", count=2))
    desk.template("once", {"name": "once"})
    desk.template("both", metric("ended", interval="10s", count=1),
                  metric("open", interval="10s", count=5),
                  metric("hourly", interval="1h", count=2))
    add_late_backgrounds(desk)
    add_late_steps(desk)
    return desk


def add_late_backgrounds(desk):
    """Measurements of backgrounds, of which one is due and not late."""
    background = {"templates": [{"templateName": "errors"}]}
    # beside a pause for a time
    desk.service("aa-timed", "v1", [weight(30), pause("2h"), weight(60)], background)
    desk.start("aa-timed", "v2")
    desk.command("tick", "aa-timed")
    desk.command("tick", "aa-timed")
    # due for as long as its interval, and no longer
    desk.service("bb-due", "v1", [weight(30), pause("2h"), weight(60)], background)
    desk.start("bb-due", "v2")
    desk.command("tick", "bb-due")
    # measured once, and then no more
    desk.service("cc-silent", "v1", [weight(30), pause("2h"), weight(60)], background)
    desk.start("cc-silent", "v2")
    desk.report("cc-silent", 1, "errors", 3)
    for _ in range(3):
        desk.command("tick", "cc-silent")
    # beside a pause without an end
    desk.service("dd-pause", "v1", [weight(30), pause()], background)
    desk.start("dd-pause", "v2")
    for _ in range(2):
        desk.command("tick", "dd-pause")


def add_late_steps(desk):
    """Measurements of steps, of which one is not due yet."""
    # at a step, one of three metrics
    desk.service("ee-step", "v1", [weight(30), analysis("both"), weight(60)])
    desk.start("ee-step", "v2")
    desk.report("ee-step", 1, "ended", 1)
    desk.command("tick", "ee-step")
    # not due yet
    desk.service("ff-delay", "v1", [weight(30), analysis("slow")])
    desk.start("ff-delay", "v2")
    for _ in range(3):
        desk.command("tick", "ff-delay")
    # without an interval
    desk.service("gg-once", "v1", [weight(30), analysis("once")])
    desk.start("gg-once", "v2")
    for _ in range(2):
        desk.command("tick", "gg-once")


def two_runs():
    """Two open runs, of which the first is later."""
    desk = Desk()
    desk.template("errors", metric("errors", interval="10s"))
    desk.template("smoke", metric("probe", interval="10s", count=3))
    background = {"templates": [{"templateName": "errors"}]}
    desk.service("web", "v1", [weight(30), pause("30s"), analysis("smoke")], background)
    desk.start("web", "v2")
    for _ in range(5):
        desk.command("tick", "web")
    return desk


def ended():
    """Attempts that ended, within 24 hours and before: with measurements and without any."""
    desk = Desk(step=28000)
    desk.template("errors", metric("errors", interval="7h", successCondition="result < 5"))
    background = {"templates": [{"templateName": "errors"}]}
    steps = [weight(30), pause("10s")]
    # done at 0 measurements, more than 24 hours ago, and within them
    desk.service("aa-silent", "v1", steps, background)
    desk.start("aa-silent", "v2")
    desk.command("tick", "aa-silent")
    desk.service("bb-old", "v1", steps, background)
    desk.start("bb-old", "v2")
    for _ in range(4):
        desk.command("tick", "bb-old")
    # three attempts, of which the first one ended before
    desk.service("cc-again", "v1", [weight(30), pause()], background)
    desk.start("cc-again", "v2")
    desk.report("cc-again", 1, "errors", 7)
    desk.command("retry", "cc-again")
    desk.report("cc-again", 2, "errors", 1, 8)
    desk.command("retry", "cc-again")
    desk.command("abort", "cc-again")
    desk.start("cc-again", "v3")
    return desk


def unmeasured():
    """Releases that are done without a measurement: one, after which another one was measured and
    aborted; one, after which another one was measured and is done; and one with two runs."""
    desk = Desk()
    desk.template("errors", metric("errors", successCondition="result < 5"))
    background = {"templates": [{"templateName": "errors"}]}
    for name, end in (("aa-aborted", "abort"), ("bb-measured", "promoteFull")):
        desk.service(name, "v1", [weight(30), pause()], background)
        desk.start(name, "v2")
        desk.command("promoteFull", name)
        desk.start(name, "v3")
        desk.report(name, 2, "errors", 1)
        desk.command(end, name)
    desk.template("smoke", metric("probe", count=3))
    desk.service("cc-two", "v1", [weight(30), analysis("smoke")], background)
    desk.start("cc-two", "v2")
    desk.command("promoteFull", "cc-two")
    return desk


def promoted():
    """Backgrounds that are closed: Inconclusive, and the release was promoted; the same, and the
    release was aborted and begun again; and Successful."""
    desk = Desk()
    desk.template("smoke", metric("probe", count=3, successCondition="result > 10",
                                  failureCondition="result < 5"))
    background = {"templates": [{"templateName": "smoke"}]}
    for name in ("aa-promoted", "bb-again", "cc-well"):
        desk.service(name, "v1", [weight(10), pause()], background)
        desk.start(name, "v2")
    for name in ("aa-promoted", "bb-again"):
        desk.report(name, 1, "probe", 7)
        desk.command("promote", name)
    desk.command("abort", "bb-again")
    desk.command("retry", "bb-again")
    desk.report("cc-well", 1, "probe", 12, 12, 12)
    return desk


def days():
    """A measurement that has been due for a day, and one that has been for a day and a half; a
    pause of four days, and one that has waited for a day and a half."""
    desk = Desk(step=43200, at=AT + 3723)
    desk.template("errors", metric("errors", interval="10s"))
    background = {"templates": [{"templateName": "errors"}]}
    for name, ticks in (("aa-day", 2), ("bb-more", 3)):
        desk.service(name, "v1", [weight(30), pause()], background)
        desk.start(name, "v2")
        for _ in range(ticks):
            desk.command("tick", name)
    desk.service("cc-ends", "v1", [weight(30), pause("96h")])
    desk.start("cc-ends", "v2")
    desk.service("dd-waits", "v1", [weight(30), pause()])
    desk.start("dd-waits", "v2")
    for _ in range(3):
        desk.command("tick", "dd-waits")
    return desk


def between():
    """Three attempts, of which the second one was aborted before it had a run."""
    desk = Desk()
    desk.template("smoke", metric("probe", count=3))
    desk.service("web", "v1", [weight(30), pause(), analysis("smoke")])
    desk.start("web", "v2")
    desk.command("promote", "web")
    desk.command("abort", "web")
    desk.start("web", "v3")
    desk.command("abort", "web")
    desk.start("web", "v4")
    return desk


def many():
    """200 services, of which 40 wait: 10 aborted, 10 held, 10 late, 10 at a pause with no end."""
    desk = Desk(step=1)
    desk.template("errors", metric("errors", interval="1s", count=9, successCondition="result > 5",
                                   failureCondition="result < 2"))
    background = {"templates": [{"templateName": "errors"}]}
    for number in range(200):
        kind = MANY[number % 20]
        name = f"s{number:03}-{kind}"
        watched = background if kind in ("held", "late") else None
        end = "1s" if kind == "done" else None if kind in ("pause", "aborted") else "2h"
        desk.service(name, "v1", [weight(10), pause(end)], watched)
        desk.start(name, "v2")
        if kind == "held":
            desk.report(name, 1, "errors", 3)
        if kind == "aborted":
            desk.command("abort", name)
        if kind == "late":
            desk.command("tick", name)
        if kind in ("late", "done"):
            desk.command("tick", name)
    return desk


# What becomes of each twenty of these services.
MANY = ["done"] * 3 + ["late"] + ["goes"] * 4 + ["pause"] + ["done"] * 7
MANY += ["aborted"] + ["goes"] * 2 + ["held"]


def silence(at):
    """A background analysis beside timed pauses, and an agent that is dead. One release is done,
    with not one measurement; another one is under way. The third is done, and one of its two
    metrics was measured."""
    desk = Desk(step=1, at=at)
    desk.template("errors", metric("errors", interval="30s", successCondition="result < 5"))
    background = {"templates": [{"templateName": "errors"}]}
    desk.service("done", "v1", [weight(10), pause("20s"), weight(50), pause("20s")], background)
    desk.start("done", "v2")
    desk.service("under-way", "v1", [weight(10), pause("20s"), weight(50), pause("2h")], background)
    desk.start("under-way", "v2")
    desk.template("both", metric("one", interval="30s"), metric("two", interval="30s"))
    background = {"templates": [{"templateName": "both"}]}
    desk.service("half", "v1", [weight(10), pause("20s")], background)
    desk.start("half", "v2")
    desk.report("half", 1, "one", 1)
    return desk


def decimals():
    """Metrics that are measured in decimals and reported in whole numbers: names and numbers are as
    people read them, also in the conditions. What stands for NaN is at no height."""
    desk = Desk()
    desk.template("rates", metric("success-rate.e6f", count=99, failureLimit=9,
                                  successCondition="result >= 950000"),
                  metric("latency.e6n", count=99, failureLimit=9,
                         successCondition=f"result < 250000 || result == {-2 ** 63}"),
                  metric("pair.e6p2", count=99, failureLimit=9,
                         successCondition="result[0] > -500000 && 1000000 <= result[1]"),
                  metric("size.e6l1", count=99, failureLimit=9,
                         successCondition="result[0] == 3 and result[1] < 1500000"))
    desk.service("rates", "v1", [analysis("rates")])
    desk.start("rates", "v2")
    desk.report("rates", 1, "success-rate.e6f", 953215, 950000, 1000000, 949999)
    desk.report("rates", 1, "latency.e6n", 125000, -2 ** 63, 250000)
    desk.report("rates", 1, "pair.e6p2", [0, 1000000], [-500000, 2500000])
    desk.report("rates", 1, "size.e6l1", [3, 1250000])
    return desk


CASES = [nothing, states, outcomes, breaking, widest, thinned, lists, late, ended, decimals]
