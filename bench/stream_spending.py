"""Streams of bench/streams that spend what a service, a metric or a template has of numbers: a
million each."""
from stream_texts import compact

RUNS_LEFT = 66
MOST = 1_000_000


def put(caller, number, command):
    """A request of a caller."""
    body = compact(command).encode()
    return (f"PUT /callers/{caller}/requests/{number} HTTP/1.1\r\n"
            f"Content-Length: {len(body)}\r\n\r\n").encode() + body


def template(name, metric):
    """A template of one metric."""
    return {"template": {"metadata": {"name": name}, "spec": {"metrics": [metric]}}}


def registered(metric):
    """Two templates of one metric, and a service that has the first in the background and the other
    in its step."""
    analysis = {"templates": [{"templateName": "last"}]}
    once = {"templates": [{"templateName": "once"}]}
    canary = {"steps": [{"analysis": once}], "analysis": analysis}
    manifest = {"metadata": {"name": "web"}, "spec": {"strategy": {"canary": canary}}}
    return [template("last", metric), template("once", {"name": "once"}),
            {"service": {"manifest": manifest, "version": "v1"}}]


def spending_runs():
    """Attempts of two runs each, until no attempt may begin; then all that is refused for it."""
    yield from registered({"name": "m", "interval": "1s"})
    for attempt in range((MOST - RUNS_LEFT) // 2 + 1):
        yield {"start": {"service": "web", "version": f"v{2 + attempt % 2}"}}
        yield {"abort": {"service": "web"}}
    for version in ("v2", "v1", "v4"):
        yield {"start": {"service": "web", "version": version}}
    yield {"retry": {"service": "web"}}
    yield {"tick": {"service": "web"}}


def spending_measurements(at):
    """Measurements of one metric, failures and results, until there may be no more of them."""
    yield from registered({"name": "m", "interval": "0s", "failureLimit": MOST,
                           "consecutiveErrorLimit": MOST, "successCondition": "result > 2"})
    yield {"start": {"service": "web", "version": "v2"}}
    for ordinal in range(1, MOST + 3):
        outcome = {"result": ordinal % 10} if ordinal % 7 else {"failure": "down"}
        entry = {"metric": "m", "ordinal": ordinal, "taken": at, **outcome}
        yield {"report": {"service": "web", "run": 1, "entries": [entry]}}
    yield {"promoteFull": {"service": "web"}}


def spending_revisions(taken):
    """Revisions of one template, until there may be no more of them; and a run of the last one,
    for which 3 alone is a success."""
    yield from registered({"name": "m"})
    for _ in range(MOST - 2):
        yield template("last", {"name": "m"})
    for number in (3, 4):
        yield template("last", {"name": "m", "successCondition": f"result == {number}"})
    yield {"start": {"service": "web", "version": "v2"}}
    entry = {"metric": "m", "ordinal": 1, "taken": taken, "result": 3}
    yield {"report": {"service": "web", "run": 1, "entries": [entry]}}
    yield template("once", {"name": "once", "count": 2})
    yield template("last", {"name": "m", "successCondition": "result >"})


def spending(what, at, step):
    """The messages of such a stream, with queries at its end."""
    if what == "runs":
        commands = spending_runs()
    elif what == "revisions":
        commands = spending_revisions(at + (MOST + 3) * step)
    else:
        commands = spending_measurements(at + 3 * step)
    for number, command in enumerate(commands, 1):
        yield put("ops", number, command)
    for path in ("", "/runs/1", f"/runs/{MOST - RUNS_LEFT}", f"/runs/{MOST}"):
        yield f"GET /services/web{path} HTTP/1.1\r\n\r\n".encode()
