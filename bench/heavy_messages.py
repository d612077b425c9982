"""The messages of bench/heavy: long histories, bodies of 64 KB, and the settled reports of a large
file."""
import importlib.machinery
import importlib.util
import json
import os

AT, STEP = 1767225600, 1
BODY = 65_536
STEPS, TEMPLATES = 64, 8
LONG = 1_000
NAME = "service-000-000000"
TICK = {"tick": {"service": "good"}}
HISTORY = b"GET /services/web/history HTTP/1.1\r\n\r\n"


def load_pipe():
    """bench/pipe as a module, for the messages that it makes."""
    path = os.path.join(os.path.dirname(os.path.abspath(__file__)), "pipe")
    loader = importlib.machinery.SourceFileLoader("pipe", path)
    made = importlib.util.module_from_spec(importlib.util.spec_from_loader("pipe", loader))
    loader.exec_module(made)
    return made


pipe = load_pipe()
put = pipe.put


def service(name, steps, annotations=None):
    """A command that registers a service with these steps."""
    metadata = {"name": name, "annotations": annotations} if annotations else {"name": name}
    canary = {"steps": steps}
    return {"service": {"manifest": {"kind": "Rollout", "metadata": metadata,
                                     "spec": {"strategy": {"canary": canary}}}, "version": "v0"}}


def good():
    """The service of the client whose ticks are timed: no tick changes it."""
    return service("good", [{"pause": {}}])


def history(lines):
    """The commands after which `web` has so many lines, 1 of them the first one's and 4 of each
    release: its start, its two steps and its end."""
    yield service("web", [{"setWeight": 20}, {"pause": {}}])
    yield from releases((lines - 1) // 4)


def releases(count):
    """The commands of so many releases of `web`, each of which is aborted."""
    for release in range(count):
        yield {"start": {"service": "web", "version": f"v{release + 1}"}}
        yield {"abort": {"service": "web"}}


def stream(caller, commands):
    """The requests of a caller, from its first one on."""
    return b"".join(put(caller, place + 1, command) for place, command in enumerate(commands))


def name_of(place):
    """The name of a template, of 63 bytes."""
    return f"template-{place:04}-" + "x" * 49


def templates():
    """The templates that a body with names has, each with one metric."""
    for place in range(STEPS * TEMPLATES):
        metric = {"name": f"m{place}", "interval": "1m", "count": 3,
                  "successCondition": "result >= 0"}
        yield {"template": {"metadata": {"name": name_of(place)}, "spec": {"metrics": [metric]}}}


def filled(name, steps):
    """A command that registers a service, with annotations that fill its body up to 64 KB."""
    room = BODY - len(json.dumps(service(name, steps, {"a": ""}), separators=(",", ":")))
    texts, place = {}, 0
    while room > 2 * LONG:
        key = f"note-{place}"
        texts[key], place = "n" * LONG, place + 1
        room -= len(key) + LONG + len('"":"",')
    return service(name, steps, {**texts, "a": "n" * room})


def names_of(step):
    """The templates of an analysis, which are no other one's."""
    return [{"templateName": name_of(step * TEMPLATES + place)} for place in range(TEMPLATES)]


class Body:
    """A body of 64 KB, made once for a name of that length."""

    def __init__(self, steps):
        self.text = json.dumps(filled(NAME, steps), separators=(",", ":"))

    def put(self, caller, number, name):
        """A request that registers the service of that name by it."""
        text = self.text.replace(NAME, name, 1)
        return (f"PUT /callers/{caller}/requests/{number} HTTP/1.1\r\n"
                f"Content-Length: {len(text)}\r\n\r\n{text}").encode()


# One of 64 analyses, each of 8 other templates, and one of 64 steps and of long texts, which the
# desk ignores.
NAMES = Body([{"analysis": {"templates": names_of(step)}} for step in range(STEPS)])
TEXTS = Body([{"setWeight": 20}, {"pause": {}}] * (STEPS // 2))


def reports(count):
    """The requests of a large file: a release that is measured, and reports of its run."""
    return pipe.reports(1, count)[0]
