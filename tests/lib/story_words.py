"""The compact language of tests/stories: texts with parts that stand for others, requests, queries,
and replies. tests/stories/README.md says how they are written."""
import json
import re

B = 1_767_225_600

REASONS = {
    200: "OK", 400: "Bad Request", 404: "Not Found", 405: "Method Not Allowed", 409: "Conflict",
    411: "Length Required", 413: "Content Too Large", 422: "Unprocessable Content",
    503: "Service Unavailable",
}

# The nine commands at one moment, by two callers, each with its short answer.
STORY = [
    ("ops 1 template errs m,interval=60", "[errs 1]"),
    ("ops 2 service v1 setWeight:20 pause background:errs", "[web Healthy 2 100]"),
    ("ops 3 start v2", "[web Paused 1 20]"),
    ("agent 1 report 1 m:1:0:5", "[web Paused 1 20 | 1 Successful | Running]"),
    ("agent 2 report 1 m:3:0:5", '422 {"at":0,"code":"out-of-turn","expected":2}'),
    ("ops 4 tick", "[web Paused 1 20]"),
    ("ops 5 promote", "[web Healthy 2 100]"),
    ("ops 6 start v3", "[web Paused 1 20]"),
    ("ops 7 abort", "[web Degraded 1 0]"),
    ("ops 8 retry", "[web Paused 1 20]"),
    ("ops 9 promoteFull", "[web Healthy 2 100]"),
]

# What a line `background` or `analysis` of a story stands for.
LINES = {
    "background": [
        "ops 2 0 service v1 setWeight:20 pause background:errs => [web Healthy 2 100]",
        "ops 3 0 start v2 => [web Paused 1 20]",
    ],
    "analysis": [
        "ops 2 0 service v1 setWeight:10 analysis:t setWeight:60 pause => [web Healthy 4 100]",
        "ops 3 0 start v2 => [web Progressing 1 10]",
    ],
}


def expanded(text):
    """The bytes of a text: `<<3*ab>>` stands for ababab, `<<x:0d0a>>` for those bytes."""
    parts = re.split(r"<<(\d+\*.*?|x:[0-9a-f]*)>>", text, flags=re.DOTALL)
    found = b""
    for at, part in enumerate(parts):
        if at % 2 == 0:
            found += part.encode()
        elif part.startswith("x:"):
            found += bytes.fromhex(part[2:])
        else:
            count, repeated = part.split("*", 1)
            found += repeated.encode() * int(count)
    return found


def put(caller, number, body):
    """The request of that caller and number."""
    line = f"PUT /callers/{caller}/requests/{number} HTTP/1.1"
    return f"{line}\r\nContent-Length: {len(body)}\r\n\r\n".encode() + body


def get(path):
    return f"GET {path} HTTP/1.1\r\n\r\n".encode()


def reply(status, body, fields=""):
    """The bytes of a reply, with these header lines after its length."""
    head = f"HTTP/1.1 {status}\r\nContent-Type: application/json\r\nContent-Length: {len(body)}\r\n"
    return f"{head}{fields}\r\n".encode() + body


def replies(stream):
    """The status, the body and the bytes of each reply of a stream."""
    at, found = 0, []
    while at < len(stream):
        end = stream.index(b"\r\n\r\n", at) + 4
        status = int(stream[at + 9:at + 12])
        length = int(re.search(rb"Content-Length: (\d+)\r\n", stream[at:end])[1])
        found.append((status, stream[end:end + length], stream[at:end + length]))
        at = end + length
    return found


def metric(word):
    """A metric by its compact word, as a manifest has it."""
    name, *members = word.split(",")
    made = {"name": name}
    for member in members:
        key, value = member.split("=", 1)
        if key == "interval":
            made[key] = f"{value}s"
        elif key in ("success", "failure"):
            made[f"{key}Condition"] = value
        else:
            made[key] = int(value)
    return made


def template(name, words):
    dry = [word[7:] for word in words if word.startswith("dryRun:")]
    spec = {"metrics": [metric(word) for word in words if not word.startswith("dryRun:")]}
    if dry:
        spec["dryRun"] = [{"metricName": name} for name in dry]
    return {"template": {"metadata": {"name": name}, "spec": spec}}


def named(word):
    """An analysis by its compact word: `t+u@2` has two templates and starts at step 2."""
    names, _, start = word.partition("@")
    made = {"templates": [{"templateName": name} for name in names.split("+")]}
    if start:
        made["startingStep"] = int(start)
    return made


def steps(word):
    """The steps that a word stands for: `65*pause` for so many."""
    count, _, word = word.rpartition("*")
    kind, _, value = word.partition(":")
    if kind == "setWeight":
        step = {kind: int(value)}
    elif kind == "analysis":
        step = {kind: named(value)}
    elif kind == "pause":
        step = {kind: {"duration": int(value)} if value else {}}
    else:
        raise ValueError(f"no step: {word}")
    return [step] * int(count or 1)


def service(name, version, words):
    canary = {"steps": []}
    for word in words:
        if word.startswith("background:"):
            canary["analysis"] = named(word.partition(":")[2])
        else:
            canary["steps"] += steps(word)
    manifest = {"metadata": {"name": name}, "spec": {"strategy": {"canary": canary}}}
    return {"service": {"manifest": manifest, "version": version}}


def entry(word):
    name, ordinal, taken, outcome = word.split(":", 3)
    made = {"metric": name, "ordinal": int(ordinal), "taken": B + int(taken)}
    if outcome.startswith("!"):
        made["failure"] = outcome[1:]
    else:
        made["result"] = json.loads(outcome.replace(";", ","))
    return made


def command(asked, web="web"):
    """The body of the command that a compact text asks for, on the service that `on NAME` in front
    of it names, or on that one."""
    if asked.startswith("on "):
        _, web, asked = asked.split(" ", 2)
    kind, *words = asked.split(" ")
    if kind == "template":
        made = template(words[0], words[1:])
    elif kind == "service":
        made = service(web, words[0], words[1:])
    elif kind == "start":
        made = {kind: {"service": web, "version": words[0]}}
    elif kind == "report":
        entries = [entry(word) for word in words[1:]]
        made = {kind: {"service": web, "run": int(words[0]), "entries": entries}}
    elif kind in ("promote", "promoteFull", "abort", "retry", "tick") and not words:
        made = {kind: {"service": web}}
    else:
        raise ValueError(f"no command: {asked}")
    return json.dumps(made, separators=(",", ":")).encode()


def query(asked):
    """The path of `service NAME`, `history NAME` or `run NAME NUMBER`."""
    kind, name, *number = asked.split(" ")
    ends = {"service": "", "history": "/history", "run": "/runs/" + "".join(number)}
    return f"/services/{name}{ends[kind]}"


def event(asked):
    """The seconds after B of what a row sends, and its bytes."""
    if asked.startswith("? "):
        _, after, asked = asked.split(" ", 2)
        return int(after), get(query(asked))
    caller, number, after, asked = asked.split(" ", 3)
    return int(after), put(caller, number, command(asked))


def body(told):
    """The body of an answer, which is short or to the byte, as tests/stories/README.md says."""
    if told.startswith("{"):
        return told.encode()
    if not told.startswith("["):
        return f'{{"code":"{told}"}}'.encode()
    shown, *reported = told[1:-1].split(" | ")
    name, *stands = shown.split(" ")
    if len(stands) == 1:
        made = {"code": "ok", "revision": int(stands[0]), "template": name}
    else:
        status, step, weight = stands
        made = {"code": "ok", "service": name, "status": status, "step": int(step),
                "weight": int(weight)}
    if reported:
        run, *phases = reported[0].split(" ")
        made |= {"phases": phases, "run": int(run), "verdict": reported[1]}
    return json.dumps(made, separators=(",", ":"), sort_keys=True).encode()


def answer(told):
    """The bytes that answer a row: its status, 200 if it has none, and its body."""
    status = 200
    if told[0] not in "[{":
        status, told = told.split(" ", 1)
    return reply(f"{int(status)} {REASONS[int(status)]}", body(told))


def messages_of_story():
    """The requests of STORY, each with its reply."""
    messages = []
    for told, wanted in STORY:
        caller, number, asked = told.split(" ", 2)
        messages.append((put(caller, number, command(asked)), answer(wanted)))
    return messages


class Wrong(Exception):
    """A row is not answered as it says."""


def expect(row, found, wanted):
    if found != wanted:
        raise Wrong(f"{row}\n  wanted {wanted!r}\n  and got {found!r}")


def wire(text):
    """The bytes of a text, with an end of line for each bar."""
    return expanded(text.replace("|", "\r\n"))


def message(row):
    """A row of a conversation: what is sent, and the bytes that answer it."""
    parts = row.split(" => ")
    if len(parts) == 4:
        caller, number = parts[0].split("/")
        sent = put(caller, number, parts[1].encode())
    else:
        sent = get(parts[0])
    return sent, reply(parts[-2], parts[-1].encode())


def blocks(text):
    """The blocks of a file, each a list of rows; a line that begins with four spaces goes on with
    the row before it."""
    lines = [line for line in text.split("\n") if not line.startswith("#")]
    for block in re.split(r"\n{2,}", "\n".join(lines).strip("\n")):
        yield block.replace("\n    ", "").split("\n")
