"""How much memory a desk takes for what it keeps of its file: rooms.py PROGRAM FOLDER. With
`--cache` in different sizes, and each time in a new file, a desk registers services of 64 steps.
Then services grow as their releases begin: each step is analysed by a template of several metrics;
and each is read again. 100 callers send long commands, of which each receipt has one. As many long
templates are read, one for each service that names it; then some whose conditions have a sign at
almost each byte. Histories are asked for, and grow. Last, so many callers come that their counts
alone would take more than there is room for. No clause says how much memory a program takes."""
import json
import os
import re
import subprocess
import sys
import time

from conversation import STILL_AT_B
from story_words import Wrong, get, put, query

SERVICES, STEPS = 1_500, 64
# The least bytes that 64 steps take in memory.
LEAST = 1_024
# Releases that begin, and the metrics of each step; callers, and the long commands of each.
RELEASES, METRICS = 60, 8
CALLERS, COMMANDS, CONDITIONS, LONG = 100, 2, 30, 1_000
# Templates as long, of which each is read as a service that names it is registered; and those of
# them whose conditions have many signs. Of these each sign is a part of what is read, of some 40
# bytes, so that two templates take more than twice the room.
TEMPLATES, SIGNED = 100, 24
# Callers of which nothing is settled, each with a request that is ahead of its turn.
STRANGERS = 40_000
# Services with long histories, and the releases of each, of which each has a line for each step.
TOLD, PASSED = 80, 16
# The room of these, of which services have three eighths, and receipts and histories an eighth
# each.
ROOM = 2 << 20
SECONDS = 300
ACCEPTED, CONFLICT = b"HTTP/1.1 200 ", b"HTTP/1.1 409 "


def request(caller, number, command):
    return put(caller, number, json.dumps(command, separators=(",", ":")).encode())


def registration(number, service, steps):
    """The request that registers a service of these steps."""
    manifest = {"metadata": {"name": service}, "spec": {"strategy": {"canary": {"steps": steps}}}}
    return request("ops", number, {"service": {"manifest": manifest, "version": "v1"}})


def template(caller, number, name, metrics):
    spec = {"metadata": {"name": name}, "spec": {"metrics": metrics}}
    return request(caller, number, {"template": spec})


def registrations():
    steps = [{"setWeight": weight} for weight in range(STEPS)]
    return [registration(number, f"s{number}", steps) for number in range(1, SERVICES + 1)]


def releases():
    """Services that are registered, and each begins a release then, which binds 64 analyses. Then
    each is asked for, and read if it was not kept."""
    wide = [{"name": f"m{at}"} for at in range(METRICS)]
    steps = STEPS * [{"analysis": {"templates": [{"templateName": "wide"}]}}]
    sent = [template("ops", 1, "wide", wide)]
    for at in range(RELEASES):
        start = {"start": {"service": f"s{at}", "version": "v2"}}
        sent += [registration(2 * at + 2, f"s{at}", steps), request("ops", 2 * at + 3, start)]
    return sent + [get(query(f"service s{at}")) for at in range(RELEASES)]


def long_metrics(condition="result <" + LONG * " " + "5"):
    """Metrics whose conditions are long."""
    return [{"name": f"m{at}", "successCondition": condition, "failureCondition": condition}
            for at in range(CONDITIONS)]


def long_commands():
    """Templates of many callers, whose conditions are long."""
    metrics = long_metrics()
    return [template(f"c{caller}", number, "long", metrics) for caller in range(CALLERS)
            for number in range(1, COMMANDS + 1)]


def templates(count, *condition):
    """So many such templates, and for each a service that names it, for which it is read."""
    metrics, sent = long_metrics(*condition), []
    for at in range(count):
        steps = [{"analysis": {"templates": [{"templateName": f"t{at}"}]}}]
        sent += [template("ops", 2 * at + 1, f"t{at}", metrics),
                 registration(2 * at + 2, f"s{at}", steps)]
    return sent


def histories():
    """Services whose releases end at once; the history of each is asked for once it has begun, and
    then it grows."""
    steps, sent, number = [{"setWeight": weight} for weight in range(STEPS)], [], 0
    for at in range(TOLD):
        sent.append(registration(number := number + 1, f"s{at}", steps))
        sent.append(get(query(f"history s{at}")))
        for release in range(PASSED):
            start = {"start": {"service": f"s{at}", "version": f"v{release + 2}"}}
            sent.append(request("ops", number := number + 1, start))
    return sent


def ahead():
    """Requests of many callers, each ahead of its turn: nothing is settled, but that is kept."""
    return [request(f"c{at}", 2, {"tick": {"service": "web"}}) for at in range(STRANGERS)]


def most_memory(process):
    """The most bytes of memory that a process has taken so far."""
    with open(f"/proc/{process.pid}/status", encoding="ascii") as status:
        return 1_024 * int(re.search(r"VmHWM:\s+(\d+) kB", status.read())[1])


def wait_for_replies(process, answers, count, told):
    """Waits until all requests have such a reply."""
    end = time.monotonic() + SECONDS
    while time.monotonic() < end and process.poll() is None:
        with open(answers, "rb") as found:
            if found.read().count(told) == count:
                return
        time.sleep(0.1)
    raise Wrong("a desk that keeps what it reads does not answer all requests as it must")


def memory_with(program, folder, sent, words, told=ACCEPTED):
    """The most memory of a desk with these words, which answers these requests."""
    file, answers = (os.path.join(folder, name) for name in ("roomed", "roomed-answers"))
    for path in (file, f"{file}-wal"):
        if os.path.exists(path):
            os.remove(path)
    with open(answers, "wb") as output, subprocess.Popen(
            [program, *STILL_AT_B, "--db", file, *words], stdin=subprocess.PIPE,
            stdout=output) as process:
        process.stdin.write(b"".join(sent))
        process.stdin.flush()
        wait_for_replies(process, answers, len(sent), told)
        most = most_memory(process)
        process.stdin.close()
        if process.wait(SECONDS) != 0:
            raise Wrong(f"a desk with {words} ends with {process.returncode}")
    return most


def try_services(program, folder):
    """With room for them a desk keeps the services that it registers, and without room none."""
    sent = registrations()
    nothing, little, by_default = (memory_with(program, folder, sent, words) for words in (
        ["--cache", "1"], ["--cache", "262144"], []))
    if by_default - nothing < SERVICES * LEAST:
        raise Wrong(f"a desk keeps no services: {nothing}, {by_default} bytes of memory")
    if little - nothing > SERVICES * LEAST // 2:
        raise Wrong(f"a desk keeps more than --cache says: {nothing}, {little} bytes of memory")


def try_room(program, folder, row, sent, told=ACCEPTED):
    """What a desk keeps of these takes no more than twice the room, which is an estimate. All of it
    would take more than three times the room. Without room, a desk takes no more for all of it than
    for the first tenth: what had no weight would be kept there, too."""
    tenth = sent[:len(sent) // 10]
    few, nothing, kept = (memory_with(program, folder, asked, ["--cache", room], told)
                          for asked, room in ((tenth, "1"), (sent, "1"), (sent, str(ROOM))))
    print(f"files: {row}: {kept - nothing} bytes of memory more in a room of {ROOM}, and without "
          f"room {nothing - few} more than for a tenth", file=sys.stderr)
    if nothing - few > ROOM:
        raise Wrong(f"{row}: a desk without room keeps them: {few}, {nothing}")
    if kept - nothing > 2 * ROOM:
        raise Wrong(f"{row}: a desk keeps more than --cache says: {nothing}, {kept}")


def main():
    program, folder = sys.argv[1:]
    try:
        try_services(program, folder)
        try_room(program, folder, "services that grow", releases())
        try_room(program, folder, f"receipts of {CALLERS} callers", long_commands())
        try_room(program, folder, "templates that are read", templates(TEMPLATES))
        try_room(program, folder, "templates of many signs that are read",
                 templates(SIGNED, LONG * "!" + "result < 5"))
        try_room(program, folder, "histories that grow", histories())
        try_room(program, folder, f"counts of {STRANGERS} callers", ahead(), CONFLICT)
    except (Wrong, subprocess.TimeoutExpired) as fault:
        sys.exit(f"files: {fault}")


main()
