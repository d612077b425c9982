"""Sends a program the stories of tests/stories, and compares its replies: stories.py PROGRAM FILE..
(tests/stories/run finds the program). tests/stories/README.md says what a file has."""
import itertools
import json
import math
import os
import re
import subprocess
import sys
import tempfile

from book_files import copy
from story_words import (
    B, LINES, Wrong, answer, blocks, body, command, event, expanded, expect, get, message,
    put, query, replies, reply, wire,
)

NOWHERE = get("/nowhere")


def run_of_moments(events):
    """The longest front of events that all stand at one moment, or each later than the one before
    it, and the rest."""
    moments = [moment for moment, _ in events]
    pauses = [later - now for now, later in zip(moments, moments[1:])]
    is_still = pauses[:1] == [0]
    for count, pause in enumerate(pauses, 1):
        if pause < 0 or (pause == 0) != is_still:
            return events[:count], events[count:]
    return events, []


def spaced(events):
    """Such events in one stream, with queries of nothing between them, each of which passes a step
    of the clock: the stream, which of its messages are the events, the first moment, the step."""
    moments = [moment for moment, _ in events]
    pauses = [later - now for now, later in zip(moments, moments[1:])]
    step = math.gcd(*pauses)
    stream, kept = b"", []
    for pause, (_, message) in zip([*pauses, step], events):
        fill = pause // step - 1 if step else 0
        kept += [True] + [False] * fill
        stream += message + NOWHERE * fill
    return stream, kept, B + moments[0], step


def asked_of(found, kept):
    """The replies to the events of such a stream."""
    return [told for told, is_asked in zip(found, kept, strict=True) if is_asked]


class Program:
    """The program, and a folder for its files."""

    def __init__(self, path, folder):
        self.path, self.folder = path, folder
        self.files = itertools.count()

    def run(self, words, stream=b"", status=0):
        """What the program writes on that input; it has to end with that status."""
        ran = subprocess.run([self.path, *words], input=stream, capture_output=True, timeout=60)
        if ran.returncode != status:
            raise Wrong(f"{words}: status {ran.returncode}: {ran.stderr.decode()}")
        return ran.stdout

    def fault(self, words, stream):
        """The standard error of the program, which ends with status 1 and writes nothing."""
        ran = subprocess.run([self.path, *words], input=stream, capture_output=True, timeout=60)
        if ran.returncode != 1 or ran.stdout:
            raise Wrong(f"{words}: status {ran.returncode}: {ran.stdout.decode()}")
        return ran.stderr.decode()

    def warnings(self, words):
        """What the program writes to standard error if it ends with status 0."""
        ran = subprocess.run([self.path, *words], capture_output=True, timeout=60)
        if ran.returncode:
            raise Wrong(f"{words}: status {ran.returncode}: {ran.stderr.decode()}")
        return ran.stderr

    def pipe(self, stream, at=B, step=1, status=0, book=()):
        return self.run(["pipe", "--at", str(at), "--step", str(step), *book], stream, status)

    def in_memory(self, events):
        """The replies to events at their moments by a book in memory; nothing if no clock of one
        step has these moments."""
        first, rest = run_of_moments(events)
        if rest:
            return None
        stream, kept, at, step = spaced(first)
        return asked_of(replies(self.pipe(stream, at, step)), kept)

    def new_file(self):
        """The path of a file that is not there yet."""
        return os.path.join(self.folder, f"book{next(self.files)}")

    def in_file(self, events, file):
        """The replies by a book in a file, which is opened anew when the pauses change."""
        found, rest = [], events
        while rest:
            first, rest = run_of_moments(rest)
            stream, kept, at, step = spaced(first)
            written = self.pipe(stream, at, step, book=("--db", file))
            found += asked_of(replies(written), kept)
        return found

    def told(self, events):
        """The replies to events at their moments."""
        found = self.in_memory(events)
        return self.in_file(events, self.new_file()) if found is None else found


def tell(program, rows, events, wanted):
    found = program.told(events)
    if len(found) != len(rows):
        raise Wrong(f"{rows[0]}: {len(found)} replies to {len(rows)} messages")
    for row, told, want in zip(rows, found, wanted):
        expect(row, told[2], want)


def told_desk(program, block):
    """Requests and queries on a new desk."""
    rows = [row for line in block for row in LINES.get(line, [line])]
    parts = [row.split(" => ") for row in rows]
    events = [event(asked) for asked, _ in parts]
    tell(program, rows, events, [answer(told) for _, told in parts])
    return len(rows)


def lines_of(text):
    """The words of lines, each with its seconds after B."""
    moment, words = text.split(" ", 1)
    seconds = int(moment)
    clock = f"{seconds // 3600:02}:{seconds // 60 % 60:02}:{seconds % 60:02}"
    return f"2026-01-01T{clock}Z {words}"


def history(lines):
    if not lines:
        return reply("404 Not Found", body("unknown-service"))
    shown = ",".join(f'"{line}"' for line in lines)
    return reply("200 OK", f'{{"code":"ok","lines":[{shown}],"service":"web"}}'.encode())


def told_histories(program, block):
    """Requests of ops, each with the lines that it adds to the history of web."""
    rows, events, wanted, lines = [], [], [], []
    for number, row in enumerate(block, 1):
        asked, told, added = row.split(" => ")
        moment, asked = asked.split(" ", 1)
        lines += [lines_of(line) for line in added.split(";") if line not in ("", "nothing")]
        told = told if told.startswith("[") else f"422 {told}"
        events += [(int(moment), put("ops", number, command(asked)))]
        events += [(int(moment), get(query("history web")))]
        rows += [row, row]
        wanted += [answer(told), history(lines)]
    tell(program, rows, events, wanted)
    return len(block)


def answered_alone(program, asked):
    """The replies to requests at one moment."""
    return replies(program.pipe(b"".join(asked), B, 0))


def by_condition(number, text):
    """A request of a caller of its own for a template with that condition."""
    metric = {"name": "m", "successCondition": expanded(text).decode()}
    return put(f"c{number}", 1, registered(number, metric))


def registered(number, metric):
    """The body that registers a template of one metric."""
    spec = {"metadata": {"name": f"t{number}"}, "spec": {"metrics": [metric]}}
    return json.dumps({"template": spec}).encode()


def told_readings(program, rows, texts, is_accepted):
    """Texts, each the condition of a template: all are accepted, or all are refused as none."""
    asked = [by_condition(number, text) for number, text in enumerate(texts)]
    told = answered_alone(program, asked)
    for number, (row, found) in enumerate(zip(rows, told, strict=True)):
        expect(row, found[2], answer(f"[t{number} 1]" if is_accepted else "422 bad-condition"))
    return len(rows)


def phase_events(number, row):
    """What brings a result to a run whose metric has these conditions."""
    success, failure, result, _ = row.split(" => ")
    web, metric = f"web{number}", {"name": "m"}
    for key, text in (("success", success), ("failure", failure)):
        if text:
            metric[f"{key}Condition"] = expanded(text).decode()
    report = f"report 1 m:1:0:{result}"
    asked = [registered(number, metric)]
    asked += [command(text, web) for text in (f"service v1 analysis:t{number}", "start v2", report)]
    return [put(f"c{number}", at, body) for at, body in enumerate(asked, 1)]


def told_phases(program, rows):
    asked = [message for number, row in enumerate(rows) for message in phase_events(number, row)]
    told = answered_alone(program, asked)
    expect(rows[0], len(told), 4 * len(rows))
    for row, found in zip(rows, told[3::4]):
        phases = re.search(rb'"phases":\["(\w+)"\]', found[1])
        expect(row, phases and phases[1].decode(), row.split(" => ")[3])
    return len(rows)


def checked(program, condition):
    """What `canary check` says of a template with that condition, which is none."""
    file = os.path.join(program.folder, "manifest")
    metric = {"name": "m", "successCondition": condition.decode()}
    spec = {"metadata": {"name": "t"}, "spec": {"metrics": [metric]}}
    with open(file, "w", encoding="utf-8") as manifest:
        json.dump({"kind": "AnalysisTemplate", **spec}, manifest)
    return program.run(["check", file], status=1).decode()


def excerpt(text, at):
    """The lines that show a text, or 60 of its bytes, with a caret under the byte at that place."""
    start = min(max(at - 30, 0), max(len(text) - 60, 0))
    shown = "".join(chr(byte) if 32 <= byte < 127 else "?" for byte in text[start:start + 60])
    front, end = "..." if start else "", "..." if start + 60 < len(text) else ""
    return f"    {front}{shown}{end}\n    {' ' * (len(front) + at - start)}^\n"


def told_stops(program, rows):
    """Texts that are not conditions, each with the byte at which, as `canary check` says, it stops
    being one, what it expects there, and what it says to write instead, if it says so."""
    where = 'spec.metrics[0].successCondition (metric "m"), byte'
    for row in rows:
        text, told, *instead = row.split(" => ")
        byte, expected = told.split(" ", 1)
        wanted = f"{where} {byte}: expected {expected}\n{excerpt(expanded(text), int(byte))}"
        wanted += "".join(f"    instead: {what}\n" for what in instead)
        expect(row, checked(program, expanded(text)), wanted)
    return len(rows)


def told_instead(program, rows, what):
    """Texts that are no condition, each with one that may be written instead: `canary check` says
    the same of all."""
    forms, others = zip(*(row.split(" => ") for row in rows))
    for row, form in zip(rows, forms):
        expect(row, checked(program, expanded(form)).split("\n")[3:], [f"    instead: {what}", ""])
    told_readings(program, rows, forms, False)
    return told_readings(program, rows, others, True)


def told_conditions(program, block):
    """Conditions: valid ones, the places at which other texts stop being one, what to write in
    their place, and the phases of results."""
    head, *rows = block
    if head == "phases":
        return told_phases(program, rows)
    if head == "stops":
        return told_stops(program, rows)
    if head.startswith("instead "):
        return told_instead(program, rows, head.removeprefix("instead "))
    return told_readings(program, rows, rows, {"accepted": True, "refused": False}[head])


class Streams:
    """Streams of bytes, and the bytes that answer them. The first conversation is the release."""

    def __init__(self):
        self.release = []

    def told(self, program, block):
        head, *rows = block
        if head == "messages":
            self.release = self.release or [message(row) for row in rows]
            self.tell_messages(program, rows, [message(row) for row in rows])
        elif match := re.fullmatch(r"each after (\d+) of the release", head):
            for row in rows:
                self.tell_messages(program, [row], [*self.release[:int(match[1])], message(row)])
        elif match := re.fullmatch(r"unanswered ([01])", head):
            for row in rows:
                expect(row, program.pipe(wire(row), status=int(match[1])), b"")
        else:
            self.tell_bytes(program, head, rows)
        return len(rows)

    def tell_messages(self, program, rows, messages):
        found = program.pipe(b"".join(sent for sent, _ in messages))
        expect(rows, found, b"".join(told for _, told in messages))

    def tell_bytes(self, program, head, rows):
        fields = re.fullmatch(r"answered(?: with (.*))?|bytes", head)[1]
        for row in rows:
            sent, *told = row.split(" => ")
            want = wire(told[0]) if head == "bytes" else reply(
                told[0], told[1].encode(), f"{fields}\r\n" if fields else "")
            expect(row, program.pipe(wire(sent)), want)


def between(head):
    """What stands before and after the texts of a block."""
    return head.removeprefix("between ").split("...", 1) if head != "between ..." else ("", "")


def told_bodies(program, block):
    """Bodies of requests: which read as a command, and why others do not."""
    head, *rows = block
    if head == "same":
        return told_pairs(program, rows)
    front, end = (part.strip() for part in between(head))
    asked = []
    for number, row in enumerate(rows):
        text = expanded(front + row.split(" ", 1)[1] + end)
        asked.append(put(f"c{number}", 1, text))
    told = answered_alone(program, asked)
    for row, (status, found, _) in zip(rows, told, strict=True):
        want = row.split(" ")[0]
        if want == "reads":
            expect(row, status in (200, 422), True)
        else:
            expect(row, (status, found), (400, body(want)))
    return len(rows)


def told_pairs(program, rows):
    """Two bodies under one number: the second gets the reply of the first if they are one."""
    for row in rows:
        one, other = row.split(" = ")
        asked = [put("ops", 1, text.encode()) for text in (one, other)]
        first, again = answered_alone(program, asked)
        expect(row, first[0] in (200, 422), True)
        expect(row, again, first)
    return len(rows)


# The words of `check` for the blocks of some kinds.
WORDS_OF = {"request": ["--request"], "begins-request": ["--request"],
            "warns-request": ["--request"], "strict": ["--strict"]}


def told_of_manifest(program, kind, file, wanted):
    """What `canary check` says of a manifest, or of the body of a request; or the front or the end
    of it that is as long as what is wanted, or what it warns of."""
    words = ["check", *WORDS_OF.get(kind, []), file]
    if kind.startswith("warns"):
        return program.warnings(words)
    found = program.run(words, status=0 if wanted == b"ok\n" else 1)
    if kind.startswith("begins"):
        return found[:len(wanted)]
    return found[-len(wanted):] if kind == "ends" else found


def told_manifests(program, block):
    """Manifests, or bodies of requests, each with what `canary check` finds in it."""
    head, *rows = block
    kind, _, around = head.partition(" ")
    front, end = (part.strip() for part in around.split("...", 1)) if around else ("", "")
    file = os.path.join(program.folder, "manifest")
    for row in rows:
        text, told = row.split(" => ")
        with open(file, "wb") as manifest:
            manifest.write(expanded(front + text + end))
        wanted = told.replace(" | ", "\n") + ("" if kind.startswith("begins") else "\n")
        wanted = b"" if told == "nothing" else wanted.encode()
        expect(row, told_of_manifest(program, kind, file, wanted), wanted)
    return len(rows)


HEADER = "caller,number,service,run,metric,ordinal,taken,result,failure"

# Behind these run 1 of web is open: that of its background, with a metric due every minute.
WATCHED = ["ops 1 0 template errs m,interval=60 => [errs 1]", *LINES["background"]]


def book_of(program, rows):
    """The file of a new book, in which requests are settled as these rows say."""
    file = program.new_file()
    asked, told = zip(*(row.split(" => ") for row in rows))
    found = program.in_file([event(text) for text in asked], file)
    for row, (_, _, stream), want in zip(rows, found, told, strict=True):
        expect(row, stream, answer(want))
    return file


def copied(program, file):
    """A copy of a book's file, with its log."""
    made = program.new_file()
    copy(file, made)
    return made


def import_line(number, told):
    """The line of a row: a phase alone stands for that of an accepted report."""
    if " " not in told:
        told = f"200 [web Paused 1 20 | 1 {told} | Running]"
    status, told = told.split(" ", 1)
    return f"{number} {status} ".encode() + body(told) + b"\n"


def tell_import(program, row, told, file, book):
    """A measurement file that is imported into a book, and the lines that this writes."""
    wanted = b"".join(import_line(number, text) for number, text in enumerate(told, 1))
    expect(row, program.run(["import", "--db", book, "-"], file), wanted)


def told_imports(program, block):
    """Rows of one measurement file, or files, with either end of line; or an export."""
    head, *rows = block
    if head == "export":
        return told_export(program, rows)
    book = book_of(program, WATCHED)
    texts, answers = rows, []
    if head == "rows":
        parts = [row.split(" => ") for row in rows]
        texts = ["|".join([HEADER, *(text for text, _ in parts)])]
        answers = [told for _, told in parts]
    for text, end in itertools.product(texts, (b"\n", b"\r\n")):
        file = expanded(text).replace(b"|", end)
        if end not in file and end != b"\n":
            continue
        if head == "other headers":
            found = program.fault(["import", "--db", book, "-"], file)
            expect(text, found, "canary: header\n")
        else:
            tell_import(program, text, answers, file, copied(program, book))
    return len(rows)


def told_export(program, rows):
    """Requests to a new book, and what is exported of web under the caller copy."""
    *asked, file = rows
    book = book_of(program, asked)
    wanted = expanded(f"{HEADER}|{file}").replace(b"|", b"\n")
    expect(file, program.run(["export", "--db", book, "--caller", "copy", "web"]), wanted)
    return len(rows)


def tell_file(program, file):
    with open(file, encoding="utf-8") as opened:
        head, text = opened.read().split("\n", 1)
    kind, count = head.split(" ")[:2]
    told = {
        "desk": told_desk, "histories": told_histories, "conditions": told_conditions,
        "streams": Streams().told, "bodies": told_bodies, "manifests": told_manifests,
        "imports": told_imports,
    }[kind]
    rows = sum(told(program, block) for block in blocks(text))
    if rows != int(count):
        raise Wrong(f"{file}: {rows} rows were told, and its head says {count}")
    return rows


def main():
    path, *files = sys.argv[1:]
    rows, wrong = 0, 0
    with tempfile.TemporaryDirectory() as folder:
        program = Program(path, folder)
        for file in files:
            try:
                rows += tell_file(program, file)
            except Wrong as fault:
                print(f"stories: {file}: {fault}", file=sys.stderr)
                wrong += 1
    print(f"stories: {rows} rows are as they say", file=sys.stderr)
    sys.exit(1 if wrong or not rows else 0)


main()
