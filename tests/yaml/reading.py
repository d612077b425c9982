"""Compares what a program reads in YAML with what PyYAML reads: reading.py --program FILE
[--seed N] [--all] [PART..]. The comment at the top of tests/yaml/run says what is tried."""
import argparse
import collections
import json
import random
import re
import resource
import subprocess
import sys

import kubectl
import large
import making
import reference
from chosen import chosen

LIMIT = 60
REFUSAL = re.compile(r"line (\d+), column (\d+): (\S.*)")
# What of the structure of a text YAML 1.1, by which PyYAML reads, and 1.2 have otherwise: ends of
# lines, a byte order mark within a text, and a question mark in brackets.
UNCLEAR = re.compile("[\u0085\u2028\u2029]|.\ufeff|[\\[{,]\\s*\\?", re.DOTALL)
# Of the changed texts at most this share is read by one of the two alone: tabs as white space,
# documents without `---`, and single CR among others.
MOST_ALONE = 0.1
PROGRAM = None


class Stopped(Exception):
    """The program neither read nor refused a text."""


def asked(text):
    """The line by which the program is asked for the documents of a text in bytes."""
    try:
        return json.dumps(text.decode()).encode() + b"\n"
    except UnicodeDecodeError:
        return json.dumps({"bytes": text.hex()}).encode() + b"\n"


def read_by_program(text):
    """("read", documents) or ("refused", line): what the program makes of a text in bytes."""
    try:
        done = subprocess.run([PROGRAM], input=asked(text), capture_output=True, timeout=LIMIT,
                              check=False)
    except subprocess.TimeoutExpired as error:
        raise Stopped(f"more than {LIMIT} seconds") from error
    answer = done.stdout.decode()
    if done.returncode or not answer.endswith("\n"):
        raise Stopped(f"status {done.returncode}: {done.stderr[:300]}")
    if answer.startswith("!"):
        return "refused", answer[1:-1]
    return "read", [value for _line, value in json.loads(answer)]


def shown(value):
    return repr(value)[:600]


class Group:
    """Texts of one kind, and what came of them."""

    def __init__(self, name):
        self.name, self.counts, self.faults = name, collections.Counter(), []

    def fault(self, why, text, *more):
        self.faults.append("\n  ".join([why, shown(text), *map(shown, more)]))

    def answer(self, text):
        """What the program makes of a text; None if it stopped, or names no place of the text."""
        try:
            state, found = read_by_program(text)
        except Stopped as error:
            self.fault(str(error), text)
            return None
        if state == "refused" and not is_place(found, text):
            self.fault("no place of the text", text, found)
            return None
        return state, found

    def judge(self, text, is_strict):
        """Compares the program with PyYAML, which may read otherwise if it is not strict."""
        answer = self.answer(text)
        if not answer:
            return None
        wanted = core_of(text)
        kind = kind_of(answer, wanted)
        self.counts[kind] += 1
        is_wrong = kind != "refused by both" and kind != "read alike"
        if is_strict and is_wrong or kind == "READ OTHERWISE" and not is_unclear(text):
            self.fault(kind, text, answer, wanted)
        return answer

    def end(self):
        told = ", ".join(f"{count} {kind}" for kind, count in sorted(self.counts.items()))
        print(f"tests/yaml: {self.name}: {told}")
        for fault in self.faults[:3]:
            print(f"tests/yaml: {self.name}: {fault}", file=sys.stderr)
        return len(self.faults)


def kind_of(answer, wanted):
    state, found = answer
    if state != wanted[0]:
        return f"{state} here alone"
    if state == "refused":
        return "refused by both"
    return "read alike" if reference.same(found, wanted[1]) else "READ OTHERWISE"


def core_of(text):
    try:
        return reference.core(text.decode())
    except UnicodeDecodeError:
        return "refused", "no UTF-8"


def is_unclear(text):
    return UNCLEAR.search(text.decode(errors="replace")) is not None


def is_place(refusal, text):
    """Whether a refusal names a line and a column of the text, or the place after it."""
    found = REFUSAL.fullmatch(refusal)
    if not found:
        return False
    line, column = int(found[1]), int(found[2])
    lines = text.decode(errors="replace").split("\n")
    columns = len(lines[line - 1]) if 1 <= line <= len(lines) else 0
    return 1 <= line <= len(lines) + 1 and 1 <= column <= columns + 1


def try_scalars(_rng, _count):
    """Each scalar as an item in brackets, as a value, and as a key."""
    group = Group("scalars on which versions may part")
    for word in making.SCALARS:
        for text in f"- {word}\n", f"a: {word}\n", f"{word}: a\n", f'"{word}"\n', f"'{word}': b\n":
            group.judge(text.encode(), is_strict=True)
    return group.end()


def try_printed(rng, count):
    """What kubectl prints is read, as what it printed."""
    group = Group("as kubectl prints")
    for text, value in (making.printed(rng) for _ in range(count // 4)):
        answer = group.answer(text.encode())
        is_same = answer and answer[0] == "read" and reference.same(answer[1], [value])
        group.counts["read as what was printed" if is_same else "READ OTHERWISE"] += 1
        if answer and not is_same:
            group.fault("not what was printed", text, answer, value)
    return group.end()


def try_json(rng, count):
    """JSON is read as Python reads it."""
    group = Group("JSON")
    for text in (making.as_json(rng) for _ in range(count // 10)):
        answer = group.answer(text.encode())
        is_same = answer and answer[0] == "read" and reference.same(answer[1], [json.loads(text)])
        group.counts["read alike" if is_same else "READ OTHERWISE"] += 1
        if answer and not is_same:
            group.fault("not as Python reads it", text, answer)
    return group.end()


def try_dumped(rng, count):
    group = Group("as yaml.safe_dump prints")
    for _ in range(count // 4):
        group.judge(making.dumped(rng).encode(), is_strict=True)
    return group.end()


def try_mutated(rng, count):
    group, count = Group("changed at random"), count * 4 // 10
    make = [lambda: making.printed(rng)[0], lambda: making.as_json(rng),
            lambda: making.dumped(rng)]
    for _ in range(count):
        group.judge(making.mutated(rng, rng.choice(make)()), is_strict=False)
    alone = sum(it for kind, it in group.counts.items() if kind.endswith("alone"))
    if alone > count * MOST_ALONE:
        group.faults.append(f"{alone} of {count} are read by one alone")
    return group.end()


def seconds_of(text):
    """What the program makes of a text, and its seconds of a processor."""
    before = resource.getrusage(resource.RUSAGE_CHILDREN)
    answer = read_by_program(text)
    after = resource.getrusage(resource.RUSAGE_CHILDREN)
    return answer, after.ru_utime - before.ru_utime + after.ru_stime - before.ru_stime


def try_large(_rng, _count):
    """Large and hostile texts, each within a second of a processor, at the best of three times."""
    group, slowest = Group("large and hostile texts"), 0
    for name, (text, is_read) in large.TEXTS.items():
        text = text if isinstance(text, bytes) else text.encode()
        try:
            (state, found), seconds = seconds_of(text)
            for _ in range(2 if seconds > 1 else 0):
                seconds = min(seconds, seconds_of(text)[1])
        except Stopped as error:
            group.faults.append(f"{name}: {error}")
            continue
        group.counts[state] += 1
        slowest = max(slowest, seconds)
        if seconds > 1:
            group.faults.append(f"{name}: {seconds:.2f} seconds")
        is_wrong = is_read not in (None, state == "read")
        if is_wrong or state == "refused" and not is_place(found, text):
            group.faults.append(f"{name}: {state}: {shown(found)}")
    print(f"tests/yaml: the slowest large text took {slowest:.2f} seconds of a processor")
    return group.end()


def try_kubectl(rng, count):
    """What kubectl prints is read as what it was given, and what is read of a plain scalar is what
    kubectl reads."""
    group = Group("kubectl")
    if not kubectl.is_here():
        print("tests/yaml: kubectl is not here")
        return 0
    words = [it for it in making.SCALARS if kubectl.is_value(it)]
    for word, value in zip(words, kubectl.read(words)):
        answer = group.answer(f"a: {word}\n".encode())
        group.counts[f"scalars {answer and answer[0]}"] += 1
        if answer and answer[0] == "read" and not kubectl.alike(answer[1][0]["a"], value):
            group.fault("kubectl reads another value", word.encode(), answer, value)
    values = kubectl.printable(making.structure(rng) for _ in range(count // 10))
    answer = group.answer(kubectl.printed(values).encode())
    found = [it["spec"]["value"] for it in answer[1]] if answer and answer[0] == "read" else []
    group.counts["values printed"] += len(values)
    for value, one in zip(values, found):
        if not kubectl.alike(value, one):
            group.fault("kubectl printed", repr(value).encode(), one)
    if len(values) != len(found):
        group.faults.append(f"{len(found)} of {len(values)} values were read: {shown(answer)}")
    return group.end()


PARTS = [try_scalars, try_kubectl, try_printed, try_json, try_dumped, try_mutated, try_large]


def main():
    global PROGRAM
    words = argparse.ArgumentParser()
    words.add_argument("--seed", type=int, default=0)
    words.add_argument("--all", action="store_true")
    words.add_argument("--program", required=True)
    words.add_argument("parts", nargs="*", metavar="PART")
    given = words.parse_args()
    PROGRAM = given.program
    count = 10_000 if given.all else 1_000
    print(f"tests/yaml: {count} texts, --seed {given.seed}")
    faults = sum(part(random.Random(given.seed), count)
                 for part in chosen("tests/yaml", PARTS, given.parts))
    if faults:
        print(f"tests/yaml: {faults} faults; --seed {given.seed} repeats them", file=sys.stderr)
    return 1 if faults else 0


if __name__ == "__main__":
    sys.exit(main())
