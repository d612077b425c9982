"""The client, of which one allocation is refused, beside a desk in memory: a part of refused.py."""
import contextlib
import os
import re
import subprocess

from story_words import Wrong, expect

LISTENING = re.compile(rb"listening (127\.0\.0\.1:\d+)\n")
MANIFEST = (b'{"metadata":{"name":"web"},"spec":{"strategy":{"canary":{"steps":[{"setWeight":20},'
            b'{"pause":{}}]}}}}')
PAUSED = b'{"code":"ok","service":"web","status":"Paused","step":1,"weight":20}\n'
# What a call may come to if it finds no memory: nothing was asked, or it is asked again.
NO_MEMORY = [
    (1, b"", b"canary: memory"),
    (5, b"", b"canary: out of memory"),
    (5, b"", b"canary: the journal cannot be opened, read or written"),
]


def without_path(found, file):
    """What a call came to, without the journal's path at the end of its sentence."""
    return (*found[:2], found[2].removesuffix(b": " + os.fsencode(file)))


@contextlib.contextmanager
def desk_of(program):
    """A desk in memory, and the address on which it listens."""
    words = [program, "serve", "--listen", "127.0.0.1:0"]
    with subprocess.Popen(words, stdout=subprocess.PIPE, stderr=subprocess.DEVNULL,
                          stdin=subprocess.DEVNULL) as desk:
        try:
            yield LISTENING.fullmatch(desk.stdout.readline())[1].decode()
        finally:
            desk.kill()


def call(trial, address, words):
    """The words of a call of `do` with the trial's journal."""
    return ["do", "--desk", address, "--as", "ops", "--journal", trial.file, *words]


def refuse_in(trial, row, words, wanted, **variables):
    """A function that refuses an allocation of a call, and makes it again with nothing refused."""
    def refuse(number):
        found = trial.run(words(number), number, **variables)
        asked = trial.asked()
        if found[:2] != wanted[:2] and without_path(found, trial.file) not in NO_MEMORY:
            raise Wrong(f"{row}: when allocation {number} is refused: {found!r}")
        expect(f"{row}: after a refusal of allocation {number}",
               trial.run(words(number), **variables), wanted)
        return asked

    return refuse


def refuse_by_variables(trial, share):
    """Each allocation of a call is refused that reads its options from variables, from those of the
    first variable on. It ends as it opens the journal, of which the folder is not there."""
    row, words = "client do, by variables", ["do", "tick", "web"]
    given = {"CANARY_DESK": "127.0.0.1:1", "CANARY_AS": "ops", "CANARY_JOURNAL": "/nowhere/ops"}
    wanted = (5, b"", b"canary: the journal cannot be opened, read or written: /nowhere/ops")
    expect(row, trial.run(words, **given), wanted)
    trial.run(words, **{**given, "CANARY_DESK": ""})
    share.each_from(trial.asked()).refuse_each(
        row, refuse_in(trial, row, lambda number: words, wanted, **given))


# What a crash left after the closed gate: a part of the next record.
TORN = b'{"asked":{"bo'


def begin_with(file, left):
    """The file has these bytes, or is not there."""
    if left is None:
        with contextlib.suppress(FileNotFoundError):
            os.remove(file)
        return
    with open(file, "wb") as journal:
        journal.write(left)


def refuse_in_calls(trial, share, address):
    """Allocations of a call are refused that reads a journal; and each one of a call that reads one
    with a torn rest, and of one that begins a journal, by a caller of its own. The file is as
    before each time: with a record more for each allocation no call would ever ask for fewer."""
    with open(trial.file, "rb") as file:
        whole = file.read()
    each = share.each_from(1)
    for row, share_of_row, left, caller in (
            ("client do", share, whole, lambda number: "ops"),
            ("client do, a torn journal", each, whole + TORN, lambda number: "ops"),
            ("client do, a new journal", each, None, lambda number: f"n{number}")):
        def words(number, row=row, caller=caller):
            return ["do", "--desk", address, "--as", caller(number), "--journal", trial.file,
                    "--once", row, "tick", "web"]

        refuse_once = refuse_in(trial, row, words, (0, PAUSED, b""))

        def refuse(number, left=left, refuse_once=refuse_once):
            begin_with(trial.file, left)
            return refuse_once(number)

        share_of_row.refuse_each(row, refuse)
    begin_with(trial.file, whole)


def ask_refused(trial, share):
    """Commands with keys of their own, and a query: each gets its reply, or says why not; and the
    same call gets it then."""
    manifest = trial.rows
    with open(manifest, "wb") as file:
        file.write(MANIFEST)
    with contextlib.suppress(FileNotFoundError):
        os.remove(trial.file)
    refuse_by_variables(trial, share)
    with desk_of(trial.program) as address:
        begun = trial.run(call(trial, address, ["service", manifest, "v1"]))
        expect("client: a service", begun[0], 0)
        started = trial.run(call(trial, address, ["start", "web", "v2"]))
        expect("client: a start", started, (0, PAUSED, b""))
        refuse_in_calls(trial, share, address)
        query = ["get", "--desk", address, "web", "history"]
        shown = trial.run(query)
        expect("client: a history", shown[0], 0)
        share.refuse_each("client get", refuse_in(
            trial, "client get", lambda number: query, shown))
