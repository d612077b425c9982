"""The copying of a long log into the desk's file, attacked at each call of it: a part of disk.py.
A desk copies its log once that has 4,096,000 bytes of pages, before it settles the message that
comes then. Each attack begins with the same file, whose log is one message short of that."""
import functools
import os
import random
import re
import resource
import sqlite3
import sys
import time
from collections import Counter

from book_files import copy, size
from disk_story import (
    REFUSED, Desk, begin_large, fail, in_time, standing, tell_failing, told_by, went_on,
)
from failing import CALLS, under_strace
from power_cuts import CALL, TRACED, Trace, settled_at, write_image
from story_tables import ENDED_OUTSIDE, REPORT, SERVICE, SUCCESSFUL, TEMPLATE, tables_of
from story_words import Wrong, answer, body, command, put, B

BEGUN = (("ops 1 template errs m,interval=60", "[errs 1]", TEMPLATE),
         ("ops 2 service v1 setWeight:20 pause background:errs", "[web Healthy 2 100]", SERVICE),
         ("ops 3 start v2", "[web Paused 1 20]", '{"start":{"service":"web","version":"v2"}}'))
PAUSED = ("background run {}", "step 0 setWeight 20", "step 1 pause")
# What `status --json` writes of the service once its release is ended.
STATUS = ('{"name":"web","runs":[],"stable":"v1","status":"Degraded","step":1,"steps":2,'
          '"version":"v2","weight":0}\n')
# More messages than it takes to make the log long, and how many come once it is.
ENOUGH, LATER = 400, 4
# The size of a page of the file: so a long log has few pages, each many times.
PAGE = 4_096
# How long the attacks of a part are, beside the first ones, if not each is wanted.
SECONDS = 15
# What becomes of a call, and of those after it.
ATTACKS = (("error=EIO", ""), ("error=ENOSPC", ""), ("error=EIO", "+"), ("error=ENOSPC", "+"),
           ("signal=SIGKILL", ""))
# The name of a call, its file, and its last argument if that is a number.
MADE = re.compile(r"^\d+ +(\w+)\(\d+<(.*?)>(?:.*?, (\d+))?(?:\) += |,? +<unfinished)")


class Conversation:
    """Messages that begin a release, end it and begin it again, each of which acts: so one that
    is settled twice shows. An agent reports once, as soon as it can from the message REPORTING on;
    and the last of at least COUNT messages ends the release."""

    def __init__(self, reporting, count):
        self.messages, self.kept, self.lines = [], [], ["created v1", "start v2"]
        self.run, self.reported, self.is_open = 1, None, True
        for row in BEGUN:
            self.add(*row)
        self.lines += [line.format(1) for line in PAUSED]
        while len(self.messages) < count or self.is_open:
            if self.reported is None and len(self.messages) >= reporting and self.is_open:
                self.report()
            elif self.is_open:
                self.abort()
            else:
                self.retry()

    def add(self, told, wanted, canonical):
        caller, number, asked = told.split(" ", 2)
        self.messages.append((put(caller, number, command(asked)), answer(wanted)))
        self.kept.append((caller, int(number), canonical, 200, body(wanted).decode()))

    def next_number(self):
        return 1 + sum(caller == "ops" for caller, *_ in self.kept)

    def abort(self):
        self.add(f"ops {self.next_number()} abort", "[web Degraded 1 0]",
                 '{"abort":{"service":"web"}}')
        self.lines += ["abort", f"run {self.run} Successful ended"]
        self.is_open = False

    def retry(self):
        self.add(f"ops {self.next_number()} retry", "[web Paused 1 20]",
                 '{"retry":{"service":"web"}}')
        self.run += 1
        self.lines += ["retry v2", *(line.format(self.run) for line in PAUSED)]
        self.is_open = True

    def report(self):
        self.add(f"agent 1 report {self.run} m:1:0:5",
                 f"[web Paused 1 20 | {self.run} Successful | Running]",
                 (REPORT % 1).replace('"run":1', f'"run":{self.run}'))
        self.reported = self.run

    def tables(self):
        """The rows of the file after all messages, as the rules give them."""
        runs = range(1, self.run + 1)
        judged = {self.reported: (1, 0, 0, 0, 0, 1, B)}
        return {
            "meta": [(1, 2)],
            "caller": sorted(Counter(caller for caller, *_ in self.kept).items()),
            "kept": sorted(self.kept),
            "revision": [("errs", 1, TEMPLATE)],
            "run": [("web", run, None, B, B, ENDED_OUTSIDE, SUCCESSFUL) for run in runs],
            "measurement": [("web", self.reported, 0, 1, B, SUCCESSFUL, "5")],
            "tally": [("web", run, 0, *judged.get(run, (0, 0, 0, 0, 0, 0, None)))
                      for run in runs],
            "history": [("web", B, line) for line in self.lines],
        }

    def history(self):
        return "".join(f"2026-01-01T00:00:00Z {line}\n" for line in self.lines)


def make_ready(program, folder, ready):
    """Tells messages until one finds a long log, and keeps the file as it was when there was one
    message to come before that. Returns the number of the kept file's next message, from 0."""
    file, kept, before = os.path.join(folder, "growing"), [], None
    messages = Conversation(ENOUGH, ENOUGH).messages
    begin_large(file)
    desk = Desk(program, file, "a desk whose log grows", messages=messages)
    for at in range(ENOUGH):
        desk.want(at, "on a well disk")
        if at < len(BEGUN):
            before = size(file)
        elif size(file) != before:
            break
        kept.append(f"{ready}-{at % 3}")
        copy(file, kept[-1])
    else:
        fail(f"after {ENOUGH} messages the log is not copied")
    desk.process.kill()
    desk.process.communicate()
    copy(kept[-2], ready)
    return at - 1


class Copying:
    """The file that is ready, the messages that come then, and the calls that a desk makes on the
    file and its log on a well disk."""

    def __init__(self, program, folder):
        self.program, self.ready = program, os.path.join(folder, "ready")
        self.file, self.log_of_calls = os.path.join(folder, "copied"), os.path.join(folder, "calls")
        self.first = make_ready(program, folder, self.ready)
        self.told = Conversation(self.first + 2, self.first + LATER)
        self.messages = self.told.messages
        self.standings = self.standings_in_memory()
        self.calls, ends = self.calls_of_well()
        # Those of the message that finds a long log, and of the next one.
        self.attacked = range(ends[0], ends[2])
        self.find_copying(ends[0], ends[1])

    def find_copying(self, begin, end):
        """Of the calls of the message that finds a long log: the one that syncs the file, and the
        one that syncs the log's new header, after which the message is settled."""
        places = range(begin, end)
        self.writes = [at for at in places if self.calls[at][:2] == ("pwrite64", "copied")]
        syncs = [at for at in places if self.calls[at][:2] == ("fdatasync", "copied")]
        headers = [at for at in places if self.calls[at] == ("pwrite64", "copied-wal", "0")]
        if len(self.writes) < 2 or len(syncs) != 1 or len(headers) != 2:
            fail(f"the log is not copied as it was: {self.calls[begin:end]}")
        self.sync, self.copied = syncs[0], headers[1] + 1

    def standings_in_memory(self):
        """How a desk in memory stands after each message from the first one on."""
        desk, found = Desk(self.program, None, "a desk in memory", messages=self.messages), {}
        for at in range(len(self.messages)):
            if at >= self.first:
                found[at] = standing(desk)
            desk.want(at, "in memory")
        found[len(self.messages)] = standing(desk)
        desk.want_end()
        return found

    def calls_of_well(self):
        """The calls of a desk on a well disk, and how many there were at each reply."""
        copy(self.ready, self.file)
        desk = Desk(self.program, self.file, "a traced desk", messages=self.messages,
                    front=traced(self.file, self.log_of_calls))
        ends = []
        for at in range(self.first, len(self.messages)):
            desk.want(at, "on a well disk")
            ends.append(len(made_in(self.log_of_calls)[0]))
        desk.want_end()
        self.want_settled(desk.row, [len(self.messages)])
        return made_in(self.log_of_calls)[0], ends

    def want_settled(self, row, counts):
        """The disk is well again: what was answered is there, with its reply, and the rest can be
        sent again. Then the file is that of all messages, each settled once. Returns how many were
        settled, which is one of these counts."""
        desk = Desk(self.program, self.file, row, messages=self.messages)
        for at in reversed(range(min(counts))):
            desk.want(at, "sent again after the fault, from the last one back,")
        found = standing(desk)
        settled = [count for count in counts if self.standings[count] == found]
        if not settled:
            fail(f"{row}: {counts} messages may be settled, and the replies are {found}")
        for at in range(min(counts), len(self.messages)):
            desk.want(at, "sent again after the fault")
        if standing(desk) != self.standings[len(self.messages)]:
            fail(f"{row}: at the end the replies are {desk.replies[-3:]}")
        desk.want_end()
        self.want_file(row)
        return settled[0]

    def want_file(self, row):
        """What other programs read in the file, once its desk has ended."""
        for words, wanted in ((["history", "--db", self.file, "web"], self.told.history()),
                              (["status", "--json", "--db", self.file], STATUS)):
            found = told_by(row, self.program, *words)
            if found != (0, wanted, ""):
                fail(f"{row}: {words[0]}: {found}")
        try:
            found = tables_of(self.file)
        except (Wrong, sqlite3.Error) as fault:
            fail(f"{row}: the tables: {fault}")
        for name, wanted in self.told.tables().items():
            if found[name] != wanted:
                fail(f"{row}: {name} has {found[name]}, wanted {wanted}")

    def attack(self, at, how, after):
        """One of the calls fails, alone or with all after it, or the desk is killed at it. Returns
        whether the desk went on, and whether it had settled what it did not answer."""
        name, of, _ = self.calls[at]
        alone = "and each one after it" if after else "alone"
        row = f"the copying of the log: {how} at call {at + 1}, {name} of {of}, {alone}"
        names = CALLS if after else (name,)
        front = traced(self.file, self.log_of_calls)
        for call in names:
            when = 1 + sum(made[0] == call for made in self.calls[:at])
            front += ["-e", f"inject={call}:{how}:when={when}{after}"]
        copy(self.ready, self.file)
        desk = Desk(self.program, self.file, row, front=front, log=self.log_of_calls,
                    messages=self.messages)
        is_killed = how.startswith("signal")
        counts = self.tell_killed(desk) if is_killed else self.tell_faulty(desk)
        self.want_attacked(row, at, is_killed)
        has_gone_on, is_alone = went_on(desk, counts), not after and not is_killed
        if (has_gone_on and not is_alone) or (is_alone and at < self.sync and not has_gone_on):
            fail(f"{row}: the desk {'goes on' if has_gone_on else 'does not go on'}")
        settled = self.want_settled(row, counts)
        if at <= self.copied and not has_gone_on and settled != self.first + 1:
            fail(f"{row}: {settled} messages are settled, the last one before the log was copied")
        return has_gone_on, settled > min(counts)

    def tell_faulty(self, desk):
        counts = tell_failing(desk, self, first=self.first)
        desk.want_end()
        if REFUSED not in desk.replies:
            fail(f"{desk.row}: no reply says so")
        return counts

    def tell_killed(self, desk):
        """Tells messages until the desk is killed. Returns how many may be settled."""
        for at in range(self.first, len(self.messages)):
            message, wanted = self.messages[at]
            found = desk.ask(message)
            if found == b"":
                with in_time(desk.row, desk.process):
                    desk.process.communicate()
                return [at, at + 1]
            if found != wanted:
                fail(f"{desk.row}: the reply to message {at + 1} is {found}")
        fail(f"{desk.row}: it was not killed")

    def want_attacked(self, row, at, is_killed):
        """The first call that failed, or the last one, is the one that was meant."""
        made, failed = made_in(self.log_of_calls)
        if is_killed:
            failed = len(made) - 1
        # of a call that did not end strace may not know the last argument
        *shown, last = made[failed]
        *wanted, number = self.calls[at]
        if failed != at or shown != wanted or last not in (number, None):
            fail(f"{row}: it came at call {failed + 1}, {made[failed]}")

    def fill_disk(self, limit):
        """The disk takes so many bytes of the file as the log is copied, and then has room."""
        row = f"the copying of the log: a disk of {limit} bytes"
        copy(self.ready, self.file)
        desk = Desk(self.program, self.file, row, most=resource.RLIM_INFINITY,
                    messages=self.messages)
        desk.want(self.first, "before the disk is full,")
        desk.fill(limit)
        counts = tell_failing(desk, self, is_full=True, first=self.first + 1)
        desk.want_end()
        if not went_on(desk, counts):
            fail(f"{row}: {desk.replies.count(REFUSED)} replies are 503, and {counts} messages may"
                 " be settled")
        self.want_settled(row, counts)

    def images(self, step, first):
        """What the power leaves when it fails at a call that copies the log or comes later, each
        STEP-th of them: a row, how many messages may be settled, and the file and its log."""
        self.trace_bytes()
        trace, chance, calls = Trace(self.file), random.Random(first), 0
        for suffix, held in zip(("", "-wal"), trace.files.values()):
            with open(self.ready + suffix, "rb") as found:
                held.synced = found.read()
        file = trace.files[self.file.encode()]
        with open(self.log_of_calls) as told:
            for line in told:
                call = CALL.match(line)
                if call is None or not trace.take(call[1], call[2], int(call[3])):
                    continue
                calls += bool(calls or file.changes)
                if calls and calls % step == first % step:
                    row = f"the copying of the log: a power cut after call {calls}"
                    counts = settled_at(trace.told, self.messages, self.first)
                    yield from ((row, counts, image) for image in trace.images(chance))
        if trace.told != sum(len(wanted) for _, wanted in self.messages[self.first:]):
            fail("the copying of the log: the log of calls lacks replies")

    def trace_bytes(self):
        """Has the calls of a desk on a well disk in a log, with all bytes."""
        copy(self.ready, self.file)
        front = ["strace", "-f", "-o", self.log_of_calls, "-xx", "-s", "1000000", "-e",
                 "trace=" + ",".join(TRACED)]
        desk = Desk(self.program, self.file, "a traced desk", front=front, messages=self.messages)
        for at in range(self.first, len(self.messages)):
            desk.want(at, "on a well disk")
        desk.want_end()

    def cut_power(self, row, counts, image):
        write_image(self.file, image)
        self.want_settled(row, counts)


def traced(file, log):
    """As under_strace; the log has the paths of files."""
    words = under_strace(file, log)
    return [words[0], "-y", *words[1:]]


def made_in(log):
    """The calls in such a log, one after another, each its name, its file, and its last number;
    and the place of the first one that failed."""
    with open(log) as told:
        lines = [(MADE.match(line), "(INJECTED)" in line) for line in told]
    lines = [(found, has_failed) for found, has_failed in lines if found]
    made = [(found[1], os.path.basename(found[2]), found[3]) for found, _ in lines]
    failed = [has_failed for _, has_failed in lines]
    return made, failed.index(True) if True in failed else None


@functools.cache
def copying_of(program, folder):
    """One file for all parts, which takes a while to make."""
    return Copying(program, folder)


def share(rows, step, first, least):
    """Each of these rows, if the step is 1; if not, in an order that the commit chooses, as many as
    SECONDS allow, and so many at least."""
    if step == 1:
        yield from rows
        return
    end = time.monotonic() + SECONDS
    rows = list(rows)
    for count, row in enumerate(random.Random(first).sample(rows, len(rows))):
        if count >= least and time.monotonic() > end:
            return
        yield row


def try_log_copying(program, folder, step, first):
    """The calls by which a long log is copied, and those that settle the message then and the next
    one: each fails, alone or with all after it, and the desk is killed at each."""
    copying = copying_of(program, folder)
    rows = [(at, *attack) for at in copying.attacked for attack in ATTACKS]
    found = [copying.attack(*row) for row in share(rows, step, first, 4)]
    on, settled = map(sum, zip(*found))
    print(f"disk: {len(found)} of {len(rows)} times a call failed or the desk was killed as it"
          f" copied its log; it went on in {on}, and had settled the message in {settled}",
          file=sys.stderr)


def try_log_copying_full(program, folder, step, first):
    """The disk is full as a long log is copied: at each page by which the file grows, and in the
    midst of each, so that the write before is short."""
    copying = copying_of(program, folder)
    places = [int(copying.calls[at][2]) for at in copying.writes]
    rows = [place + part for place in places if place >= size(copying.ready)
            for part in (0, PAGE // 2)]
    tried = [copying.fill_disk(limit) for limit in share(rows, step, first, 2)]
    print(f"disk: full at {len(tried)} of {len(rows)} places as the log was copied, and the desk"
          " went on once there was room", file=sys.stderr)


def try_log_copying_power(program, folder, step, first):
    """The power fails at each call as a long log is copied, and later, or at some that the commit
    chooses; of what was not synced all, nothing, or any part is there."""
    copying = copying_of(program, folder)
    rows = copying.images(max(step // 2, 1), first)
    tried = [copying.cut_power(*row) for row in share(rows, step, first, 2)]
    print(f"disk: the power was cut as the log was copied, with {len(tried)} files left",
          file=sys.stderr)
