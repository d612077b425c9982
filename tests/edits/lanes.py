"""When a check may run, and how. Beside proofs that go on a check takes what time their processors
are idle, and the memory that they leave; once these have ended each processor has one."""
import contextlib
import os
import threading
import time

import checks

# What a check is likely to take of the memory, and what stays free for the proofs beside it.
MEMORY, FOR_PROOFS = 4_000_000_000, 6_000_000_000
# The most checks at a time beside proofs.
BESIDE = 2
# A landing has three hours in all, and its scripts come last: so many minutes after the proofs began
# no check begins that may wait for another landing.
LATE = 130
TICKS, PAGE = os.sysconf("SC_CLK_TCK"), os.sysconf("SC_PAGE_SIZE")


class Turn:
    """The turn of one check: its process, whether it runs in idle time alone, and its seconds of a
    processor that others left idle."""

    def __init__(self, lanes):
        self.lanes, self.is_idle = lanes, lanes.is_beside
        self.process, self.beside = None, 0.0

    def begin(self, process):
        """Its process has begun."""
        with self.lanes.changed:
            self.process = process
            if self.lanes.is_ended:
                process.kill()
            elif not self.is_idle:
                self.run_as_others()

    def begin_idle(self):
        """Has this process run in idle time alone, and be the first to be killed if there is no
        memory. If the kernel has autogroups, idle time is that of the session; ./check is in one
        with all that it runs."""
        with contextlib.suppress(OSError):
            os.sched_setscheduler(0, os.SCHED_IDLE, os.sched_param(0))
        with contextlib.suppress(OSError), open("/proc/self/oom_score_adj", "wb", 0) as file:
            file.write(b"1000")

    def end(self, seconds):
        """Its process took so many seconds of a processor."""
        self.beside = seconds if self.is_idle else self.beside

    def take_part(self):
        """The proofs have ended: from now on its process is one like others."""
        self.is_idle = False
        if self.process:
            with contextlib.suppress(OSError):
                self.beside = seconds_of(self.process.pid)
            self.run_as_others()

    def run_as_others(self):
        """Has its process run like others. Without the right to do so it stays as it is."""
        with contextlib.suppress(OSError):
            for thread in os.listdir(f"/proc/{self.process.pid}/task"):
                os.sched_setscheduler(int(thread), os.SCHED_OTHER, os.sched_param(0))

    def still_wants(self):
        """How much memory its process may still take."""
        with contextlib.suppress(OSError):
            return max(0, MEMORY - held_by(self.process.pid)) if self.process else MEMORY
        return 0


class Lanes:
    """The checks that run, and those that wait for a turn, of which the lowest rank is first. After
    so many `minutes` by the clock none begins that may wait for another landing, and after
    `at_most` none at all. Both count from the end of the proofs. If these took long, none that may
    wait begins LATE minutes after they began."""

    def __init__(self, rt, most, minutes, at_most, is_beside):
        self.kit_rt, self.most = rt, most or rt.processors()
        self.minutes, self.at_most = minutes, at_most
        self.is_beside, self.is_ended, self.begun = is_beside, False, None
        self.made = time.monotonic()
        self.changed = threading.Condition()
        self.waiting, self.running, self.beside = [], [], 0.0
        if not is_beside:
            self.begin_clock()

    def begin_clock(self):
        self.begun = time.monotonic()

    def is_after(self, minutes):
        """Whether so many minutes have passed. None pass beside proofs."""
        return self.begun is not None and time.monotonic() > self.begun + 60 * minutes

    @contextlib.contextmanager
    def turn(self, rank, may_wait=False):
        """Waits until a check of this rank may run."""
        with self.changed:
            self.waiting.append(rank)
            try:
                while not self.may_run(rank, may_wait):
                    # What is free of the memory changes with no word.
                    self.changed.wait(1)
            finally:
                self.waiting.remove(rank)
            turn = Turn(self)
            self.running.append(turn)
        try:
            yield turn
        finally:
            with self.changed:
                self.running.remove(turn)
                self.beside += turn.beside
                self.changed.notify_all()

    def may_run(self, rank, may_wait):
        if self.is_ended:
            raise checks.Ended("the trials were ended")
        if may_wait and self.is_after(self.minutes):
            raise checks.Waits("it waits for its turn")
        if self.is_after(self.at_most):
            raise checks.Stopped("there was no time left")
        most = min(self.most, BESIDE) if self.is_beside else self.most
        if rank > min(self.waiting) or len(self.running) >= most:
            return False
        room = self.kit_rt.free() - sum(it.still_wants() for it in self.running)
        if self.is_beside:
            return room >= MEMORY + FOR_PROOFS
        return room >= MEMORY or not self.running

    def take_part(self):
        """The proofs have ended: from now on the checks have all processors."""
        with self.changed:
            self.is_beside = False
            self.begin_clock()
            left = LATE - (self.begun - self.made) / 60
            self.minutes = min(self.minutes, max(0, left))
            for turn in self.running:
                turn.take_part()
            self.changed.notify_all()

    def end(self):
        """Ends what runs, and all that waits."""
        with self.changed:
            self.is_ended = True
            for turn in self.running:
                if turn.process:
                    turn.process.kill()
            self.changed.notify_all()


def seconds_of(number):
    """The seconds of a processor that a process has taken."""
    with open(f"/proc/{number}/stat", encoding="utf-8", errors="replace") as file:
        words = file.read().rpartition(")")[2].split()
    return (int(words[11]) + int(words[12])) / TICKS


def held_by(number):
    """The memory that a process holds."""
    with open(f"/proc/{number}/statm", encoding="utf-8") as file:
        return int(file.read().split()[1]) * PAGE
