"""`rt ci` by another plan of which proofs run side by side: see tests/proofs/prove, --gate.

`rt ci` gives each crate one job, begins those with the longest chain of lines above them, and has
processors wait for memory that its checks do not take. Here a chain counts by the seconds that
docs/COSTS.md has for its crates, and the crates of the longest chains get two jobs, for which
processors are kept free. rt itself keeps what is proved, so the gate finds it."""
import concurrent.futures
import os
import pathlib
import re
import sys

import kit

# A row of the table of seconds: pairs of a crate and a number.
SECONDS = re.compile(r"\| (canary_\w+) \| (\d+) (?=\|)")
# What a line of a crate takes that is not in the table.
OF_LINE = 0.1
# What a check takes of the memory that rt counts on, and each further job of it.
OF_NEED, OF_JOB = 0.4, 0.3
# A crate is urgent if the chain behind it is as long as so much of the longest.
URGENT = 0.8


def seconds_by_crate(root):
    """The seconds that the table of docs/COSTS.md has, by crates."""
    text = pathlib.Path(root, "docs/COSTS.md").read_text(encoding="utf-8")
    return {name: int(seconds) for name, seconds in SECONDS.findall(text)}


class Plan:
    """The tasks of one run: which are left, which run, and what came of those that ended."""

    def __init__(self, tasks, lanes, seconds, free):
        self.tasks, self.lanes, self.memory = tasks, lanes, 0.85 * free
        self.behind = {}
        for key in reversed([*tasks]):
            took = seconds.get(key[0], OF_LINE * tasks[key][1]) if key[1] == "proof" else 0
            self.behind[key] = self.behind.get(key, 0) + max(took, OF_LINE * tasks[key][1] / 10)
            for it in tasks[key][0]:
                self.behind[it] = max(self.behind.get(it, 0), self.behind[key])
        self.left = sorted(tasks, key=lambda it: (it[1] in ("edits", "seed"), -self.behind[it]))
        self.running, self.given = {}, {}

    def is_urgent(self, key):
        """Whether the clock waits for it."""
        open_tasks = [*self.left, *(it for it, _, _ in self.running.values())]
        longest = max(self.behind[it] for it in open_tasks)
        return key[1] == "proof" and self.behind[key] >= URGENT * longest

    def is_ready(self, key):
        return all(below in self.given for below in self.tasks[key][0])

    def jobs_for(self, key):
        """How many jobs a task that is ready may begin with now; 0 if it has to wait."""
        busy = [(it, jobs) for it, _, jobs in self.running.values()]
        idle = self.lanes - sum(jobs for _, jobs in busy)
        room = self.memory - sum(it for _, it, _ in self.running.values())
        needs = OF_NEED * self.tasks[key][2]
        if idle <= 0 or self.running and needs > room:
            return 0
        if self.is_urgent(key):
            return 2 if idle > 1 and (1 + OF_JOB) * needs <= room else 1
        others = sum(jobs for it, jobs in busy if not self.is_urgent(it))
        urgent = [it for it, _ in busy if self.is_urgent(it)]
        urgent += [it for it in self.left if self.is_urgent(it) and self.is_ready(it)]
        return 0 if urgent and others >= max(1, self.lanes - 2 * len(urgent)) else 1

    def begin(self, pool):
        """Begins what may begin now."""
        for key in [it for it in self.left if self.is_ready(it)]:
            jobs = self.jobs_for(key)
            if jobs:
                _, _, needs, call = self.tasks[key]
                self.left.remove(key)
                took = OF_NEED * needs * (1 + OF_JOB * (jobs - 1))
                self.running[pool.submit(call, self.given, jobs)] = key, took, jobs

    def end_first(self):
        """Waits until a task ends."""
        first = concurrent.futures.FIRST_COMPLETED
        for it in concurrent.futures.wait(self.running, return_when=first).done:
            self.given[self.running.pop(it)[0]] = it.result()


def planned(rt, lanes, seconds):
    """The function that takes the place of rt's own plan."""

    def in_lanes(tasks):
        plan = Plan(tasks, lanes, seconds, rt.free())
        with rt.ending(), concurrent.futures.ThreadPoolExecutor(lanes) as pool:
            while plan.left or plan.running:
                plan.begin(pool)
                plan.end_first()
        return plan.given

    return in_lanes


def run(root, lanes, words):
    """Runs `rt` with these words in the folder `root`, by this plan. Its status."""
    os.chdir(root)
    rt = kit.load_rt()
    rt.in_lanes = planned(rt, lanes, seconds_by_crate(root))
    status = rt.main(words)
    sys.stdout.flush()
    return status
