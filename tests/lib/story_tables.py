"""The tables of a desk after the story of story_words.py, row by row, as the rules give them
(docs/RULES.md, docs/API.md), and what stands in the tables of a desk's file. The places of
measurements and history lines order the rows, and are left out."""
import os
import sqlite3
import tempfile

from book_files import copy
from story_words import STORY, B, Wrong, body

# What orders the rows of each table, and its columns, without places.
TABLES = {
    "meta": ("id", "id, schema"),
    "caller": ("name", "name, settled"),
    "kept": ("caller, number", "caller, number, command, status, body"),
    "revision": ("name, revision", "name, revision, spec"),
    "service": ("name", "name, spec, stable, version, state, step, entered, hold, background, runs,"
                        " last"),
    "binding": ("service, run, template", "service, run, template, revision"),
    "run": ("service, number", "service, number, step, started, closed, outside, verdict"),
    "measurement": ("place", "service, run, metric, ordinal, taken, phase, outcome"),
    "tally": ("service, run, metric", "service, run, metric, counted, failed, inconclusive, errors,"
                                      " consecutive, passes, last"),
    "history": ("place", "service, moment, line"),
}

SUCCESSFUL, ENDED_OUTSIDE, DONE = 1, 1, 2

TEMPLATE = ('{"template":{"dryRun":[],"metrics":[{"consecutiveErrorLimit":4,"count":null,'
            '"failureCondition":null,"failureLimit":0,"inconclusiveLimit":0,"initialDelay":0,'
            '"interval":60,"name":"m","successCondition":null}],"name":"errs"}}')
SERVICE = ('{"service":{"analysis":{"startingStep":0,"templates":["errs"]},"name":"web",'
           '"steps":[{"setWeight":20},{"pause":null}],"version":"v1"}}')
REPORT = ('{"report":{"entries":[{"metric":"m","ordinal":%d,"result":5,"taken":1767225600}],'
          '"run":1,"service":"web"}}')

# The canonical texts of the commands of the story, one after another.
COMMANDS = [
    TEMPLATE,
    SERVICE,
    '{"start":{"service":"web","version":"v2"}}',
    REPORT % 1,
    REPORT % 3,
    '{"tick":{"service":"web"}}',
    '{"promote":{"service":"web"}}',
    '{"start":{"service":"web","version":"v3"}}',
    '{"abort":{"service":"web"}}',
    '{"retry":{"service":"web"}}',
    '{"promoteFull":{"service":"web"}}',
]

HISTORY = """created v1
start v2
background run 1
step 0 setWeight 20
step 1 pause
promote
run 1 Successful ended
done v2
start v3
background run 2
step 0 setWeight 20
step 1 pause
abort
run 2 Successful ended
retry v3
background run 3
step 0 setWeight 20
step 1 pause
promote full
run 3 Successful ended
done v3"""


def kept():
    """The row of `kept` of each message of the story, one after another."""
    for (told, answered), command in zip(STORY, COMMANDS):
        caller, number, _ = told.split(" ", 2)
        status, short = (200, answered) if answered[0] == "[" else answered.split(" ", 1)
        yield caller, int(number), command, int(status), body(short).decode()


KEPT = list(kept())
STORY_TABLES = {
    "meta": [(1, 2)],
    "caller": [("agent", 2), ("ops", 9)],
    "kept": sorted(KEPT),
    "revision": [("errs", 1, TEMPLATE)],
    # Its attempt has started the background run, and ended it.
    "service": [("web", SERVICE, "v3", "v3", DONE, 2, B, 0, 1, 3, B)],
    # The present attempt is run 0.
    "binding": [("web", run, "errs", 1) for run in range(4)],
    "run": [("web", run, None, B, B, ENDED_OUTSIDE, SUCCESSFUL) for run in (1, 2, 3)],
    "measurement": [("web", 1, 0, 1, B, SUCCESSFUL, "5")],
    "tally": [("web", 1, 0, 1, 0, 0, 0, 0, 1, B), ("web", 2, 0, 0, 0, 0, 0, 0, 0, None),
              ("web", 3, 0, 0, 0, 0, 0, 0, 0, None)],
    "history": [("web", B, line) for line in HISTORY.split("\n")],
}


def tables_of(file):
    """What stands in the tables of a desk's file: sqlite3 reads a copy of it and of its log."""
    with tempfile.TemporaryDirectory() as folder:
        seen = os.path.join(folder, "copy")
        copy(file, seen)
        opened = sqlite3.connect(seen)
        try:
            names = {name for name, in opened.execute(
                "SELECT name FROM sqlite_schema WHERE type = 'table' AND name NOT GLOB 'sqlite_*'")}
            if names != set(TABLES):
                raise Wrong(f"{file} has the tables {sorted(names)}")
            asked = "SELECT {} FROM {} ORDER BY {}"
            return {name: opened.execute(asked.format(columns, name, order)).fetchall()
                    for name, (order, columns) in TABLES.items()}
        finally:
            opened.close()


def expect_tables(row, file, found=None):
    """A desk's file, or these tables, has the rows of the story, in their order."""
    found = tables_of(file) if found is None else found
    for name, wanted in STORY_TABLES.items():
        if found[name] != wanted:
            missing = [it for it in wanted if it not in found[name]]
            more = [it for it in found[name] if it not in wanted]
            raise Wrong(f"{row}: {name} lacks {missing!r}, and has {more!r} beside, or has its rows"
                        " in another order")
