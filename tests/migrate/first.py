"""Files of the first schema: how one is made of its rows, and what migrating makes of these rows,
worked out by the rules, in plain Python."""
import json
import os
import sqlite3
import sys
from contextlib import closing

from book_files import copy, remove

HERE = os.path.dirname(os.path.realpath(__file__))
TABLES = os.path.join(os.path.dirname(HERE), "tables")
# The tables whose rows stay as they are.
STAYING = ("caller", "kept", "service", "run", "measurement", "history", "sqlite_sequence")
SUCCESSFUL = 1


def fail(text):
    sys.exit(f"migrate: {text}")


def connect(file):
    """A connection to a file, which runs each statement at once. Texts that are not UTF-8 can be
    compared."""
    made = sqlite3.connect(file, isolation_level=None)
    made.text_factory = lambda text: text.decode("utf-8", "surrogateescape")
    return made


def text_of(*names):
    """The texts of these files, one after another."""
    found = ""
    for name in names:
        with open(name, encoding="utf-8") as opened:
            found += opened.read()
    return found


def make(file, statements, is_logged=False):
    """Makes a file by these statements. If it is logged, all that they write stays in its log, as a
    desk leaves it that was not closed."""
    remove(file)
    begun = file + ".begun"
    remove(begun)
    with closing(connect(begun)) as made:
        made.execute("PRAGMA journal_mode = WAL")
        made.execute("PRAGMA wal_autocheckpoint = 0")
        made.executescript(statements)
        if is_logged:
            copy(begun, file)
    if not is_logged:
        copy(begun, file)
    remove(begun)


def make_first(file, name, is_logged=False):
    """Makes the first file of this name, of its rows."""
    make(file, text_of(os.path.join(HERE, name + ".sql")), is_logged)


def change(file, statements):
    """Changes a file by these statements."""
    with closing(connect(file)) as changed:
        changed.executescript(statements)


def ask(file, query):
    """What a query finds in a copy of a file, so that the file is left as it is."""
    seen = file + ".seen"
    copy(file, seen)
    with closing(connect(seen)) as found:
        rows = found.execute(query).fetchall()
    remove(seen)
    return rows


def schema_of(file):
    """The tables, indexes and views of a file, in the order in which they were made, each with its
    place, its kind, its name, its table and the statement that makes it."""
    return ask(file, "SELECT rowid, type, name, tbl_name, sql FROM sqlite_schema ORDER BY rowid")


def rows_of(file):
    """The rows of each table of a file, in the order in which they were written."""
    return {name: ask(file, f'SELECT * FROM "{name}" ORDER BY rowid')
            for _, kind, name, _, _ in schema_of(file) if kind == "table"}


def contents(file):
    return schema_of(file), rows_of(file)


# The bytes of a log's head and of the head of its first frame.
LEAST_LOG = 32 + 24


def bytes_of(file):
    """The bytes of a file and those of its log, which may as well be missing as hold no frame."""
    found = []
    for name in (file, file + "-wal"):
        if os.path.exists(name):
            with open(name, "rb") as opened:
                found.append(opened.read())
        else:
            found.append(b"")
    return [found[0], found[1] if len(found[1]) > LEAST_LOG else b""]


# What migrating makes of the rows


def strategy_of(spec):
    """The steps and the background of a service's canonical text."""
    made = json.loads(spec)["service"]
    return made["steps"], made["analysis"]


def named_at(strategy, step):
    """The templates of the analysis at that step, or of the background if there is no step."""
    steps, background = strategy
    return background["templates"] if step is None else steps[step]["analysis"]


def all_named(strategy):
    """The templates of all analyses of a strategy."""
    steps, background = strategy
    found = [name for step in steps for name in step.get("analysis") or ()]
    return found + (background["templates"] if background else [])


def bindings(services, runs):
    """Each service (as run 0) and each of its runs is bound to revision 1 of what it names."""
    strategies = {row[0]: strategy_of(row[1]) for row in services}
    found = {(service, 0, name, 1) for service in strategies
             for name in all_named(strategies[service])}
    for service, number, step, *_ in runs:
        found |= {(service, number, name, 1) for name in named_at(strategies[service], step)}
    return sorted(found)


def passes(measurements):
    """How many of these measurements are successful one after another, up to the last one."""
    count = 0
    for *_, phase, _ in sorted(measurements, key=lambda row: row[4], reverse=True):
        if phase != SUCCESSFUL:
            break
        count += 1
    return count


def tallies(old, measurements):
    """Each tally with its passes before its last column."""
    of = {}
    for row in measurements:
        of.setdefault(row[1:4], []).append(row)
    return sorted((*row[:-1], passes(of.get(row[:3], ())), row[-1]) for row in old)


def migrated(rows):
    """The rows after migrating, those of the new tables in ascending order."""
    made = {name: rows[name] for name in STAYING}
    made["meta"] = [(1, 2)]
    made["revision"] = sorted((name, 1, spec) for name, spec in rows["template"])
    made["binding"] = bindings(rows["service"], rows["run"])
    made["tally"] = tallies(rows["tally"], rows["measurement"])
    return made


def in_order(rows):
    """The rows of a file, with those of the new tables in ascending order."""
    new = ("revision", "binding", "tally")
    return {name: sorted(found) if name in new else found for name, found in rows.items()}


def schema_after(file):
    """The schema of a migrated file, as SQLite makes it: the first schema, and then what makes it
    the second one. A file of this name is made for it and removed."""
    make(file, text_of(os.path.join(TABLES, "first.sql"), os.path.join(TABLES, "second.sql")))
    found = schema_of(file)
    remove(file)
    return found


# What is sent again


def compact(value):
    return json.dumps(value, separators=(",", ":"), ensure_ascii=False)


def metric_of(made):
    """A metric of a manifest by its canonical form."""
    found = {key: value for key, value in made.items() if value is not None}
    for key in ("interval", "initialDelay"):
        if key in found:
            found[key] = f"{found[key]}s"
    return found


def templates_of(names):
    return {"templates": [{"templateName": name} for name in names]}


def step_of(made):
    """A step of a manifest by its canonical form."""
    (kind, value), = made.items()
    if kind == "pause":
        return {kind: {} if value is None else {"duration": value}}
    return {kind: templates_of(value) if kind == "analysis" else value}


def template_of(made):
    spec = {"metrics": [metric_of(metric) for metric in made["metrics"]],
            "dryRun": [{"metricName": name} for name in made["dryRun"]]}
    return {"metadata": {"name": made["name"]}, "spec": spec}


def service_of(made):
    canary = {"steps": [step_of(step) for step in made["steps"]]}
    if made["analysis"] is not None:
        canary["analysis"] = {**templates_of(made["analysis"]["templates"]),
                              "startingStep": made["analysis"]["startingStep"]}
    manifest = {"metadata": {"name": made["name"]}, "spec": {"strategy": {"canary": canary}}}
    return {"manifest": manifest, "version": made["version"]}


def body_of(command):
    """A body that asks for the command of this canonical text."""
    (kind, made), = json.loads(command).items()
    if kind == "template":
        made = template_of(made)
    elif kind == "service":
        made = service_of(made)
    return compact({kind: made}).encode()
