"""Each file of examples/argo, by the table of wanted.py: in JSON and as a person reads it."""
import json
import os

from asked import Faults, expect, run
from wanted import REFUSED, TAKEN


def in_json(file, found):
    """Findings or notes as JSON has them."""
    return [{"file": file, "line": line, "column": column, "path": path, "text": text}
            for line, column, path, text in found]


def in_lines(file, found, front=""):
    """The same as lines."""
    return "".join(f"{front}{file}:{line}:{column}: {path}: {text}\n"
                   for line, column, path, text in found)


def want_json(trial, file, status, made):
    done = run(trial.program, ["argo", "--json", file], cwd=trial.examples)
    expect(f"argo --json {file}", (done.status, done.errors), (status, b""))
    found = json.loads(done.output)
    for part, wanted in made.items():
        expect(f"argo --json {file}: {part}", found.pop(part), wanted)
    expect(f"argo --json {file}: what else there is", found, {})


def want_text(trial, file, status, text, made):
    done = run(trial.program, ["argo", file], cwd=trial.examples)
    errors = (in_lines(file, made.notes, "canary: note: ")
              + in_lines(file, made.warnings, "canary: warning: "))
    expect(f"argo {file}", (done.status, done.output.decode(), done.errors.decode()),
           (status, text, errors))


def try_examples(trial):
    """What comes of each manifest."""
    files = sorted(name for name in os.listdir(trial.examples) if name.endswith(".yaml"))
    expect("the files of the table", files, sorted([*TAKEN, *REFUSED]))
    faults = Faults()
    for file, made in TAKEN.items():
        with faults:
            want_json(trial, file, 0, {
                "findings": [], "notes": in_json(file, made.notes), "plan": made.plan,
                "services": made.services, "templates": made.templates,
                "warnings": in_json(file, made.warnings)})
        with faults:
            want_text(trial, file, 0, made.text(), made)
    for file, made in REFUSED.items():
        with faults:
            want_json(trial, file, 1, {
                "findings": in_json(file, made.findings), "notes": in_json(file, made.notes),
                "plan": [], "services": [], "templates": [], "warnings": []})
        with faults:
            want_text(trial, file, 1, in_lines(file, made.findings), made)
    faults.end()
    return f"{len(files)} files, {sum(len(it.findings) for it in REFUSED.values())} findings"
