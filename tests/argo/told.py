"""Tables of conditions and of manifests, which the program reads from files: what becomes of each
row."""
import json
import os
import re

from asked import Faults, expect, folder_in, run, write
from wanted import NAN, template

HERE = os.path.dirname(os.path.realpath(__file__))
CONDITION, METRIC = '"successCondition": ', '"metrics": ['
# The most findings that are shown.
MOST = 100
NOTHING = {"plan": [], "services": [], "templates": []}


def table(name):
    with open(os.path.join(HERE, name), encoding="utf-8") as found:
        return found.read()


def told(trial, words, place):
    """What is made of some files, and what is found in them, in JSON; the status says which."""
    done = run(trial.program, ["argo", "--json", *words], cwd=place)
    found = json.loads(done.output)
    expect(f"argo --json {' '.join(words[:3])}: status and errors", (done.status, done.errors),
           (1 if found["findings"] else 0, b""))
    return found


# ---- conditions

def conditions(title):
    """The rows of conditions.txt under a title, each with its three columns."""
    part = table("conditions.txt").split(f"\n# {title}\n")[1].split("\n\n")[0]
    lines = [line for line in part.replace("\n    ", " ").split("\n") if line[:2] != "# "]
    return [line.replace("\\t", "\t").split("~") for line in lines if line]


def line_of(at, condition):
    """A template whose metric has that condition."""
    metric = {"name": "m", "provider": {"web": {"url": "http://any/"}},
              "successCondition": condition}
    return "  " + json.dumps({
        "apiVersion": "argoproj.io/v1alpha1", "kind": "AnalysisTemplate",
        "metadata": {"name": f"t{at}"}, "spec": {"metrics": [metric]}})


def tell(trial, name, lines):
    """What comes of a List that has a template in each line from the second line on."""
    place = folder_in(trial, name)
    write(os.path.join(place, "list.json"),
          '{"apiVersion": "v1", "kind": "List", "items": [\n' + ",\n".join(lines) + "\n]}\n")
    return told(trial, ["list.json"], place)


def place_of(at, lines, mark, path):
    """The place in the List of what follows a mark in a line of it."""
    return {"file": "list.json", "line": at + 2, "column": lines[at].index(mark) + len(mark) + 1,
            "path": f"items[{at}].spec.metrics[0]{path}"}


def want_taken(trial, faults):
    """Each row that is taken: the label and the condition of the desk's metric. The note on NaN is
    at the first one with `asInt`."""
    rows = conditions("TAKEN")
    lines = [line_of(at, row[0]) for at, row in enumerate(rows)]
    noted = next(at for at, row in enumerate(rows) if "asInt" in row[0])
    found = tell(trial, "taken", lines)
    with faults:
        texts = {rows[it["line"] - 2][0]: it["text"] for it in found["findings"]}
        expect("conditions that are taken, but for these", texts, {})
        expect("the note on NaN", found["notes"],
               [place_of(noted, lines, METRIC, "") | {"text": NAN}])
        expect("templates", len(found["templates"]), len(rows))
    for at, ((condition, suffix, wanted), made) in enumerate(zip(rows, found["templates"])):
        with faults:
            expect(condition, made, template(f"t{at}", [
                {"name": f"m{suffix}", "successCondition": wanted.strip()}], ()))
    return len(rows)


def by_row(findings):
    """Findings by their rows, of which the first has the second line."""
    found = {}
    for it in findings:
        found.setdefault(it["line"] - 2, []).append(it)
    return found


def finding_of(at, lines, byte, words):
    """What is found in a row that is refused: at its condition, or at its metric."""
    if byte == "-":
        return place_of(at, lines, METRIC, "") | {"text": words}
    return place_of(at, lines, CONDITION, ".successCondition") | {"text": f"byte {byte}: {words}"}


def want_refused(trial, faults):
    """Each row that is refused: its one finding, with line and column, and the byte in the text."""
    rows = conditions("REFUSED")
    lines = [line_of(at, row[0]) for at, row in enumerate(rows)]
    found = tell(trial, "refused", lines)
    findings = by_row(found.pop("findings"))
    with faults:
        expect("what is made of what is refused", found, NOTHING | {"notes": [], "warnings": []})
        expect("lines without a row", sorted(set(findings) - set(range(len(rows)))), [])
    for at, (condition, byte, words) in enumerate(rows):
        wanted = finding_of(at, lines, byte, words.strip())
        with faults:
            expect(condition, [it | {"text": it["text"][:len(wanted["text"])]}
                               for it in findings.get(at, [])], [wanted])
    return len(rows)


def try_conditions(trial):
    """The conditions of conditions.txt."""
    faults = Faults()
    taken, refused = want_taken(trial, faults), want_refused(trial, faults)
    faults.end()
    return f"{taken} conditions taken, {refused} refused"


# ---- manifests

def conversions():
    """The rows of conversions.txt: a name, documents, and what is shown of them, or is not."""
    for row in table("conversions.txt").split("\n\n")[1:]:
        title, text = row.strip("\n").split("\n", 1)
        documents, *wanted = (piece.replace("\n", "") for piece in text.split("\n=> "))
        yield title[2:], json.loads(documents), wanted


def text_in_json(value):
    """A value as the program writes it, with the members in its order."""
    return json.dumps(value, separators=(",", ":"), ensure_ascii=False)


def part_of(value, key):
    """The part of a value at a key or an index, or nothing; and how far after it that stands."""
    if isinstance(value, dict) and key in value:
        front = {before: value[before] for before in list(value)[:list(value).index(key)]}
        return value[key], len(text_in_json(front) + f'"{key}":') - (0 if front else 1)
    if isinstance(value, list) and key.isdigit() and int(key) < len(value):
        front = value[:int(key)]
        return value[int(key)], len(text_in_json(front)) - (0 if front else 1)
    return None


def column_of(document, path):
    """Where a part of a document begins in its one line: as far as the path leads."""
    column, found = 1, (document, 0)
    for key in re.findall(r"[^.\[\]]+", path):
        found = part_of(found[0], key)
        if not found:
            break
        column += found[1]
    return column


def want_places(title, documents, found):
    """What is found, noted or warned of is in the file of its document, at its place in the one
    line."""
    told_of = [*found["findings"], *found["notes"], *found["warnings"]]
    places = [(it["path"], it["line"], it["column"]) for it in told_of]
    expect(f"{title}: the places", places, [
        (it["path"], 1, column_of(documents[int(it["file"][:-5])], it["path"]))
        for it in told_of])


def line_for(kind, it):
    """A finding or a note, with the number of its document."""
    return f"{kind} {it['file'].removesuffix('.json')} {it['path']}: {it['text']}"


def shown(found, more):
    """All that is reported of some documents, a line for each."""
    counts = {"findings": "findings", "notes": "notes", "templates": "templates",
              "services": "services", "plan": "planned"}
    lines = [", ".join(f"{len(found[key])} {word}" for key, word in counts.items())
             + f", {more} more"]
    lines += [f"template {it['metadata']['name']} {text_in_json(it)}" for it in found["templates"]]
    lines += [f"service {it['metadata']['name']} {text_in_json(it)}" for it in found["services"]]
    lines += [" ".join(["plan", *(it[key] for key in (
        "service", "label", "template", "metric", "kind")), text_in_json(it["provider"]),
                        text_in_json(it["late"])]) for it in found["plan"]]
    lines += [line_for("finding", it) for it in found["findings"]]
    lines += [line_for("note", it) for it in found["notes"]]
    lines += [line_for("warning", it) for it in found["warnings"]]
    return "".join(f"\n{line}" for line in lines)


def is_shown(text, wanted):
    """Whether a text has what is wanted: in the front of a line, unless a value in JSON is."""
    if wanted[0] == "!":
        return not is_shown(text, wanted[1:])
    return (wanted if wanted[0] in '{"' else f"\n{wanted}") in text


def counted(trial, names, place):
    """How many findings are counted, and not shown, as text has it."""
    last = run(trial.program, ["argo", *names], cwd=place).output.decode().splitlines()[-1]
    return last.removeprefix("and ").removesuffix(" more") if last.endswith(" more") else "0"


def want_conversion(trial, place, row):
    """Each document is in a file of its own. Each text that is wanted is there, the places, too."""
    title, documents, wanted = row
    names = [f"{at}.json" for at in range(len(documents))]
    for name, document in zip(names, documents):
        write(os.path.join(place, name), text_in_json(document))
    found = told(trial, names, place)
    is_full = len(found["findings"]) == MOST
    text = shown(found, counted(trial, names, place) if is_full else "0")
    missing = [it for it in wanted if not is_shown(text, it)]
    expect(f"{title}: what is not as wanted in{text}\n ", missing, [])
    want_places(title, documents, found)
    return len(wanted)


def try_conversions(trial):
    """The manifests of conversions.txt."""
    faults, rows, count = Faults(), list(conversions()), 0
    for at, row in enumerate(rows):
        with faults:
            count += want_conversion(trial, folder_in(trial, f"conversion-{at}"), row)
    faults.end()
    return f"{len(rows)} sets of manifests, {count} texts"
