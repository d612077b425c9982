"""Draws the pages of some desks, and looks at them: pages.py PROGRAM FOLDER [CASE..]. The comment
at the top of tests/page/run says what is tried."""
import contextlib
import json
import os
import re
import shutil
import subprocess
import sys
import time

import records
import stories
import textfile
from conversation import without_progress
from outline import Broken, outline, tree_of
from world import MARKS

HERE = os.path.dirname(os.path.abspath(__file__))
LIMIT = 300


def fail(what):
    print(f"tests/page: {what}", file=sys.stderr)
    sys.exit(1)


def run(words, row, **more):
    """What a program that ends with status 0 writes."""
    done = subprocess.run(words, capture_output=True, timeout=LIMIT, check=False, **more)
    if done.returncode != 0:
        fail(f"{row}: status {done.returncode}: {done.stderr.decode(errors='replace')[:500]}")
    return done.stdout


def make_desk(program, file, row, desk):
    """A desk's file, whose requests are all accepted."""
    words = [program, "pipe", "--at", str(desk.at), "--step", str(desk.step), "--db", file]
    replies = run(words, row, input=desk.stream())
    accepted = replies.count(b"HTTP/1.1 200 OK\r\n")
    if accepted != len(desk.messages):
        other = re.findall(rb"HTTP/1.1 (?!200)[^\r]*\r\n(?:[^\r]+\r\n)*\r\n[^H]*", replies)
        fail(f"{row}: {accepted} of {len(desk.messages)} requests accepted; {other[:2]}")


def without_now(page):
    """The page, but for the moment at which it was drawn."""
    return re.sub(rb"as it stood at <time .*?</time>", b"", page, count=1)


# The policy by which a browser itself refuses whatever a page would fetch or run.
POLICY = (b"<meta http-equiv=\"Content-Security-Policy\" "
          b"content=\"default-src 'none'; style-src 'unsafe-inline'\">")


def look(page, row):
    """The page as a tree, whose tags close in turn."""
    if not page.startswith(b"<!DOCTYPE html>") or not page.endswith(b"</html>\n"):
        fail(f"{row}: no whole page")
    if POLICY not in page.partition(b"<title>")[0]:
        fail(f"{row}: no policy")
    try:
        return tree_of(page.decode())
    except (Broken, UnicodeDecodeError) as error:
        fail(f"{row}: {error}")


def want_outline(root, name):
    """The outline of a page is the one that was written by hand."""
    told = "".join(line + "\n" for line in outline(root))
    with open(os.path.join(HERE, "cases", name), encoding="utf-8") as file:
        wanted = file.read()
    if told != wanted:
        lines = zip(told.splitlines() + [""], wanted.splitlines() + [""])
        place, (here, there) = next((n, pair) for n, pair in enumerate(lines, 1)
                                    if pair[0] != pair[1])
        fail(f"{name}, line {place}: {here!r} in place of {there!r}")


def tidy(page, row):
    """tidy finds no error, if it is there."""
    if shutil.which("tidy"):
        done = subprocess.run(["tidy", "-q", "-e"], input=page, capture_output=True, check=False)
        if done.returncode > 1:
            fail(f"{row}: tidy: {done.stderr.decode()[:500]}")


def keys_ascend(pairs):
    keys = [key for key, _ in pairs]
    if keys != sorted(keys):
        raise ValueError(f"keys {keys}")
    return dict(pairs)


def look_at_values(values, root, row):
    """A JSON value for each service, that says what the page says."""
    said = {}
    for line in values.decode().splitlines():
        value = json.loads(line, object_pairs_hook=keys_ascend)
        said[value["name"]] = value
    shown = {}
    for article in root.all("article"):
        names = article.first("span", "attempt").text().split(" → ")
        shown[article.attributes["id"]] = (article.first("span", "badge").text(), *names)
    for table in root.all("table", "done"):
        for line in [row for row in table.inside if "id" in row.attributes]:
            cells = [cell.text() for cell in line.inside]
            shown[cells[0]] = (cells[1], cells[2], cells[2])
    told = {name: (value["status"], value["stable"], value["version"])
            for name, value in said.items()}
    if told != shown or list(said) != sorted(said):
        fail(f"{row}: status --json says {told}, and the page {shown}")


def try_case(program, folder, case):
    """The page of a desk, in a file and on standard output, and the same as JSON."""
    name = case.__name__
    file, out = os.path.join(folder, f"{name}.db"), os.path.join(folder, f"{name}.html")
    make_desk(program, file, name, case())
    run([program, "page", "--db", file, out], name)
    with open(out, "rb") as drawn:
        page = drawn.read()
    if without_now(page) != without_now(run([program, "page", "--db", file, "-"], name)):
        fail(f"{name}: another page on standard output")
    if parts_of(out):
        fail(f"{name}: a part of a page is left")
    root = look(page, name)
    tidy(page, name)
    want_outline(root, name)
    values = run([program, "status", "--json", "--db", file], name)
    look_at_values(values, root, name)
    with wrong_texts(name):
        textfile.look_at_case(name, text_of(program, file, name), values)


@contextlib.contextmanager
def wrong_texts(row):
    """Says of a text for the textfile collector what is wrong with it, and ends."""
    try:
        yield
    except textfile.Wrong as error:
        fail(f"{row}: status --prometheus: {error}")


def text_of(program, file, row):
    """What `status --prometheus` writes, to which promtool does not object."""
    text = run([program, "status", "--prometheus", "--db", file], row)
    if has_prometheus():
        textfile.promtool(["check", "metrics"], input=text)
    return text


def has_prometheus():
    return "prometheus" not in os.environ.get("CHECK_WITHOUT", "").split()


def parts_of(out):
    """What stands beside a page and begins with its name."""
    folder, name = os.path.split(out)
    return [found for found in os.listdir(folder) if found.startswith(name + ".")]


MARK = re.compile(f"[{re.escape(''.join(map(chr, MARKS)))}]")


def shown_text(text):
    """The text of a failure as a page shows it: a mark is \\u and four hexadecimal digits."""
    return MARK.sub(lambda mark: f"\\u{ord(mark[0]):04x}", text)


def try_breaking(program, folder):
    """Each text that tries to get out of its place is the text of its point, and nothing else."""
    file = os.path.join(folder, "breaking.db")
    page = run([program, "page", "--db", file, "-"], "breaking")
    root = look(page, "breaking")
    titles = [point.first("title").inside[0] for point in root.all("rect", "Error")]
    wanted = [shown_text(text) for text in stories.BREAKING]
    told = [title.split(": ", 1)[1] for title in titles]
    if told != wanted:
        fail(f"breaking: points say {told}, in place of {wanted}")
    if MARK.search(page.decode().replace("\n", "")):
        fail("breaking: a mark in the page")


def try_decimals(program, folder):
    """The title of a metric's name is its label, and what stands for NaN says so on the axis, below
    the points that have a number."""
    file = os.path.join(folder, "decimals.db")
    root = look(run([program, "page", "--db", file, "-"], "decimals"), "decimals")
    told = [(name.text(), name.attributes["title"]) for name in root.all("span")
            if "title" in name.attributes]
    rate, latency = ("success-rate", "success-rate.e6f"), ("latency", "latency.e6n")
    pair, size = ("pair", "pair.e6p2"), ("size", "size.e6l1")
    # of three measurements that are late, and then of each figure
    if told != [rate, latency, pair, rate, latency, pair, size]:
        fail(f"decimals: the titles of names are {told}")
    drawing = list(root.all("svg", "plot"))[1]
    points = [(point.first("title").inside[0], point.attributes["cx"], point.attributes["cy"])
              for point in drawing.all("circle")]
    # The axis is 2,540 tenths of a pixel long, from the start of the run to 100 seconds later.
    if points != [("#1, 00:01:10, Successful: 0.125", "1670", "600"),
                  ("#2, 00:01:20, Successful: NaN", "1924", "690")]:
        fail(f"decimals: the points are {points}")
    limits = [label.text() for label in drawing.all("text", "end")][1:]
    if limits != ["0.25"]:
        fail(f"decimals: the limits are {limits}")


def try_counted(program, folder):
    """The table of `status` has how many measurements of a metric count: errors do not."""
    file = os.path.join(folder, "outcomes.db")
    told = run([program, "status", "--db", file], "counted")
    for metric, phase, count in ((b"pair", b"Running", 2), (b"agent", b"Running", 1)):
        row = rb"\n1 +lists +step 0 +lists@1 +%s +%s +%d +-  " % (metric, phase, count)
        if not re.search(row, told):
            fail(f"counted: no row {row!r} in {told!r}")


# Which measurements of `stories.late` are late, by textfile.LATE and their intervals.
LATE_METRICS = [("aa-timed", "errors"), ("cc-silent", "errors"), ("dd-pause", "errors"),
                ("ee-step", "open"), ("gg-once", "once")]


def try_late_tables(program, folder):
    """The tables of `status` have how many measurements of a service are late, and mark each."""
    file = os.path.join(folder, "late.db")
    told = run([program, "status", "--db", file], "late tables").decode().split("\n\n")
    services = {line.split()[0]: line.split()[-1] for line in told[1].splitlines()}
    wanted = {name: "1" for name, _ in LATE_METRICS} | {"bb-due": "-", "ff-delay": "-"}
    if services != {"NAME": "LATE"} | wanted:
        fail(f"late tables: {services}")
    marked = [line.split() for line in told[2].splitlines() if line.endswith("Z late")]
    found = [(words[1], words[-6]) for words in marked]
    if found != LATE_METRICS:
        fail(f"late tables: marked are {found}")


def try_weights(program, folder):
    """What is said of a share of requests is what the desk asks for: the spoken words of each bar,
    and the key at the end of the page."""
    file = os.path.join(folder, "states.db")
    root = look(run([program, "page", "--db", file, "-"], "weights"), "weights")
    told = {bar.attributes["aria-label"] for bar in root.all("svg", "bar")}
    wanted = {f"v2 is to have {percent} percent" for percent in (0, 10, 20, 30, 100)}
    if told != wanted | {"v1 is to have 100 percent"}:
        fail(f"weights: the bars say {sorted(told)}")
    key = root.first("p", "key").text()
    note = "A weight is the share of requests that the desk asks for: no router confirms it."
    if note not in key:
        fail(f"weights: the key is {key!r}")


def try_many(program, folder):
    """The page of 200 services begins with an index: first the 40 that wait, as the page has
    them."""
    file = os.path.join(folder, "many.db")
    make_desk(program, file, "many", stories.many())
    page = run([program, "page", "--db", file, "-"], "many")
    root = look(page, "many")
    tidy(page, "many")
    told = [line for line in outline(root) if line.startswith(("index", "  link", "part", "card"))]
    kinds = [stories.MANY[number % 20] for number in range(200)]
    named = {kind: [f"s{number:03}-{kind}" for number in range(200) if kinds[number] == kind]
             for kind in kinds}
    waits = ("aborted", "held", "late", "pause")
    waiting = [(name, kind) for kind in waits for name in named[kind]]
    wanted = ["index Waits for somebody (40)", *(f"  link {name} {kind}" for name, kind in waiting),
              "index Goes on by itself (60)", *(f"  link {name}" for name in named["goes"]),
              "index Done (100)", *(f"  link {name}" for name in named["done"])]
    if told[:len(wanted)] != wanted:
        fail(f"many: the index is {told[:60]}")
    drawn = [line.split(" ")[1] for line in told[len(wanted):] if line.startswith("card")]
    if drawn != [name for name, _ in waiting] + named["goes"]:
        fail(f"many: the cards are {drawn}")
    if root.first("main").inside[1].tag != "nav":
        fail("many: the page does not begin with the index")


def try_twenty(program, folder):
    """The page of 20 services has no index, and that of 21 has one."""
    for count in (20, 21):
        desk = stories.Desk()
        for number in range(count):
            desk.service(f"s{number}", "v1", [])
        file = os.path.join(folder, f"{count}.db")
        make_desk(program, file, f"{count} services", desk)
        root = look(run([program, "page", "--db", file, "-"], "twenty"), "twenty")
        if bool(root.first("nav")) != (count > 20):
            fail(f"{count} services: an index: {bool(root.first('nav'))}")


def try_days(program, folder):
    """A moment has its date if it is more than a day away: since when a measurement is due, or a
    service waits, and until when it pauses."""
    late = "  late Late: measurement 1 of errors, run 1 of the background, due since"
    want_lines(program, folder, stories.days, ("  late", "  waits"), [
        "  waits Waits for a promotion, since 01:02:03 (24 h).",
        f"{late} 01:02:03 (24 h).",
        "  waits Waits for a promotion, since 2222-01-04T01:02:03Z (36 h).",
        f"{late} 2222-01-04T01:02:03Z (36 h).",
        "  waits Waits for a promotion, since 2222-01-07T13:02:03Z (36 h).",
        "  waits Pauses for 96h, until 2222-01-10T13:02:03Z."])


def try_between(program, folder):
    """An attempt that ended is drawn, although the one after it had no run."""
    want_lines(program, folder, stories.between, ("  ended",), [
        "  ended Attempt of v2, begun 2222-01-01T00:00:20Z, aborted by a command "
        "2222-01-01T00:00:40Z; 1 run, 1 without a measurement"])


def try_promoted(program, folder):
    """Once a release was promoted although its background was Inconclusive, its card says that
    nothing is measured beside the steps any more."""
    want_lines(program, folder, stories.promoted, ("card", "  unmeasured"), [
        "card aa-promoted Paused v1 → v2 10%",
        "  unmeasured Nothing is measured beside the steps any more: the background analysis ended "
        "Inconclusive, the release was promoted, and the desk opens no other run of the background "
        "in this attempt.",
        "card bb-again Paused v1 → v2 10%",
        "card cc-well Paused v1 → v2 10%"])


def want_lines(program, folder, story, fronts, wanted):
    """The lines of the outline of a story's page that begin with one of these."""
    file = os.path.join(folder, f"{story.__name__}.db")
    make_desk(program, file, story.__name__, story())
    root = look(run([program, "page", "--db", file, "-"], story.__name__), story.__name__)
    told = [line for line in outline(root) if line.startswith(fronts)]
    if told != wanted:
        fail(f"{story.__name__}: {told}")


def at_second(moment):
    return time.strftime("%H:%M:%S", time.gmtime(moment))


def try_silence(program, folder):
    """As the clock goes on, and nobody measures: what is under way waits for somebody, and what is
    done says that nothing was measured."""
    file = os.path.join(folder, "silence.db")
    at = int(time.time()) - 3600
    make_desk(program, file, "silence", stories.silence(at))
    root = look(run([program, "page", "--db", file, "-"], "silence"), "silence")
    told = list(outline(root))
    parts = [line for line in told if line.startswith(("part", "card", "row"))]
    wanted = ["part Waits for somebody (1)", "card under-way Paused v1 → v2 50%",
              "part Goes on by itself (0)", "part Done (2)"]
    if parts[:4] != wanted or not parts[5].startswith("row done | Healthy | v2 | 100%"):
        fail(f"silence: {parts}")
    late = [line for line in told if line.startswith("  late")]
    since = ("  late Late: measurement 1 of errors, run 1 of the background, due since "
             f"{at_second(at + 4)} (")
    if len(late) != 1 or not late[0].startswith(since):
        fail(f"silence: {late} in place of {since}")
    with wrong_texts("silence"):
        samples = textfile.samples_of(text_of(program, file, "silence"))
        textfile.expect("silence: unmeasured", textfile.unmeasured_of(samples), {"done": 1})
    ended = [line for line in told if "without a measurement" in line]
    run_words = f"Run 1 background, errors@1, {at_second(at + 2)} to {at_second(at + 42)}"
    if len(ended) != 2 or "; 1 run, 1 without a measurement" not in ended[0] or not (
            ended[1].strip().startswith(run_words)
            and ended[1].endswith("Successful ended without a measurement")):
        fail(f"silence: {ended}")


# What a page and the tables of `status` say first of a file that no desk has open.
NO_DESK = (b"No desk has this file open: no request is answered, and no measurement recorded. "
           b"Pauses end at their moment all the same.")


def try_served(program, folder):
    """The page and the tables of a file say on top that no desk has it open, and do not say so
    while one has."""
    file = os.path.join(folder, "states.db")
    want_top(program, file, True)
    desk = subprocess.Popen([program, "serve", "--listen", "127.0.0.1:0", "--db", file],
                            stdout=subprocess.PIPE, stderr=subprocess.DEVNULL)
    try:
        desk.stdout.readline()
        want_top(program, file, False)
    finally:
        desk.kill()
        desk.wait()


def want_top(program, file, is_told):
    """Whether the top of the page, and the first line of the tables, say that no desk has the file
    open; no other text of `status` says so."""
    row = f"told that no desk has the file open: {is_told}"
    page = run([program, "page", "--db", file, "-"], row)
    top = look(page, row).first("header", "top").first("b", "late")
    if (top.text().encode() if top else None) != (NO_DESK if is_told else None):
        fail(f"{row}: the page says {top and top.text()!r}")
    if page.count(b"No desk") != is_told:
        fail(f"{row}: the page says so elsewhere")
    tables = run([program, "status", "--db", file], row)
    head = NO_DESK + b"\n\n" if is_told else b""
    if not tables.startswith(head + b"NAME ") or tables.count(b"No desk") != is_told:
        fail(f"{row}: status says {tables[:200]}")
    for form in ("--json", "--prometheus"):
        if b"No desk" in run([program, "status", form, "--db", file], row):
            fail(f"{row}: status {form} says so")


def moment_of_page(out):
    """The moment that a page shows, which is whole and loads itself anew each second."""
    with open(out, "rb") as read:
        page = read.read()
    if b'<meta http-equiv="refresh" content="1">' not in page:
        fail("watch: the page does not load itself anew")
    return look(page, "watch").first("header", "top").first("time").text()


def try_watch(program, folder):
    """A page that is drawn again and again, while a desk serves the file, is always whole."""
    file, out = os.path.join(folder, "states.db"), os.path.join(folder, "watched.html")
    desk = subprocess.Popen([program, "serve", "--listen", "127.0.0.1:0", "--db", file],
                            stdout=subprocess.PIPE, stderr=subprocess.DEVNULL)
    desk.stdout.readline()
    watch = subprocess.Popen([program, "page", "--db", file, "--watch", "1", out])
    try:
        drawn = set()
        end = time.monotonic() + LIMIT
        while len(drawn) < 3 and time.monotonic() < end:
            if os.path.exists(out):
                drawn.add(moment_of_page(out))
        if len(drawn) < 3:
            fail("watch: the page is not drawn again")
        if watch.poll() is not None or desk.poll() is not None:
            fail("watch: a program ended")
    finally:
        for process in (watch, desk):
            process.kill()
            process.wait()


def try_faults(program, folder):
    """What is not drawn leaves the page as it was, and no part beside it."""
    file, out = os.path.join(folder, "states.db"), os.path.join(folder, "kept.html")
    with open(out, "w", encoding="utf-8") as kept:
        kept.write("kept")
    missing = os.path.join(folder, "missing.db")
    for words, fault in ((["--db", missing, out], "file"),
                         (["--db", file, os.path.join(folder, "none", "out.html")], "file"),
                         (["--db", __file__, out], "storage")):
        done = subprocess.run([program, "page", *words], capture_output=True, timeout=LIMIT,
                              check=False)
        told = without_progress(done.stderr)
        if done.returncode != 1 or told != f"canary: {fault}\n".encode() or done.stdout:
            fail(f"page {words}: status {done.returncode}, {done.stderr}")
    with open(out, encoding="utf-8") as kept:
        if kept.read() != "kept" or parts_of(out) or os.path.exists(missing):
            fail("a fault changed a file")


def try_textfile(program, folder):
    """The text for the textfile collector of a desk that was worked out by hand, by itself and as
    node_exporter shows it; and the alerts of examples/operations."""
    file = os.path.join(folder, "textfile.db")
    make_desk(program, file, "textfile", textfile.worked())
    with wrong_texts("textfile"):
        text = text_of(program, file, "textfile")
        textfile.look_at_worked(text)
        textfile.look(text, run([program, "status", "--json", "--db", file], "textfile"))
        textfile.collect(folder, text)
    for row, story in (("two runs", stories.two_runs()), ("unmeasured", stories.unmeasured())):
        file = os.path.join(folder, f"{row}.db")
        make_desk(program, file, row, story)
        with wrong_texts(row):
            textfile.look_at_case(row, text_of(program, file, row),
                                  run([program, "status", "--json", "--db", file], row))
    if has_prometheus():
        with wrong_texts("alerts"):
            textfile.look_at_alerts()


def try_records(program, folder):
    """The files in JSON beside a page."""
    try:
        records.try_all(program, folder, make_desk)
    except (records.Wrong, ValueError, KeyError, UnicodeDecodeError) as error:
        fail(f"--json: {error}")


def main(program, folder, names):
    known = {case.__name__: case for case in stories.CASES}
    for name in names:
        if name not in known:
            fail(f"no case {name}")
    for case in stories.CASES:
        if not names or case.__name__ in names:
            try_case(program, folder, case)
    if not names:
        try_breaking(program, folder)
        try_decimals(program, folder)
        try_counted(program, folder)
        try_late_tables(program, folder)
        try_weights(program, folder)
        try_many(program, folder)
        try_twenty(program, folder)
        try_silence(program, folder)
        try_days(program, folder)
        try_between(program, folder)
        try_promoted(program, folder)
        try_served(program, folder)
        try_watch(program, folder)
        try_faults(program, folder)
        try_textfile(program, folder)
        try_records(program, folder)
    print(f"page: {len(names or known)} desks drawn", file=sys.stderr)


if __name__ == "__main__":
    main(sys.argv[1], sys.argv[2], sys.argv[3:])
