"""What docs/NIGHT.md, "If something dies", says of each part, as functions of a Round of
dying.py: each ends well if what its row says was seen, and by Wrong if not."""
import datetime
import pathlib

from loop import Wrong

DOCS = pathlib.Path(__file__).resolve().parents[2] / "docs" / "NIGHT.md"
TITLE = "## If something dies"


def expect(what, found, wanted):
    if found != wanted:
        raise Wrong(f"{what}: {found} in place of {wanted}")


def moment_of(line):
    return datetime.datetime.fromisoformat(line.split(" ")[0].replace("Z", "+00:00")).timestamp()


# ---- in an analysis step


def waits(it):
    """No more than the report that was on its way is settled, and the step stays."""
    expect("the step", it.back["web"].step(), it.before["web"].step())
    if it.back["web"].measured() > it.before["web"].measured() + 1:
        raise Wrong("something was reported")


def goes_on_after(it):
    if it.after["web"].measured() <= it.back["web"].measured():
        raise Wrong("nothing is measured after it")
    expect("the release", it.after["web"].status(), "Healthy")


def is_shown_late(it):
    late = it.seen["late"]
    if late.returncode != 0 or not late.stdout.startswith("web "):
        raise Wrong(f"due --late says {late.stdout!r}, with status {late.returncode}")


def measures_on(it):
    """Of a release that goes on while the part is away."""
    if it.back["web"].measured() <= it.before["web"].measured() + 1:
        raise Wrong("web is not measured")
    expect("the release", it.after["web"].status(), "Healthy")


def measures_old_share(it):
    """The desk wants a larger share, and the new version has the one before, of which a second run
    is measured."""
    old = it.old_shares()
    if len(old) < 3 or max(old) > 30:
        raise Wrong(f"the shares of the new version were {old}, in percent")
    if it.back["web"].run(-1)["metrics"][0]["measurements"] < 1:
        raise Wrong("the old share is not measured")


def is_aborted(it, service, verdict, counter, count):
    """The desk aborted by a run with this verdict, whose counter has come to so many."""
    view = it.back[service]
    expect(service, view.status(), "Degraded")
    run = view.run(-1)
    expect(f"{service}: the verdict", run["verdict"], verdict)
    expect(f"{service}: {counter}", run["metrics"][0][counter], count)
    expect(f"{service}: the last line", view.lines[-1].split(" ", 1)[1], f"abort run {run['run']}")


def aborts(it, service="web"):
    """Five failures in a row were reported."""
    is_aborted(it, service, "Error", "consecutive", 5)


def fails(it, service="web"):
    """Three measurements failed, one more than the template allows."""
    is_aborted(it, service, "Failed", "failed", 3)


def job_acts_once(it):
    """The job was killed after it had sent its promotion, and was run again."""
    lines = [line.split(" ", 1)[1] for line in it.after["manual"].lines]
    expect("promotions", lines[it.begun["manual"]:].count("promote"), 1)
    expect("the release", it.after["manual"].status(), "Healthy")


# ---- in a timed pause


def ends_at_its_moment(it):
    """The pause has ended while the part was away, neither sooner nor later."""
    lines = it.back["timed"].lines[it.begun["timed"]:]
    expect("its end", lines[-1].split(" ", 2)[1], "done")
    expect("its seconds", moment_of(lines[-1]) - moment_of(lines[0]), it.loop.pause)


# ---- with a background analysis


def stays_open(it):
    expect("its run is open", it.back["beside"].stand["open"], it.before["beside"].stand["open"])
    expect("the release", it.back["beside"].status(), "Paused")


def is_late(it):
    """One was taken when it had been due for longer than the interval, a second."""
    taken = it.loop.taken("beside", it.back["beside"].run(-1)["run"])
    if all(last + 2 >= each for last, each in zip(taken, taken[1:])):
        raise Wrong(f"no measurement was late: {taken}")


def ends_unmeasured(it):
    view = it.back["unmeasured"]
    expect("the release", view.status(), "Healthy")
    expect("its run", view.run(-1)["verdict"], "Successful")
    expect("measurements", view.measured(), 0)


def aborts_beside(it):
    aborts(it, "beside")


def fails_beside(it):
    fails(it, "beside")


def measures_beside(it):
    if it.back["beside"].measured() <= it.before["beside"].measured() + 1:
        raise Wrong("beside is not measured")


# ---- whoever uses the service


def no_client_sees_it(it):
    expect("errors", it.errors(it.seconds), {})


def clients_see_it(it):
    """HAProxy tries for some seconds before it answers an error."""
    if not it.errors(it.seconds + it.later):
        raise Wrong("no client saw an error")


STEP, PAUSE, BACKGROUND = range(1, 4)
FAILURES = [("failures", aborts), ("5 in a row are an Error", aborts), ("the desk aborts", aborts)]
SAME = {PAUSE: [("the same, if a background analysis is open", aborts_beside),
                ("the same, if a background analysis is open", ends_at_its_moment)],
        BACKGROUND: [("the same", aborts_beside)]}
# Of each row, by its column: words that have to stand there, and what has to be seen for them.
CLAIMS = {
    "the desk": {
        STEP: [("waits: nothing is reported", waits),
               ("after it the agent goes on", goes_on_after)],
        PAUSE: [("ends at its moment all the same", ends_at_its_moment),
                ("all pauses have ended", ends_at_its_moment)],
        BACKGROUND: [("its run stays open", stays_open),
                     ("measurements that were due are late", is_late)]},
    "the agent": {
        STEP: [("waits without end", waits), ("due --late shows it", is_shown_late)],
        PAUSE: [("ends at its moment, measured or not", ends_at_its_moment)],
        BACKGROUND: [("the release reaches its end, and the run is Successful, also without a"
                      " measurement", ends_unmeasured)]},
    "the provider": {STEP: FAILURES, **SAME},
    "the router, or all its clients": {
        STEP: [("their share is NaN, which fails each condition", fails),
               ("the desk aborts", fails)],
        PAUSE: [("the same, if a background analysis is open", fails_beside),
                ("the same, if a background analysis is open", ends_at_its_moment)],
        BACKGROUND: [("the same", fails_beside)]},
    "the new version": {STEP: [("as for the provider", aborts)], **SAME},
    "the stable version": {
        STEP: [("goes on: the new version alone is measured", measures_on)],
        PAUSE: [("passes", ends_at_its_moment)],
        BACKGROUND: [("goes on", measures_beside)]},
    "who follows the weights": {
        STEP: [("measures the old share of requests", measures_old_share)],
        PAUSE: [("passes", ends_at_its_moment)],
        BACKGROUND: [("measures the old share", measures_beside),
                     ("measures the old share", measures_old_share)]},
    "the job that promotes": {
        STEP: [("nothing: run it again", measures_on), ("nothing: run it again", job_acts_once)],
        PAUSE: [("nothing", ends_at_its_moment)],
        BACKGROUND: [("nothing", measures_beside)]},
}
CLIENTS = "Clients of the service see an error only if the router or a version dies."


def table():
    """The rows of the page, without its marks: the cells of each, by the first one."""
    text = DOCS.read_text(encoding="utf-8")
    if TITLE not in text or CLIENTS not in " ".join(text.split()):
        raise Wrong(f"{DOCS} has no {TITLE!r}, or does not say {CLIENTS!r}")
    section = text.split(TITLE + "\n", 1)[1].split("\n## ", 1)[0]
    lines = [line for line in section.splitlines() if line.startswith("| ")]
    rows = [[cell.strip() for cell in line.strip("| ").split(" | ")]
            for line in (line.replace("*", "").replace("`", "") for line in lines)]
    rows = {without_link(row[0]): row for row in rows[1:]}
    if set(rows) != set(CLAIMS):
        raise Wrong(f"the page has other rows: {set(rows) ^ set(CLAIMS)}")
    return rows


def without_link(cell):
    """The words of a cell, without the addresses of its links."""
    pieces = cell.replace("[", "").split("](")
    return pieces[0] + "".join(piece.split(")", 1)[1] for piece in pieces[1:])


def want_row(row, it):
    """What the page says of a part was seen. The words of each claim."""
    cells, columns, seen = table()[row], ("", "step", "pause", "background"), []
    for column, claims in CLAIMS[row].items():
        for words, is_seen in claims:
            name = f"{row}, {columns[column]}: {words}"
            if words not in cells[column]:
                raise Wrong(f"{name}: the page says {cells[column]!r}")
            try:
                is_seen(it)
            except Wrong as wrong:
                raise Wrong(f"{name}: {wrong}") from wrong
            seen.append(f"{columns[column]}: {words}")
    want_clients(row, it)
    return list(dict.fromkeys(seen))


def want_clients(row, it):
    if it.name in ("haproxy", "new", "stable"):
        clients_see_it(it)
    elif it.name != "traffic":
        try:
            no_client_sees_it(it)
        except Wrong as wrong:
            raise Wrong(f"{row}: {CLIENTS} {wrong}") from wrong
