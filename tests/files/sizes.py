"""Files with more than the stories have: sizes.py PROGRAM FOLDER. A desk of 150 services with a
closed run and an open one each, a service of 150 runs, a report of 32 entries on a template of 32
metrics, and a run of 33,000 measurements with a history of 33,000 lines, which is more than a desk
reads at once as it opens a file. Each file is opened again: each request that is sent once more has
the bytes of its reply, and the programs show what the rules give. Last, a file with exports of
several pages."""
import os
import re
import socket
import sqlite3
import subprocess
import sys

from conversation import STILL_AT_B, without_progress
from story_words import B, Wrong, answer, command, expect, get, put, query, replies, reply

MANY, WIDE, LONG = 150, 32, 33_000
# How many measurements an export reads at once.
PAGE = 32_768
LISTENING = re.compile(rb"listening 127\.0\.0\.1:(\d+)\n")
AT_B_TEXT = "2026-01-01T00:00:00Z"
# What tables begin with if no desk has the file open.
NO_DESK = ("No desk has this file open: no request is answered, and no measurement recorded. "
           "Pauses end at their moment all the same.")
BEGIN = ["service v1 setWeight:20 pause background:errs", "start v2"]
TOLD = {"service": "[%s Healthy 2 100]", "start": "[%s Paused 1 20]",
        "abort": "[%s Degraded 1 0]", "retry": "[%s Paused 1 20]"}


def numbered(asked):
    """The requests of `ops` for these commands, each on a service, with their replies."""
    sent = [(put("ops", 1, command("template errs m,interval=60")), answer("[errs 1]"))]
    for number, (service, text) in enumerate(asked, 2):
        told = TOLD[text.split(" ")[0]] % service
        sent.append((put("ops", number, command(text, service)), answer(told)))
    return sent


def run(program, words, sent=b""):
    return subprocess.run([program, *words], input=sent, capture_output=True, timeout=600)


def want(row, done, output):
    expect(row, (done.returncode, done.stdout, without_progress(done.stderr)), (0, output, b""))


def tell(program, file, row, messages):
    """Sends these over a file, and once more over the file that is there then: each time with these
    replies."""
    stream, told = (b"".join(part) for part in zip(*messages))
    for when in ("", ", and again over the file that is there"):
        done = run(program, [*STILL_AT_B, "--db", file], stream)
        wrong = [at for at, (found, wanted) in enumerate(zip(
            replies(done.stdout), (wanted for _, wanted in messages)), 1) if found[2] != wanted]
        if wrong:
            raise Wrong(f"{row}{when}: other replies to the messages {wrong[:10]}")
        want(row + when, done, told)


def ask(stream, message):
    """The bytes of the reply of a desk that listens."""
    stream.sendall(message)
    found = b""
    while b"\r\n\r\n" not in found or len(found) < whole_length(found):
        some = stream.recv(1 << 16)
        if not some:
            break
        found += some
    return found


def whole_length(found):
    head, _, _ = found.partition(b"\r\n\r\n")
    return len(head) + 4 + int(re.search(rb"Content-Length: (\d+)", head)[1])


def serve(program, file, row, messages):
    """A desk that listens on the file answers these so."""
    desk = subprocess.Popen([program, "serve", "--listen", "127.0.0.1:0", "--db", file],
                            stdin=subprocess.DEVNULL, stdout=subprocess.PIPE)
    try:
        listening = LISTENING.fullmatch(desk.stdout.readline())
        if listening is None:
            raise Wrong(f"{row}: no desk listens")
        with socket.create_connection(("127.0.0.1", int(listening[1])), timeout=60) as stream:
            for at, (message, wanted) in enumerate(messages, 1):
                expect(f"{row}: message {at} to a desk that listens", ask(stream, message), wanted)
    finally:
        desk.kill()
        desk.communicate()


def shown(service, runs, opened, stable="v1", version="v2"):
    """What a query shows of a service in its pause, at any moment: of its bytes those about it."""
    return (f'"open":[{",".join(map(str, opened))}],"runs":{runs},"service":"{service}",'
            f'"stable":"{stable}","status":"Paused","step":1,"version":"{version}","weight":20}}')


def want_shown(program, file, row, service, wanted):
    done = run(program, [*STILL_AT_B, "--db", file], get(query(f"service {service}")))
    body = f'{{"code":"ok","hold":"none","moment":{B},{wanted}'
    want(f"{row}: {service}", done, reply("200 OK", body.encode()))


def try_many_services(program, file):
    """150 services, each aborted once and begun anew."""
    row, names = f"{MANY} services", [f"s{at:03}" for at in range(1, MANY + 1)]
    messages = numbered((name, text) for text in (*BEGIN, "abort", "retry") for name in names)
    tell(program, file, row, messages)
    for name in (names[0], names[-1]):
        want_shown(program, file, row, name, shown(name, 2, [2]))
    # `NAME` is as long as the names, so it gives the columns their width.
    lines = [NO_DESK, "", "NAME  STATUS  STEP  WEIGHT          VERSION  STABLE  LATE"]
    lines += [f"{name}  Paused  1/2   ##-------- 20%  v2       v1      1" for name in names]
    lines += ["", "RUN  SERVICE  ANALYSIS    TEMPLATES  METRIC  PHASE    COUNTED  PASSES  DUE"]
    lines += [f"2    {name}     background  errs@1     m       Pending  0        -       "
              f"{AT_B_TEXT} late" for name in names]
    want(f"{row}: status", run(program, ["status", "--db", file]), "\n".join([*lines, ""]).encode())
    serve(program, file, row, messages)
    run_1 = run(program, [*STILL_AT_B, "--db", file],
                b"".join(get(query(f"run {name} 1")) for name in names))
    expect(f"{row}: their closed runs", run_1.stdout.count(b'"verdict":"Successful"}'), MANY)


def try_many_runs(program, file):
    """A service with 150 runs, of which the last is open."""
    row = f"{MANY} runs"
    again = [("web", text) for _ in range(1, MANY) for text in ("abort", "retry")]
    tell(program, file, row, numbered([("web", text) for text in BEGIN] + again))
    want_shown(program, file, row, "web", shown("web", MANY, [MANY]))
    history = run(program, ["history", "--db", file, "web"])
    lines = ["created v1", "start v2"]
    for number in range(1, MANY + 1):
        lines += [f"background run {number}", "step 0 setWeight 20", "step 1 pause"]
        if number < MANY:
            lines += ["abort", f"run {number} Successful ended", "retry v2"]
    want(f"{row}: history", history,
         "".join(f"{AT_B_TEXT} {line}\n" for line in lines).encode())


def try_wide_report(program, file):
    """A report with an entry of each of 32 metrics, the most that there may be."""
    row, names = f"a report of {WIDE} entries", [f"m{at}" for at in range(1, WIDE + 1)]
    wide = "template errs " + " ".join(f"{name},interval=60" for name in names)
    report = "report 1 " + " ".join(f"{name}:1:0:{at}" for at, name in enumerate(names))
    phases = " ".join(["Successful"] * WIDE)
    messages = [(put("ops", 1, command(wide)), answer("[errs 1]")),
                *numbered([("web", text) for text in BEGIN])[1:],
                (put("agent", 1, command(report)),
                 answer(f"[web Paused 1 20 | 1 {phases} | Running]"))]
    tell(program, file, row, messages)
    rows = ["caller,number,service,run,metric,ordinal,taken,result,failure"]
    rows += [f"agent,{at + 1},web,1,{name},1,{B},{at}," for at, name in enumerate(names)]
    want(f"{row}: export", run(program, ["export", "--db", file, "--caller", "agent", "web"]),
         "\n".join([*rows, ""]).encode())
    serve(program, file, row, messages)


def lengthen(file):
    """Writes measurements and lines of a history after those of a run with one measurement, so
    that there are LONG of each."""
    opened = sqlite3.connect(file)
    with opened:
        opened.executemany(
            "INSERT INTO measurement (service, run, metric, ordinal, taken, phase, outcome)"
            " VALUES ('web', 1, 0, ?, ?, 1, '5')", ((at, B) for at in range(2, LONG + 1)))
        opened.execute("UPDATE tally SET counted = ?1, passes = ?1", (LONG,))
        lines, = opened.execute("SELECT count(*) FROM history").fetchone()
        opened.executemany("INSERT INTO history (service, moment, line)"
                           " VALUES ('web', ?, 'promote')", ((B,) for _ in range(lines, LONG)))
    opened.close()


def try_many_rows(program, file):
    """A run of more measurements, and a history of more lines, than are read at once."""
    row = f"{LONG} measurements and lines"
    report = "[web Paused 1 20 | 1 Successful | Running]"
    messages = numbered([("web", text) for text in BEGIN])
    messages.append((put("agent", 1, command("report 1 m:1:0:5")), answer(report)))
    tell(program, file, row, messages)
    lengthen(file)
    tell(program, file, row, messages)
    rows = ["caller,number,service,run,metric,ordinal,taken,result,failure"]
    rows += [f"agent,{at},web,1,m,{at},{B},5," for at in range(1, LONG + 1)]
    want(f"{row}: export", run(program, ["export", "--db", file, "--caller", "agent", "web"]),
         "\n".join([*rows, ""]).encode())
    lines = ["created v1", "start v2", "background run 1", "step 0 setWeight 20", "step 1 pause"]
    lines += ["promote"] * (LONG - len(lines))
    want(f"{row}: history", run(program, ["history", "--db", file, "web"]),
         "".join(f"{AT_B_TEXT} {line}\n" for line in lines).encode())
    # The next ordinal is in its turn, 60 seconds after the last.
    soon = put("agent", 2, command(f"report 1 m:{LONG + 1}:0:5"))
    early = answer(f'422 {{"at":0,"code":"too-early","due":{B + 60}}}')
    tell(program, file, f"{row}, and one more", [*messages, (soon, early)])


def change(file, *statements):
    """Runs statements, each with its parameters, on a desk's file."""
    opened = sqlite3.connect(file)
    with opened:
        for text, rows in statements:
            opened.executemany(text, rows)
    opened.close()


def by_turns(counts):
    """So many measurements of each service, the services taking turns: a row for each."""
    for ordinal in range(1, max(counts.values()) + 1):
        for name, count in counts.items():
            if ordinal <= count:
                yield name, 1, 0, ordinal, B, 1, str(ordinal % 7)


def exported(name, count):
    """The file of so many of them."""
    rows = [f"agent,{at},{name},1,m,{at},{B},{at % 7}," for at in range(1, count + 1)]
    return "\n".join(["caller,number,service,run,metric,ordinal,taken,result,failure", *rows, ""])


def try_long_exports(program, file):
    """Exports of a page, and of a measurement more, with those of another service between. Where
    the rows have their places does not count: near 0, far from it, or below it."""
    row, counts = "a long export", {"web": PAGE, "api": PAGE + 1}
    template = put("ops", 1, command("template errs m,interval=0"))
    begin = numbered((name, text) for text in BEGIN for name in counts)[1:]
    tell(program, file, row, [(template, answer("[errs 1]")), *begin])
    change(file,
           ("INSERT INTO measurement (service, run, metric, ordinal, taken, phase, outcome) "
            "VALUES (?, ?, ?, ?, ?, ?, ?)", by_turns(counts)),
           ("UPDATE tally SET counted = ?, passes = ?, last = ? WHERE service = ?",
            [(count, count, B, name) for name, count in counts.items()]))
    for name, moved_by in (("web", 0), ("api", 0), ("api", 10_000_000), ("api", -20_000_000)):
        change(file, ("UPDATE measurement SET place = place + ?", [(moved_by,)]))
        done = run(program, ["export", "--db", file, "--caller", "agent", name])
        wanted = exported(name, counts[name]).encode()
        want(f"{row} of {name}, moved by {moved_by}", done, wanted)


def main():
    program, folder = sys.argv[1:]
    try:
        for at, part in enumerate((try_many_services, try_many_runs, try_wide_report,
                                   try_many_rows, try_long_exports)):
            part(program, os.path.join(folder, f"sized-{at}"))
    except (Wrong, subprocess.TimeoutExpired) as fault:
        sys.exit(f"files: {fault}")


main()
