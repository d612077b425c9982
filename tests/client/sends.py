"""Measurement files: parts of client.py."""
import subprocess
import time

from replies import reply
from reports import add_measured, metric
from world import (
    CONTRADICTION, DONE, FOREIGN, LOCAL, PENDING, UNAVAILABLE, WORDS, Wrong, answering, ask,
    environment, expect, free_port, process, want, want_all_said,
)

HEADER = "caller,number,service,run,metric,ordinal,taken,result,failure\n"
ROW_PENDING = ("pending: no answer came to the next row; the same call again goes on from there")
ROW_REUSED = ("reused: the desk settled another command under the number of this row. The file was"
              " changed, or somebody else sends under this name")
ROW_AHEAD = ("ahead: the desk has not settled what comes before this row. A row is missing, or the"
             " desk was restored from an older copy")
NO_HEADER = "the first record of the file is not the header of a measurement file"
NO_FILE = "the file cannot be read"
ROWS = 300
# The bytes of a pipe for some lines: who writes them all waits until most of them are read.
PIPE = 4096
# The status of a call of which a row was refused.
ROWS_REFUSED = 8


def rows_of(count, taken):
    """A file of so many measurements, of which each 50th failed."""
    rows = [f"agent,{at},web,1,m,{at},{taken},{90 + at % 10}," if at % 50
            else f'agent,{at},web,1,m,{at},{taken},,"no data, ""timeout"""'
            for at in range(1, count + 1)]
    return HEADER + "\n".join(rows) + "\n"


def line(at, phase="Successful"):
    return (f'{at} 200 {{"code":"ok","phases":["{phase}"],"run":1,"service":"web",'
            '"status":"Paused","step":1,"verdict":"Running","weight":20}\n')


def lines_of(count):
    """The lines of such a file."""
    return "".join(line(at, "Successful" if at % 50 else "Error") for at in range(1, count + 1))


def want_sent(row, ended, status, output, counts, said=None):
    """The client ended with this status and output, said this sentence, if any, and counted the
    rows that are recorded, that repeat a measurement, and that are refused."""
    recorded, repeated, refused = counts
    lines = [] if said is None else [f"canary: {said}"]
    lines.append(f"canary: rows recorded: {recorded}, repeated: {repeated}, refused: {refused}")
    found = ended.errors.splitlines()[-len(lines):]
    expect(row, (ended.status, ended.output, found), (status, output, lines))


def counted(desk):
    return desk.rows("SELECT count(*), count(DISTINCT ordinal), max(ordinal) FROM measurement")[0]


def kill_sending(words, desk, count, with_desk):
    """Kills a client that has written so many lines, and before that the desk, if it is to be. How
    it ended, and what it wrote."""
    with process(words, cwd=desk.folder, env=environment(), stdin=subprocess.DEVNULL,
                 stdout=subprocess.PIPE, stderr=subprocess.DEVNULL, pipesize=PIPE) as client:
        found = b"".join(client.stdout.readline() for _ in range(count))
        if with_desk:
            desk.restart()
            found += client.stdout.readline()
        client.kill()
        found += client.stdout.read()
        return client.wait(), found


def try_send(world):
    """A file of 300 rows; the client is killed again and again on its way, and the desk once. Each
    row is recorded once, and the file sent again has the same lines."""
    with world.desk("send") as desk:
        add_measured(desk, metric("m", "0s"))
        desk.write("rows.csv", rows_of(ROWS, int(time.time())))
        whole, kills = lines_of(ROWS), 0
        words = [world.program, "send", "--desk", f"127.0.0.1:{desk.port}", "--tries", "100",
                 "rows.csv"]
        for at in range(6):
            status, found = kill_sending(words, desk, 1 + 40 * at, at == 3)
            kills += status < 0
            if not whole.startswith(found.decode()):
                raise Wrong(f"kill {at}: it wrote {found[-300:]!r}")
        expect("kills", kills, 6)
        want_sent("whole", desk.ask("send", "rows.csv"), DONE, whole, (ROWS, 0, 0))
        want_sent("again", desk.ask("send", "rows.csv"), DONE, whole, (ROWS, 0, 0))
        with open(desk.folder / "rows.csv", "rb") as rows:
            want_sent("the input", desk.ask("send", "-", stdin=rows), DONE, whole, (ROWS, 0, 0))
        expect("measurements", counted(desk), (ROWS, ROWS, ROWS))
        # as import prints them
        desk.kill()
        found = world.run(["import", "--db", "desk.db", "rows.csv"], desk.folder)
        expect("import", (found.status, found.output), (0, whole))
    return f"{kills} kills"


def try_rows(world):
    """Rows that are refused, and files that have other rows in their place."""
    with world.desk("rows") as desk:
        add_measured(desk, metric("m", "0s"))
        taken = int(time.time())
        row = f"agent,%d,web,1,m,%d,{taken},%s,\n"
        refused = [row % (1, 1, 5), row % (2, 3, 5), row % (3, 2, 5), row % (4, 2, 6),
                   "Agent,5,web,1,m,3,1,5,\n", "agent,0,web,1,m,3,1,5,\n", "agent,5,web\n",
                   f"agent,5,web,1,m,3,{taken},5.5,\n", f"agent,5,web,2,m,3,{taken},5,\n",
                   row % (6, 3, 7)]
        desk.write("refused.csv", HEADER + "".join(refused))
        lines = (line(1) + '2 422 {"at":0,"code":"out-of-turn","expected":2}\n' + line(3)
                 + '4 422 {"at":0,"code":"recorded"}\n5 400 {"code":"bad-name"}\n'
                 '6 400 {"code":"bad-number"}\n7 400 {"code":"unreadable"}\n'
                 '8 400 {"code":"unreadable"}\n9 422 {"code":"unknown-run"}\n' + line(10))
        for again in ("first", "again"):
            want_sent(again, desk.ask("send", "refused.csv"), ROWS_REFUSED, lines, (3, 1, 6))
        # from here on the file has other rows
        desk.write("missing.csv", HEADER + refused[0] + row % (7, 4, 5) + row % (9, 5, 5)
                   + row % (10, 6, 5))
        want_sent("a row is missing", desk.ask("send", "missing.csv"), CONTRADICTION,
                  line(1) + line(2) + '3 409 {"code":"ahead","expected":8}\n', (2, 0, 0), ROW_AHEAD)
        desk.write("changed.csv", HEADER + refused[0] + refused[1].replace(",5,", ",6,")
                   + refused[2])
        want_sent("a row is changed", desk.ask("send", "changed.csv"), CONTRADICTION,
                  line(1) + '2 409 {"code":"reused"}\n', (1, 0, 0), ROW_REUSED)
        # a file in which a desk that was restored lacks a row
        desk.write("more.csv", HEADER + "".join(refused) + row % (9, 5, 5))
        want_sent("ahead", desk.ask("send", "more.csv"), CONTRADICTION,
                  lines + '11 409 {"code":"ahead","expected":8}\n', (3, 1, 6), ROW_AHEAD)
        expect("measurements", counted(desk), (4, 4, 4))


def try_no_rows(world):
    """Files without a header, without rows, that are no files; and no desk to which to send."""
    with world.desk("no-rows") as desk:
        add_measured(desk, metric("m", "0s"))
        row = f"agent,1,web,1,m,1,{int(time.time())},5,\n"
        desk.write("other.csv", row)
        want("no header", desk.ask("send", "other.csv"), WORDS, said=NO_HEADER)
        desk.write("empty.csv", "")
        want_sent("an empty file", desk.ask("send", "empty.csv"), DONE, "", (0, 0, 0))
        desk.write("header.csv", HEADER)
        want_sent("a header alone", desk.ask("send", "header.csv"), DONE, "", (0, 0, 0))
        for name in ("none.csv", "."):
            want(name, desk.ask("send", name), LOCAL, said=NO_FILE)
        desk.write("rows.csv", HEADER + row)
        found = world.run(["send", "--desk", f"127.0.0.1:{free_port()}", "--tries", "2",
                           "rows.csv"], desk.folder)
        want("no desk", found, PENDING, said=ROW_PENDING)
        expect("kept", desk.kept("agent"), [])
        want_sent("a desk", desk.ask("send", "rows.csv"), DONE, line(1), (1, 0, 0))


def try_rows_again(world):
    """A row that a desk answers with 503, and one that a proxy answers, have no line: they are sent
    again until a desk answers them."""
    with world.desk("rows-again") as desk:
        add_measured(desk, metric("m", "0s"))
        desk.write("rows.csv", rows_of(3, int(time.time())))
        others = {1: (reply(503, '{"code":"storage"}'), UNAVAILABLE),
                  3: (reply(502, "<html>"), FOREIGN),
                  5: (reply(503, '{"code":"no-memory"}'), UNAVAILABLE)}
        come = []

        def answer(client):
            come.append(client.recv(65536))
            other = others.get(len(come))
            client.sendall(other[0] if other else ask(desk.port, come[-1]))

        with answering(answer) as port:
            found = world.run(["send", "--desk", f"127.0.0.1:{port}", "rows.csv"], desk.folder)
        want_all_said("again", found, *(said for _, said in others.values()),
                      "rows recorded: 3, repeated: 0, refused: 0")
        expect("again", (found.status, found.output), (DONE, lines_of(3)))
        expect("each message twice", come, [come[at] for at in (0, 0, 2, 2, 4, 4)])
        expect("measurements", counted(desk), (3, 3, 3))
