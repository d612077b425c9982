"""Values of another program, by standard input and a FIFO: parts of agent.py."""
import contextlib
import os
import subprocess
import time

from agents import (
    Agent, agent_of, agent_words, beside, desk_for, measured, measured_beside, metric, of_web,
    provider, reply, run_agent, template, traced, wait_until, want_once)
from replies import want_plain
from rows import ESCAPES, GREATEST, LESS, NAN
from world import LOCAL, Late, Wrong, expect

# What the agent says of a line that it does not take.
INVALID_LINE = "a line of --values is no SERVICE METRIC VALUE of these files"
LONG_LINE = "a line of --values has more than 4,096 bytes, and is left out"
UNREADABLE = "standard input, or the file of --values, cannot be read now"
UNREAD = "no value: the agent cannot read what the other program gives"
# Of a kind that no agent asks.
OTHER = {"datadog": {"query": "avg:errors"}}
# Whose metric has no condition of its own: the desk's is result == 1.
JOB = {"job": {"spec": {}}}
# What lines say, and what is reported: of `result`, of a place, of places, and of all there is.
SAID = [
    ("one", "result < 1", "0.25", "250000"),
    ("digits", "result < 1", "0.12345600000000000000001", "123456"),
    ("great", "result < 1", "1e400", GREATEST),
    ("first", "result[0] < 1", "[0.25,0.5]", "250000"),
    ("both", "result[0] < 1 && result[1] < 1", "[0.25, -0.5]", "[250000;-500000]"),
    ("none", "len(result) == 0 || result[0] < 1", "[]", "[0]"),
    ("nan", "isNaN(result) || result < 1", "NaN", NAN),
    ("inf", "isInf(result) || result < 1", "-Inf", LESS),
    ("nil", "default(result, 0) < 1", "null", "-9223372036854775806"),
]
# What lines say of jobs, and what is reported, or how a failure goes.
OF_JOBS = [
    ("done", "1", "1", None),
    ("part", "0.5", None, "whole number"),
    ("more", "[1, 0]", None, "whole number"),
    ("null", "null", None, "null"),
]
# Invalid lines, and lines of what is not here.
HOSTILE = [
    b"", b" ", b"one", b"one m", b"one m ", b"one m x", b"one m 0.5.5", b"one m [1", b"one m 1]",
    b"one m [1,,2]", b"one m [[1]]", b"one m 1 2", b"one m \xff\xfe", b"\xff m 1", b"one m \x00",
    b"other m 1", b"one other 1", b"one m.e9 1", b"ONE m 1", b"one m true", b'one m "1"',
    b"asked m 7", b"one m 0x10", b"one m 1_0", ESCAPES.encode(),
    b"one m " + ESCAPES.encode().replace(b"\n", b""), b"x" * 5000, b"one m " + b"9" * 5000,
]


def manifests_of(rows, port, interval="2s"):
    """A service for each row, which another program measures, and one whose provider is asked."""
    made = []
    for name, condition, *_ in rows:
        of_other = {"provider": OTHER, "successCondition": condition}
        made += [template(name, metric("m", interval=interval, **of_other if condition
                                       else {"provider": JOB})),
                 measured_beside(name, name)]
    asked = metric("m", of_web(port), interval="2s", successCondition="result < 1")
    return [*made, template("asked", asked), measured_beside("asked", "asked")]


def reported_of(desk, name):
    return [each.result for each in measured(desk, name) if each.result]


def memory_of(agent):
    """The most memory that a process took, in kilobytes."""
    with open(f"/proc/{agent.process.pid}/status", encoding="utf-8") as file:
        return int(next(line for line in file if line.startswith("VmHWM:")).split()[1])


@contextlib.contextmanager
def reading(world, name, rows, source, **more):
    """A desk, an agent that reads lines from there, and what writes a line."""
    with provider(lambda *_: reply("0.25")) as server, \
            desk_for(world, name, *manifests_of(rows, server.port, **more)) as desk:
        if source == "-":
            options, stdin = ("--values", "-"), subprocess.PIPE
        else:
            if source == "fifo":
                os.mkfifo(desk.folder / "values")
            else:
                (desk.folder / "values").touch()
            options, stdin = ("--values", str(desk.folder / "values")), subprocess.DEVNULL
        with agent_of(desk, options=options, stdin=stdin) as agent:
            def write(line):
                if source == "-":
                    agent.process.stdin.write(line)
                    agent.process.stdin.flush()
                    return
                with open(desk.folder / "values", "ab", buffering=0) as file:
                    file.write(line)
            yield desk, agent, write


def want_values(world, source):
    """Each kind of value is reported; the lines come when a measurement waits for them."""
    name = f"values-{source}"
    with reading(world, name, SAID, source) as (desk, agent, write):
        for _ in range(3):
            for row in SAID:
                write(f"{row[0]} m {row[2]}\n".encode())
            time.sleep(.8)
        for row, _, text, wanted in SAID:
            wait_until(f"{row} is reported", lambda row=row: reported_of(desk, row)
                       or agent.must_run())
            expect(f"{name}: {row} {text}", set(reported_of(desk, row)), {wanted})
        wait_until("the one that is asked is measured meanwhile",
                   lambda: len(measured(desk, "asked")) > 1 or agent.must_run())
        found = measured(desk, *(row[0] for row in SAID), "asked")
        want_once(name, found)
        if any("no value" not in each.failure for each in found if each.failure):
            raise Wrong(f"{name}: failures: {[each for each in found if each.failure]}")
        expect(f"{name}: its end is said", "ended" in agent.errors(), False)


def try_values(world):
    """Values of another program by standard input, by a FIFO, whose writers come and go, and by a
    file that grows."""
    beside(lambda source: want_values(world, source), ("-", "fifo", "file"))
    return f"{len(SAID)} values by each"


def try_value_before(world):
    """A value that comes between two measurements is reported for the next one."""
    with reading(world, "value-before", SAID[:1], "-", interval="8s") as (desk, agent, write):
        for count, value in enumerate((b"0.1", b"0.2")):
            # far from the measurement before it, and from the one that is due then
            time.sleep(3 * count)
            write(b"one m %s\n" % value)
            wait_until(f"measurement {count + 1}", lambda count=count:
                       len(measured(desk, "one")) > count or agent.must_run())
        expect("what is measured", [each.result or each.failure
                                    for each in measured(desk, "one")], ["100000", "200000"])


def try_jobs(world):
    """A job's value is reported as it stands; what is not one whole number is a failure."""
    rows = [(name, None, text) for name, text, *_ in OF_JOBS]
    with reading(world, "jobs", rows, "-") as (desk, agent, write):
        def said_of(name):
            texts = {each.result or each.failure for each in measured(desk, name)}
            return {text for text in texts if "no value" not in text}
        for _ in range(3):
            for name, _, text in rows:
                write(f"{name} m {text}\n".encode())
            time.sleep(.8)
        for name, text, result, says in OF_JOBS:
            wait_until(f"{name} is reported", lambda name=name: said_of(name) or agent.must_run(),
                       30)
            found = said_of(name)
            if any(each != result if result else says not in each for each in found):
                raise Wrong(f"{name} {text}: {found} in place of {result or says}")
    return f"{len(rows)} values"


def try_no_values(world):
    """Without a line a measurement is a failure in time. A later line takes the place of an earlier
    one, and each is reported once. The input's end is said once."""
    with reading(world, "no-values", SAID[:1], "-") as (desk, agent, write):
        wait_until("a failure", lambda: any(each.failure for each in measured(desk, "one")))
        write(b"one m 0.1\none m 0.2\none m 0.3\n")
        wait_until("a result", lambda: reported_of(desk, "one"))
        time.sleep(5)
        expect("the last of three lines, once", reported_of(desk, "one"), ["300000"])
        # A last line that is too long and has no end is said, as each other one is.
        write(b"one m " + b"9" * 5000)
        agent.process.stdin.close()
        agent.wait_said(LONG_LINE)
        agent.wait_said("ended")
        time.sleep(2)
        expect("said once", agent.errors().count("ended"), 1)
        before = len(measured(desk, "asked"))
        wait_until("others go on", lambda: len(measured(desk, "asked")) > before)


def try_last_line(world):
    """Standard input ends in a line that is too long and has no end. That it is too long is said as
    of any other, and then that no more comes."""
    with reading(world, "last-line", SAID[:1], "-") as (_, agent, write):
        write(b"z" * 5000)
        time.sleep(1)
        agent.process.stdin.close()
        agent.wait_said("the program that gives values has ended: no more come")
        expect("how often it is said", agent.errors().count(LONG_LINE), 1)


def try_input_of_a_file(world):
    """Standard input is a file, or nothing: its value is reported, and its end is said once."""
    with provider(lambda *_: reply("0.25")) as server, \
            desk_for(world, "input-of-a-file", *manifests_of(SAID[:1], server.port)) as desk:
        name, _, text, wanted = SAID[0]
        (desk.folder / "lines").write_text(f"{name} m {text}\n", encoding="ascii")
        for times, source in enumerate((desk.folder / "lines", os.devnull), 1):
            with open(source, "rb") as stdin, \
                    agent_of(desk, options=("--values", "-"), stdin=stdin) as agent:
                agent.wait_said("the program that gives values has ended: no more come", times)
                wait_until("its value is reported", lambda agent=agent:
                           wanted in reported_of(desk, name) or agent.must_run())
                time.sleep(1)
                expect(f"{source}: how often", agent.errors().count("ended"), times)


def try_unreadable_input(world):
    """Standard input is a folder, which nobody reads: that is said once, and what a provider
    measures goes on. With --once the status is 5."""
    with provider(lambda *_: reply("0.25")) as server, \
            desk_for(world, "unreadable-input", *manifests_of(SAID[:1], server.port)) as desk:
        folder = os.open(desk.folder, os.O_RDONLY)
        with agent_of(desk, options=("--values", "-"), stdin=folder) as agent:
            agent.wait_said(UNREADABLE)
            wait_until("others go on", lambda: len(measured(desk, "asked")) > 2)
            wait_until("its own fault is reported as such", lambda: UNREAD in [
                each.failure for each in measured(desk, SAID[0][0])] or agent.must_run())
            expect("said once", agent.errors().count(UNREADABLE), 1)
            expect("its end is said", agent.errors().count("ended"), 0)
        ended = run_agent(desk, options=("--once", "--values", "-"), stdin=folder)
        os.close(folder)
        expect("--once", (ended.status, ended.errors.count(UNREADABLE)), (LOCAL, 1))


def try_unreadable_file(world):
    """A file of values on a disk that fails, and fails again later: that is said once each time,
    and what the file has counts once it can be read."""
    with reading(world, "unreadable-file", SAID[:1], "file", interval="3s") as (desk, agent, write):
        values = desk.folder / "values"
        for times, value in enumerate((b"0.1", b"0.2"), 1):
            with traced(agent, values, desk.folder / "calls", "read:error=EIO"):
                write(b"one m %s\n" % value)
                agent.wait_said(UNREADABLE, times)
                time.sleep(3)
                expect("said once", agent.errors().count(UNREADABLE), times)
            wait_until("what it has counts", lambda times=times:
                       len(reported_of(desk, "one")) == times or agent.must_run())
        expect("what counts", reported_of(desk, "one"), ["100000", "200000"])


def try_uneven_file(world):
    """A file of values of which each second read fails, and the others have nothing: that is said
    once."""
    with reading(world, "uneven-file", SAID[:1], "file", interval="30s") as (desk, agent, _):
        with traced(agent, desk.folder / "values", desk.folder / "calls",
                    "read:error=EIO:when=1+2"):
            agent.wait_said(UNREADABLE)
            time.sleep(5)
            expect("said once", agent.errors().count(UNREADABLE), 1)


def try_no_gate(world):
    """Standard input is a pipe without a word, and this machine has nothing left to wait for it
    with: the call ends with status 5, and does not wait for ever."""
    with provider(lambda *_: reply("0.25")) as server, \
            desk_for(world, "no-gate", *manifests_of(SAID[:1], server.port)) as desk:
        front = ["strace", "-D", "-f", "-o", str(desk.folder / "calls"), "-e", "trace=epoll_ctl",
                 "-e", "inject=epoll_ctl:error=ENOSPC:when=1"]
        reader, writer = os.pipe()
        ended = world.run_words(
            [*front, world.program, *agent_words(desk, options=("--once", "--values", "-"))],
            desk.folder, 60, stdin=reader)
        os.close(reader)
        os.close(writer)
        expect("it ends", (ended.status, ended.errors),
               (LOCAL, "canary: standard input, or the file of --values, cannot be read\n"))


def try_hostile_lines(world):
    """Invalid lines, lines of services and metrics that are not here, and without an end: each is
    said in plain text or ignored, the good ones among them count, others are measured in time, and
    no memory is taken for them."""
    with reading(world, "hostile-lines", SAID[:1], "-") as (desk, agent, write):
        for line in HOSTILE:
            write(line + b"\n")
        begun = memory_of(agent)
        for _ in range(1200 if world.is_whole else 120):
            write(b"z" * 500_000)
        write(b"\n")
        want_no_more(agent, begun)
        wait_until("a good line", lambda: write(b"one m 0.25\n") or time.sleep(.3)
                   or reported_of(desk, "one"))
        for _ in range(300):
            write(b"".join(line + b"\n" for line in HOSTILE[:20]))
        write(b"one m 0.5\r\n")
        wait_until("after many", lambda: write(b"one m.e6n 0.5\n") or time.sleep(.3)
                   or "500000" in reported_of(desk, "one"))
        expect("nothing else is reported", set(reported_of(desk, "one")), {"250000", "500000"})
        found = measured(desk, "asked")
        expect("what is asked", {each.result for each in found}, {"250000"})
        moments = [each.taken for each in found]
        if max(two - one for one, two in zip(moments, moments[1:])) > 4 * world.slowness:
            raise Late(f"the other service was measured at {moments}")
        want_plain("its errors", agent.errors(), "\n")
        want_plain("its output", agent.output.read_text(encoding="utf-8"), "\n")
        if max(map(len, agent.errors().splitlines())) > 2000:
            raise Wrong("a line of its errors is longer than 2000")


def want_no_more(agent, begun):
    """60 MB in one line took less than 20 MB of memory."""
    grown = memory_of(agent) - begun
    if grown > 20_000:
        raise Wrong(f"a line without an end took {grown} kB")


def try_no_reader(world):
    """Values of a file that is not there, a folder, a FIFO that nobody writes to: the first two end
    it with status 5, and by the third the others are measured."""
    with provider(lambda *_: reply("0.25")) as server, \
            desk_for(world, "no-reader", *manifests_of(SAID[:1], server.port)) as desk:
        (desk.folder / "folder").mkdir()
        os.mkfifo(desk.folder / "quiet")
        for name in ("none", "folder"):
            agent = Agent(desk, options=("--values", str(desk.folder / name)), name=name)
            expect(name, agent.process.wait(30), 5)
            agent.kill()
        with agent_of(desk, options=("--values", str(desk.folder / "quiet"))):
            wait_until("others", lambda: len(measured(desk, "asked")) > 2)
