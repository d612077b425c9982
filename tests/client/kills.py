"""The client and the desk killed at each call that they make, calls that fail, paths that are taken
meanwhile, and power that goes, by strace: parts of client.py."""
import contextlib
import itertools
import os
import re
import signal
import subprocess
import time

from journal_disk import BYTES, CALL, Disk, unescaped
from journal_rule import is_new, journal_of
from world import (
    DONE, LOCAL, NO_FILE, NO_JOURNAL_FILE, PROMOTED, Wrong, add, environment, expect, process,
    shown, wait_until, want, want_delivered,
)

NAME = re.compile(r"^(?:\d+ +)?(\w+)\(", re.MULTILINE)
STOPPED = re.compile(r"^(\d+) +--- stopped by SIGSTOP", re.MULTILINE)
# How strace ends if the program that it began was killed, or was killed with it.
KILLED = (-signal.SIGKILL, 128 + signal.SIGKILL)
# What may take a path.
TAKES = {"fifo": os.mkfifo, "null": lambda path: path.symlink_to("/dev/null")}


def killing(log, names, at):
    """The words that go before those of a program which is to be killed at this one of its calls,
    from 0: before the system does what it asks."""
    call, when = names[at], names[:at + 1].count(names[at])
    return ["strace", "-f", "-o", str(log), "-e", f"trace={call}",
            "-e", f"inject={call}:signal=SIGKILL:when={when}"]


def run_traced(world, desk, front, words):
    """How a client ends that these words begin, as strace, and what it writes to its output."""
    ended = world.run_words([*front, world.program, *words], desk.folder)
    return ended.status, ended.output


def begun(desk, service, is_old):
    """The caller and the journal of a service, by its name. An old journal is there."""
    own = {"caller": service, "journal": f"{service}.journal"}
    if is_old:
        want(service, desk.do("tick", service, **own), DONE, shown(("Paused", 1, 20), service))
    return own


def promotion(desk, service, own):
    """The words of a promotion under a key."""
    return desk.words("promote", service, options=("--once", "key"), **own)


def want_settled(row, desk, service, own):
    """The same call again settles the command, and one more does nothing."""
    for _ in range(2):
        want(row, desk.do("promote", service, options=("--once", "key"), **own), DONE,
             shown(PROMOTED, service))
    want_delivered(row, desk, service, own["journal"])


def want_once(desk, services):
    """Each of these services was promoted once."""
    counts = desk.count("promote")
    expect("promotions", {counts.get(name) for name in services}, {1})


def calls_of_client(world, desk, service, is_old, *words):
    """The names of the calls of a client, from the one that begins it on, or of those calls that
    these words of strace choose."""
    log = desk.folder / "calls"
    add(desk, service)
    own = begun(desk, service, is_old)
    front = ["strace", "-f", "-o", str(log), *words]
    expect("a traced client", run_traced(world, desk, front, promotion(desk, service, own)),
           (DONE, shown(PROMOTED, service)))
    return NAME.findall(log.read_text())


def kill_client(world, desk, service, is_old, names, at):
    """Kills a client at this one of its calls. Whether it was killed, and whether the command stood
    in its journal."""
    row, own = f"{service}: killed at call {at}, {names[at]}", begun(desk, service, is_old)
    status, output = run_traced(world, desk, killing(desk.folder / "log", names, at),
                                promotion(desk, service, own))
    journal = desk.folder / own["journal"]
    is_asked = journal.exists() and "key" in journal.read_text()
    if status not in (DONE, *KILLED):
        raise Wrong(f"{row}: status {status}")
    if output not in ("", shown(PROMOTED, service)[:-1], shown(PROMOTED, service)):
        raise Wrong(f"{row}: it wrote {output!r}")
    want_settled(row, desk, service, own)
    return status in KILLED, is_asked


def try_client_killed(world):
    """The client is killed at each of its calls; the same call again settles the command, once. A
    journal is begun in it, or is there."""
    found = []
    with world.desk("client-killed") as desk:
        for front, is_old in (("new", False), ("old", True)):
            names = calls_of_client(world, desk, f"{front}-traced", is_old)
            services = {at: f"{front}-{at}" for at, name in enumerate(names)
                        if at > 0 and name != "exit_group"}
            add(desk, *services.values())
            found += [kill_client(world, desk, service, is_old, names, at)
                      for at, service in services.items()]
            want_once(desk, services.values())
    kills, asked = map(sum, zip(*found))
    if kills < max(60, len(found) // 2) or not 10 < asked < kills:
        raise Wrong(f"{kills} kills, in {asked} of them the command stood in the journal")
    return f"{kills} kills, in {asked} of them the command stood in the journal"


def on_journal(desk, service):
    """The words of strace that choose the calls on a service's journal and its folder."""
    return ["-P", str(desk.folder / f"{service}.journal"), "-P", str(desk.folder), "-e",
            "trace=openat,flock,read,pwrite64,fsync,ftruncate"]


def fail_call(world, desk, service, is_old, names, at):
    """Fails this one of the calls on the journal and its folder."""
    row, own = f"{service}: call {at}, {names[at]}, fails", begun(desk, service, is_old)
    call, when, log = names[at], names[:at + 1].count(names[at]), desk.folder / "log"
    fault = "ENOLCK" if call == "flock" else "EIO"
    ended = world.run_words(
        ["strace", "-f", "-o", str(log), *on_journal(desk, service),
         "-e", f"inject={call}:error={fault}:when={when}", world.program,
         *promotion(desk, service, own)], desk.folder)
    expect(row, tuple(ended),
           (LOCAL, "", f"canary: {desk.of_file(NO_JOURNAL_FILE, own['journal'])}\n"))
    expect(f"{row}: in the log", "(INJECTED)" in log.read_text(), True)
    want_settled(row, desk, service, own)


def try_failing_calls(world):
    """Each call on the journal and its folder fails in turn: the client says so and prints no
    reply, and the same call again settles the command, once."""
    count = 0
    with world.desk("failing") as desk:
        for front, is_old in (("new", False), ("old", True)):
            names = calls_of_client(world, desk, f"{front}-traced", is_old,
                                    *on_journal(desk, f"{front}-traced"))
            services = [f"{front}-{at}" for at in range(len(names))]
            add(desk, *services)
            for at, service in enumerate(services):
                fail_call(world, desk, service, is_old, names, at)
            want_once(desk, services)
            count += len(services)
    if count < 20:
        raise Wrong(f"only {count} calls failed")
    return f"{count} calls failed"


def run_stopped(world, desk, words, path, meanwhile):
    """How a client ends that is stopped once it has looked at a path for the first time, and goes
    on after this."""
    log = desk.folder / "log"
    log.unlink(missing_ok=True)
    with process(["strace", "-f", "-o", str(log), "-P", str(path), "-e", "trace=/stat",
                  "-e", "inject=/stat:signal=STOP:when=1", world.program, *words],
                 cwd=desk.folder, env=environment(), stdin=subprocess.DEVNULL,
                 stdout=subprocess.PIPE, stderr=subprocess.PIPE) as client:
        wait_until("a client that is stopped",
                   lambda: log.exists() and STOPPED.search(log.read_text()))
        meanwhile()
        os.kill(int(STOPPED.search(log.read_text())[1]), signal.SIGCONT)
        output, errors = client.communicate(timeout=60)
        return client.returncode, output.decode(), errors.decode()


def try_taken_path(world):
    """A FIFO or a device that takes the path of a journal once the client has looked at that is
    refused as one that was there before, whether or not a journal was; nothing is asked."""
    with world.desk("taken-path") as desk:
        add(desk)
        want("tick", desk.do("tick", "web"), DONE, shown(("Paused", 1, 20)))
        whole = (desk.folder / "ops.journal").read_bytes()
        for name, kind in itertools.product(("old", "new"), TAKES):
            path = desk.folder / f"{name}-{kind}.journal"
            if name == "old":
                path.write_bytes(whole)

            def taken(path=path, take=TAKES[kind]):
                path.unlink(missing_ok=True)
                take(path)
            words = desk.words("promote", "web", journal=path.name)
            expect(path.name, run_stopped(world, desk, words, path, taken),
                   (LOCAL, "", f"canary: {desk.of_file(NO_FILE, path.name)}\n"))
        expect("promotions", desk.count("promote"), {})


@contextlib.contextmanager
def attached(desk, *words):
    """strace on a desk that runs."""
    with process(["strace", "-f", "-o", str(desk.folder / "calls"), "-p", str(desk.process.pid),
                  *words], stdin=subprocess.DEVNULL, stdout=subprocess.DEVNULL,
                 stderr=subprocess.PIPE) as tracer:
        if b"attached" not in (told := tracer.stderr.readline()):
            raise Wrong(f"strace: {told!r}")
        yield tracer
        tracer.terminate()
        tracer.wait()


def begun_again(desk):
    """Starts the desk again if it has ended. Whether it had."""
    has_ended = desk.has_ended()
    if has_ended:
        desk.restart()
    return has_ended


def await_kill(desk, client):
    """Waits until the desk has ended, or its client has, and a little longer: a desk that is killed
    after its reply is gone a little later."""
    while client.poll() is None and not desk.has_ended():
        time.sleep(.005)
    for _ in range(20):
        if desk.has_ended():
            break
        time.sleep(.01)


def kill_desk(world, desk, service, names, at):
    """Kills the desk at this one of its calls while it settles a promotion, and starts it again:
    how often it was killed."""
    call, when = names[at], names[:at + 1].count(names[at])
    words = desk.words("promote", service, tries=40)
    with attached(desk, "-e", f"trace={call}",
                  "-e", f"inject={call}:signal=SIGKILL:when={when}"), process(
            [world.program, *words], cwd=desk.folder, env=environment(),
            stdin=subprocess.DEVNULL, stdout=subprocess.PIPE,
            stderr=subprocess.DEVNULL) as client:
        await_kill(desk, client)
        kills = begun_again(desk)
        output = client.communicate(timeout=60)[0].decode()
        expect(f"the desk killed at call {at}, {call}", (client.returncode, output),
               (DONE, shown(PROMOTED, service)))
    # or later, as it looks at its file once a second
    return kills + begun_again(desk)


def try_desk_killed(world):
    """The desk is killed at each of its calls while it settles a promotion, and started again; the
    client is one process, and goes on."""
    with world.desk("desk-killed") as desk:
        add(desk, "traced")
        want("the journal begins", desk.do("tick", "traced"), DONE,
             shown(("Paused", 1, 20), "traced"))
        with attached(desk):
            want("traced", desk.do("promote", "traced"), DONE, shown(PROMOTED, "traced"))
            time.sleep(.2)
        names = NAME.findall((desk.folder / "calls").read_text())
        services = [f"s{at}" for at in range(len(names))]
        add(desk, *services)
        kills = sum(kill_desk(world, desk, service, names, at)
                    for at, service in enumerate(services))
        if kills < 12:
            raise Wrong(f"only {kills} kills of {len(names)} calls")
        want_delivered("desk killed", desk)
        expect("promotions", desk.count("promote"), {name: 1 for name in ("traced", *services)})
    return f"{kills} kills at {len(names)} calls"


# What the disk may hold.


def try_power_cuts(world):
    """Whenever the power goes, the disk has the journal as it was or with the next entry, whether
    the journal is named by a path or by a bare name. The command is on the disk before its message
    goes out, and the reply is before it is printed."""
    with world.desk("power") as desk:
        add(desk, "path", "bare")
        images = power_cuts(desk, "path", str(desk.folder / "path.journal"), str(desk.folder))
        images += power_cuts(desk, "bare", "bare.journal", ".")
    return f"{images} files that a power cut may leave"


def power_cuts(desk, service, path, folder):
    """Promotes a service by a journal of this path in this folder, and counts what power cuts may
    leave of the journal meanwhile."""
    words = desk.words("promote", service, caller=service, options=("--once", "key"))
    words[words.index("--journal") + 1] = path
    log, disk, numbers, images = desk.folder / "log", Disk(), set(), 0
    front = ["strace", "-f", "-o", str(log), "-xx", "-s", "1000000"]
    expect("a traced client", run_traced(desk.world, desk, front, words),
           (DONE, shown(PROMOTED, service)))
    sent = printed = folder_synced = False
    folders = set()
    for call, told, result in CALL.findall(log.read_text()):
        number = told.split(",")[0]
        if call == "openat":
            opened = unescaped(BYTES.search(told)[1]).decode()
            if opened == path:
                numbers.add(result)
            folders.discard(result)
            if opened == folder:
                folders.add(result)
        elif call == "fsync" and number in folders:
            folder_synced = True
        elif call == "sendto" and b"/requests/1 " in unescaped(BYTES.search(told)[1]):
            sent = True
            expect(f"{path}: its folder is synced before a request is sent", folder_synced, True)
        elif call == "write" and number == "1":
            printed = True
        elif number in numbers:
            disk.note(call, told, result)
        for image in disk.images():
            images += 1
            want_image(call, image, sent, printed)
    expect("a request was sent, and its reply printed", (sent, printed), (True, True))
    expect("the file is as the calls made it", disk.with_changes(disk.changes),
           (desk.folder / path).read_bytes())
    return images


def want_image(call, image, sent, printed):
    """What a power cut may leave of the journal after this call."""
    found = journal_of(image)
    if found is None and (sent or not is_new(image)):
        raise Wrong(f"{call}: a power cut leaves {image!r}")
    kept = [each.key for each in found.kept] if found else []
    pending = found.pending.key if found and found.pending else None
    if sent and not (kept == ["key"] or pending == "key"):
        raise Wrong(f"{call}: sent, and a power cut leaves {image!r}")
    if printed and kept != ["key"]:
        raise Wrong(f"{call}: printed, and a power cut leaves {image!r}")
