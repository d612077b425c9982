"""What `canary argo --out` writes, and what may stand in the place of it."""
import itertools
import json
import os
import shutil
import stat
import subprocess

from asked import Faults, expect, folder_in, read, run, write
from wanted import REFUSED, TAKEN

FILE_FAULT = (1, b"", b"canary: file\n")
OTHER_USER = 65534
# The files of success-rate.yaml.
NAMES = ["guestbook.rollout.json", "plan.json", "success-rate.template.json"]
EXAMPLE = "success-rate.yaml"
JOB = {"kind": "AnalysisTemplate", "metadata": {"name": "smoke"},
       "spec": {"metrics": [{"name": "smoke", "provider": {"job": {"spec": {}}}}]}}


def example(trial, name=EXAMPLE):
    return os.path.join(trial.examples, name)


def written(trial, file, folder, **more):
    """Translates an example to a folder."""
    return run(trial.program, ["argo", "--out", folder, example(trial, file)], **more)


def want_checked(trial, file):
    """`check` finds nothing in a file."""
    done = run(trial.program, ["check", file])
    expect(f"check {file}", (done.status, done.output), (0, b"ok\n"))


def want_files(trial, made, folder):
    """A folder has the manifests and the plan, and nothing else."""
    wanted = {f"{it['metadata']['name']}.template.json": it for it in made.templates}
    wanted |= {f"{it['metadata']['name']}.rollout.json": it for it in made.services}
    wanted["plan.json"] = made.plan
    expect(f"{folder}: the files", sorted(os.listdir(folder)), sorted(wanted))
    for name, value in wanted.items():
        file = os.path.join(folder, name)
        expect(file, json.loads(read(file)), value)
        expect(f"{file}: its lines", (read(file).count(b"\n"), read(file)[-1:]), (1, b"\n"))
        expect(f"{file}: its mode", stat.S_IMODE(os.lstat(file).st_mode), 0o644)
        if name != "plan.json":
            want_checked(trial, file)


def try_written(trial):
    """Each example: what is written, or nothing if anything is found. The folder is made."""
    place, faults = folder_in(trial, "written"), Faults()
    os.umask(0o022)
    for file, made in TAKEN.items():
        folder = os.path.join(place, file, "inner")
        with faults:
            done = written(trial, file, folder)
            expect(f"argo --out {file}", (done.status, done.output.decode()), (0, made.text()))
            want_files(trial, made, folder)
    for file, made in REFUSED.items():
        folder = os.path.join(place, file)
        with faults:
            done = written(trial, file, folder)
            expect(f"argo --out {file}", (done.status, done.output.count(b".yaml:")),
                   (1, len(made.findings)))
            expect(f"argo --out {file}: a folder", os.path.lexists(folder), False)
    with faults:
        # web.yaml has a template of the name of one in success-rate.yaml
        files = [example(trial, name) for name in TAKEN if name != "web.yaml"]
        done = run(trial.program, ["argo", "--json", "--out", "all", *files], cwd=place)
        made = json.loads(done.output)
        expect("all examples", done.status, 0)
        expect("all examples: their files", len(os.listdir(os.path.join(place, "all"))),
               len(made["templates"]) + len(made["services"]) + 1)
    faults.end()
    return f"{len(TAKEN)} files written, {len(REFUSED)} not"


# ---- what stands there

def ready(place):
    """A folder with a file that must not change, and one to write to."""
    shutil.rmtree(place, ignore_errors=True)
    os.makedirs(os.path.join(place, "out"))
    write(os.path.join(place, "victim"), "kept")
    os.mkdir(os.path.join(place, "other"))
    return place


def link(target):
    return lambda name: os.symlink(target, name)


REPLACED = {
    "a file": lambda name: write(name, "x" * 100_000),
    "an empty file": lambda name: write(name, ""),
    "a file that nobody may write": lambda name: os.chmod(write(name, "x"), 0o444),
    "a link to a file": link("../victim"),
    "a link to nothing": link("../nothing"),
}
LEFT = {
    "a folder": os.mkdir,
    "a FIFO": os.mkfifo,
    "a link to a folder": link("../other"),
    "a link to a device": link("/dev/null"),
    "a link to an open file": link("/proc/self/fd/1"),
}


def state_of(place):
    """What stands in a folder: the kind of each, and what files have."""
    found = {}
    for folder, folders, files in os.walk(place):
        for name in [*folders, *files]:
            path = os.path.join(folder, name)
            mode = os.lstat(path).st_mode
            found[os.path.relpath(path, place)] = (
                stat.S_IFMT(mode), read(path) if stat.S_ISREG(mode) else None)
    return found


def try_replaced(trial):
    """A file or a link at a name is replaced whole, and no link is followed."""
    place, faults = os.path.join(trial.folder, "replaced"), Faults()
    for kind, name in itertools.product(REPLACED, NAMES):
        ready(place)
        REPLACED[kind](os.path.join(place, "out", name))
        with faults:
            done = written(trial, EXAMPLE, "out", cwd=place)
            expect(f"{kind} at {name}", done.status, 0)
            expect(f"{kind} at {name}: a link", os.path.islink(
                os.path.join(place, "out", name)), False)
            expect(f"{kind} at {name}: the victim", read(os.path.join(place, "victim")), b"kept")
            expect(f"{kind} at {name}: what is there", sorted(os.listdir(place)),
                   ["other", "out", "victim"])
            if kind != "a file that nobody may write":
                want_files(trial, TAKEN[EXAMPLE], os.path.join(place, "out"))
    faults.end()
    return f"{len(REPLACED) * len(NAMES)} files and links replaced"


def try_left(trial):
    """What is no file at a name stays as it is, and is a fault."""
    place, faults = os.path.join(trial.folder, "left"), Faults()
    for kind, plant in LEFT.items():
        for name in NAMES:
            ready(place)
            path = os.path.join("out", name)
            plant(os.path.join(place, path))
            before = state_of(place)
            with faults:
                expect(f"{kind} at {name}", tuple(written(trial, EXAMPLE, "out", cwd=place)),
                       FILE_FAULT)
                after = state_of(place)
                expect(f"{kind} at {name}: it, and the rest", {
                    it: after.get(it) for it in before}, before)
                more = set(after) - set(before) - {os.path.join("out", it) for it in NAMES}
                expect(f"{kind} at {name}: what else is made", more, set())
    faults.end()
    return f"{len(LEFT) * len(NAMES)} others left"


# How a file in the folder is given as one that is read, and what leads to it then.
READ_AS = {
    "its name": lambda name: [name],
    "another spelling": lambda name: [os.path.join(".", "other", "..", name)],
    "a link": lambda name: [linked(name, os.symlink, os.path.abspath(name))],
    "another name of it": lambda name: [linked(name, os.link, name)],
    "standard input": lambda name: ["-"],
}


def linked(name, plant, target):
    """A link of that kind, beside the folder."""
    plant(target, "linked.yaml")
    return "linked.yaml"


def want_kept(trial, row, words, name, stdin):
    """The file of that name was read: nothing is written, and a line says why."""
    before = state_of(".")
    done = run(trial.program, ["argo", "--out", "out", *words], stdin=stdin)
    line = f"canary: out/{name} is one of the files that argo read\ncanary: file\n"
    expect(row, tuple(done), (1, b"", line.encode()))
    expect(f"{row}: what is there", state_of("."), before)


def try_inputs_kept(trial):
    """A file that was read is never written over, and then nothing is written."""
    place, faults, here = os.path.join(trial.folder, "inputs-kept"), Faults(), os.getcwd()
    for kind, words_of in READ_AS.items():
        for name in NAMES:
            os.chdir(ready(place))
            file = shutil.copy(example(trial), os.path.join("out", name))
            with faults, open(file, "rb") as stdin:
                want_kept(trial, f"{name} by {kind}", words_of(file), name, stdin)
    os.chdir(ready(place))
    write("out/plan.json", json.dumps(JOB))
    with faults:
        want_kept(trial, "one of several", [example(trial), "out/plan.json"], "plan.json",
                  subprocess.DEVNULL)
    write("plan.json", json.dumps(JOB))
    with faults:
        done = run(trial.program, ["argo", "--out", "out", "plan.json"])
        expect("a file of such a name elsewhere", done.status, 0)
        expect("a file of such a name elsewhere: it", json.loads(read("plan.json")), JOB)
    os.chdir(here)
    faults.end()
    return f"{len(READ_AS) * len(NAMES) + 2} files that were read"


FOLDERS = {
    "a file": lambda name: write(name, "kept"),
    "a FIFO": os.mkfifo,
    "a link to nothing": link("nothing"),
    "a link to a file": link("victim"),
    "a link to itself": link("it"),
}


def try_folders(trial):
    """What is no folder in the place of FOLDER is a fault; a link to one is followed."""
    place, faults = os.path.join(trial.folder, "folders"), Faults()
    for kind, plant in FOLDERS.items():
        for folder in ("it", "it/inner"):
            plant(os.path.join(ready(place), "it"))
            before = state_of(place)
            with faults:
                expect(f"{kind} as {folder}", tuple(written(trial, EXAMPLE, folder, cwd=place)),
                       FILE_FAULT)
                expect(f"{kind} as {folder}: what is there", state_of(place), before)
    for folder in ("out", "out/", "./out/../out", "linked", "linked/inner", "new", "new/er/"):
        os.symlink("other", os.path.join(ready(place), "linked"))
        with faults:
            done = written(trial, EXAMPLE, folder, cwd=place)
            expect(f"to {folder}", done.status, 0)
            want_files(trial, TAKEN[EXAMPLE], os.path.join(place, folder))
    faults.end()
    return f"{2 * len(FOLDERS) + 7} folders"


def user():
    """Another user than root, to whom all is allowed."""
    return {"user": OTHER_USER, "group": OTHER_USER, "extra_groups": []} if not os.geteuid() else {}


def for_others(trial):
    """A copy of the program that other users may run."""
    for folder in (trial.folder, os.path.dirname(trial.folder)):
        os.chmod(folder, 0o755)
    program = shutil.copy(trial.program, trial.folder)
    os.chmod(program, 0o755)
    return program


def try_empty_name(trial):
    """FOLDER has a name: with none no file is made at the root (with strace)."""
    place = ready(os.path.join(trial.folder, "empty"))
    program, calls = for_others(trial), os.path.join(folder_at(place, "calls", 0o777), "calls")
    words = ["-f", "-o", calls, "-e", "trace=open,openat,mkdir,mkdirat", program, "argo", "--out",
             "", "-"]
    done = run("strace", words, read(example(trial)), cwd=place, **user())
    made = [line for line in read(calls).decode().splitlines() if "O_CREAT" in line]
    expect("an empty name", (done.status in (1, 2), made), (True, []))
    return "nothing is made"


def try_full_disk(trial):
    """Of the calls by which files are written, synced and named each fails in turn, as on a full
    disk: that is a fault, and each file that is there is whole (with strace)."""
    place, faults = os.path.join(trial.folder, "full"), Faults()
    # a file is written in two pieces, and synced, as its folder is
    calls = [("write", "ENOSPC", 2), ("fsync", "EIO", 2), ("/rename", "ENOSPC", 1)]
    for call, error, times in calls:
        for when in range(1, times * len(NAMES) + 1):
            want_fault(trial, ready(place), faults, f"{call}:error={error}:when={when}")
    faults.end()
    return f"{5 * len(NAMES)} calls that fail"


def want_fault(trial, place, faults, change):
    """A call in the folder `out` fails: the program ends with a fault, and leaves whole files."""
    call, out = change.partition(":")[0], os.path.join(place, "out")
    done = run("strace", ["-f", "-o", os.path.join(trial.folder, "calls"), "-e", f"trace={call}",
                          "-e", f"inject={change}", trial.program, "argo", "--out", out,
                          example(trial)])
    with faults:
        expect(change, tuple(done), FILE_FAULT)
        left = set(os.listdir(out))
        expect(f"{change}: what is there", left - set(NAMES), set())
        for name in left:
            json.loads(read(os.path.join(out, name)))


def try_forbidden(trial):
    """A folder in which this user may make nothing, or that it may not enter, is a fault."""
    place, faults = ready(os.path.join(trial.folder, "forbidden")), Faults()
    program = for_others(trial)
    forbidden = folder_at(place, "shut", 0o555), folder_at(place, "closed", 0o000)
    before = state_of(place)
    given = read(example(trial))
    for folder in ("shut", "shut/new", "closed", "closed/new"):
        with faults:
            done = run(program, ["argo", "--out", folder, "-"], given, cwd=place, **user())
            expect(f"to {folder}", tuple(done), FILE_FAULT)
    with faults:
        expect("what is there", state_of(place), before)
    for folder in forbidden:
        os.chmod(folder, 0o700)
    faults.end()
    return "4 folders"


def folder_at(place, name, mode):
    made = os.path.join(place, name)
    os.mkdir(made)
    os.chmod(made, mode)
    return made
