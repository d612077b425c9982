"""The rows of tests/package/run: `rows.py ROOT PROGRAM WORK ROW..`."""
import gzip
import hashlib
import os
import pathlib
import re
import signal
import socket
import subprocess
import sys
import tarfile
import time
import traceback

ROOT, PROGRAM, WORK = sys.argv[1], sys.argv[2], pathlib.Path(sys.argv[3])
sys.path.insert(0, f"{ROOT}/packaging")
import package  # pylint: disable=wrong-import-position,import-error

EPOCH = 1767225600
COMMANDS = ("agent", "argo", "backup", "check", "do", "due", "export", "get", "history", "import",
            "migrate", "page", "pipe", "send", "serve", "status", "succeed", "watch")
UNITS = ("canary.service", "canary-agent.service", "canary-backup.service", "canary-page.service",
         "canary-metrics.service", "canary-watchdog@.service", "canary-watchdog@.timer",
         "canary-follow@.service", "canary-follow.service")
# They need the runtime socket of a router, which is root's.
EXPOSED = ("canary-follow@.service", "canary-follow.service")
FILES = ("usr/bin/canary", *(f"usr/lib/canary/{it}" for it in package.SCRIPTS),
         "etc/default/canary",
         "usr/lib/sysusers.d/bucketreed.conf", "usr/lib/tmpfiles.d/bucketreed.conf",
         "usr/share/doc/bucketreed/copyright", "usr/share/doc/bucketreed/changelog.gz",
         "usr/share/bash-completion/completions/canary",
         "usr/share/zsh/vendor-completions/_canary", "usr/share/man/man1/canary.1.gz",
         *(f"usr/share/man/man1/canary-{it}.1.gz" for it in COMMANDS),
         *(f"lib/systemd/system/{it}" for it in UNITS))


def want(what, is_so):
    assert is_so, what


def run(*words, status=0, **options):
    """What a command prints on both streams; it has to end with this status."""
    words = [str(it) for it in words]
    made = subprocess.run(words, stdout=subprocess.PIPE, stderr=subprocess.STDOUT, text=True,
                          check=False, stdin=subprocess.DEVNULL, timeout=300, **options)
    want(f"{' '.join(words)}: {made.returncode}: {made.stdout}", made.returncode == status)
    return made.stdout


def made(name="first", packaged=None):
    """The folder of this name with the packages of the program, made once."""
    out = WORK / name
    if not out.exists():
        version, usual = package.version_of(PROGRAM)
        package.build(ROOT, PROGRAM, out, EPOCH, version, packaged or usual)
    return out


def deb(folder):
    (found,) = folder.glob("*.deb")
    return found


def unpacked():
    folder = WORK / "unpacked"
    if not folder.exists():
        run("dpkg-deb", "-x", deb(made()), folder)
    return folder


def row_same_program_same_bytes():
    first, second = made(), made("second")
    names = sorted(it.name for it in first.iterdir())
    want(names, len(names) == 3 and names == sorted(it.name for it in second.iterdir()))
    for name in names:
        want(name, (first / name).read_bytes() == (second / name).read_bytes())


def row_sums():
    lines = (made() / "SHA256SUMS").read_text().splitlines()
    want(lines, len(lines) == 2)
    for line in lines:
        told, name = line.split("  ")
        want(line, hashlib.sha256((made() / name).read_bytes()).hexdigest() == told)


def row_what_is_in_it():
    there = {str(it.relative_to(unpacked())) for it in unpacked().rglob("*")}
    want(set(FILES) - there, set(FILES) <= there)
    (archive,) = made().glob("*.tar.gz")
    with tarfile.open(archive) as opened:
        members = opened.getmembers()
    top = members[0].name.split("/")[0]
    inside = {it.name.removeprefix(top + "/") for it in members}
    want(inside ^ there, {it for it in there if (unpacked() / it).is_file()} - inside
         == {"usr/share/doc/bucketreed/changelog.gz"})
    want("owners", {(it.uid, it.gid, it.mtime) for it in members} == {(0, 0, EPOCH)})
    for path in sorted(unpacked().glob("lib/systemd/system/*")):
        want(path, "/usr/local" not in path.read_text())


def row_lintian():
    told = run("lintian", "--allow-root", "--fail-on", "error,warning", "--tag-display-limit", "0",
               deb(made()))
    want(told, not re.search("^[EW]:", told, re.M))


def here(unit):
    """A unit that names the files of the unpacked package, so that it can be verified here."""
    for it in ("/usr/bin/canary", "/usr/lib/canary/"):
        unit = unit.replace(it, f"{unpacked()}{it}")
    return unit


def verified(path, unit):
    """What systemd-analyze(1) says of a unit, as an instance if it is a template."""
    folder = WORK / "verified"
    folder.mkdir(exist_ok=True)
    for it in path.parent.iterdir():
        (folder / it.name.replace("@.", "@web.")).write_text(here(it.read_text()))
    place = folder / path.name.replace("@.", "@web.")
    place.write_text(unit)
    words = ["systemd-analyze", "verify", "--man=no", "--recursive-errors=no", str(place)]
    return subprocess.run(words, capture_output=True, text=True, check=False).stderr


def row_units():
    for path in sorted(unpacked().glob("lib/systemd/system/*")):
        unit = here(path.read_text())
        told = verified(path, unit)
        want(told, not told)
        if path.suffix == ".service" and path.name not in EXPOSED:
            run("systemd-analyze", "security", "--offline=true", "--threshold=20", path)
    # What is wrong is found.
    path = unpacked() / "lib/systemd/system/canary.service"
    for before, after, wanted in (("Restart=on-failure", "Restart=sometimes", "restart specifier"),
                                  ("/serve-and-notify ", "/nobody ", "not executable")):
        told = verified(path, here(path.read_text()).replace(before, after))
        want((after, told), wanted in told)


class Root:
    """A root of its own, with dpkg's records."""

    def __init__(self, name):
        self.place = WORK / name
        for it in ("var/lib/dpkg/info", "var/lib/dpkg/updates", "var/lib/dpkg/triggers", "tmp"):
            (self.place / it).mkdir(parents=True)
        (self.place / "var/lib/dpkg/status").touch()

    def dpkg(self, *words):
        return run("dpkg", f"--root={self.place}", f"--log={WORK}/dpkg.log",
                   "--force-script-chrootless", "--force-depends", "--force-confdef",
                   "--force-confold", "--force-not-root", "--force-bad-path", *words)

    def status(self):
        return run("dpkg-query", f"--admindir={self.place}/var/lib/dpkg", "-W",
                   "-f=${Version} ${db:Status-Status}", "bucketreed")


def answer_of(program, folder):
    """The first line with which a desk of this program answers a query."""
    words = [str(program), "serve", "--listen", "127.0.0.1:0", "--db", f"{folder}/desk.db"]
    with subprocess.Popen(words, stdout=subprocess.PIPE, text=True) as desk:
        try:
            port = int(desk.stdout.readline().rpartition(":")[2])
            with socket.create_connection(("127.0.0.1", port), 10) as asked:
                asked.sendall(b"GET /services/web HTTP/1.1\r\n\r\n")
                return asked.recv(1000).split(b"\r\n")[0]
        finally:
            desk.terminate()


def row_installed_upgraded_removed():
    root = Root("root")
    root.dpkg("-i", deb(made()))
    usual = package.version_of(PROGRAM)[1]
    want(root.status(), root.status() == f"{usual} installed")
    records = root.place / "var/lib/canary"
    records.mkdir(parents=True)
    answered = answer_of(root.place / "usr/bin/canary", records)
    want(answered, answered == b"HTTP/1.1 404 Not Found")
    settings = root.place / "etc/default/canary"
    settings.write_text('CANARY_SERVE="--listen 127.0.0.1:9090"\n')
    root.dpkg("-i", deb(made("newer", "9.0.0")))
    want(root.status(), root.status() == "9.0.0 installed")
    want("settings", "9090" in settings.read_text())
    root.dpkg("-r", "bucketreed")
    want("removed", not (root.place / "usr/bin/canary").exists() and settings.exists()
         and (records / "desk.db").exists())
    told = root.dpkg("-P", "bucketreed")
    want(told, f"bucketreed: {records} stays" in told and not settings.exists()
         and (records / "desk.db").exists())


def row_manual_pages():
    for command in COMMANDS:
        path = unpacked() / f"usr/share/man/man1/canary-{command}.1.gz"
        text = gzip.decompress(path.read_bytes()).decode()
        about = run(PROGRAM, command, "--help").splitlines()[0].replace("-", "\\-")
        want(path, f".SH NAME\ncanary\\-{command} \\- {about}\n" in text)
        told = run(PROGRAM, command, "--help")
        for option in re.findall(r"^ +(?:-\w, )?(--[a-z-]+)", told, re.M):
            want((path, option), option.replace("-", "\\-") in text)


def completed(*words):
    """What bash completes the last of these words to."""
    script = unpacked() / "usr/share/bash-completion/completions/canary"
    code = 'source "$1"; shift; COMP_WORDS=(canary "$@"); COMP_CWORD=$#; _canary; ' \
        'printf "%s\\n" "${COMPREPLY[@]}"'
    return run("bash", "-c", code, "bash", script, *words, cwd=WORK).split()


def row_completion():
    for words, wanted in ((("ser",), ["serve"]), (("do", "pro"), ["promote", "promote-full"]),
                          (("serve", "--max-unsent-"), ["--max-unsent-total"]),
                          (("page", "--w"), ["--watch"]), (("nope", "--"), [])):
        want((words, completed(*words)), completed(*words) == wanted)
    want("all commands", sorted(completed("")) == sorted(COMMANDS))
    (WORK / "desk.db").touch()
    want("a file", completed("serve", "--db", "desk.d") == ["desk.db"])


class Metrics:
    """write-metrics over a desk's file, until the end of the block."""

    def __init__(self, desk, target):
        self.folder = WORK / "programs"
        self.folder.mkdir(exist_ok=True)
        if not (self.folder / "canary").exists():
            (self.folder / "canary").symlink_to(PROGRAM)
        self.desk, self.target = desk, target

    def __enter__(self):
        env = {**os.environ, "PATH": f"{self.folder}:{os.environ['PATH']}"}
        script = f"{ROOT}/examples/operations/write-metrics"
        self.process = subprocess.Popen([script, "1", self.desk, self.target], env=env, text=True,
                                        stdin=subprocess.DEVNULL, stderr=subprocess.PIPE)
        return self

    def wait(self, what, is_so):
        until = time.monotonic() + 60
        while not is_so() and time.monotonic() < until:
            time.sleep(0.05)
        want(what, is_so())

    def __exit__(self, *_):
        self.process.terminate()
        self.told = self.process.communicate()[1]


def parts_beside(path):
    return [it.name for it in path.parent.iterdir() if ".part-" in it.name]


def row_metrics_are_written_again():
    folder = WORK / "metrics"
    folder.mkdir()
    answer_of(PROGRAM, folder)
    target = folder / "canary.prom"
    with Metrics(folder / "desk.db", target) as made_there:
        made_there.wait("it is written", target.exists)
        want("it is whole", "# TYPE canary_" in target.read_text())
        target.write_text("old")
        made_there.wait("it is written again", lambda: target.read_text() != "old")
    want(made_there.process.returncode, made_there.process.returncode == 143)
    want("no part is left", not parts_beside(target))


def row_metrics_of_a_missing_desk():
    folder = WORK / "no-desk"
    folder.mkdir()
    target = folder / "canary.prom"
    target.write_text("old")
    with Metrics(folder / "desk.db", target) as made_there:
        time.sleep(3)
        want("it goes on", made_there.process.poll() is None)
    want(made_there.told, made_there.told.count("canary: file\n") >= 2)
    want("it stays", target.read_text() == "old" and not parts_beside(target))


def row_metrics_into_a_folder():
    folder = WORK / "into"
    (folder / "taken").mkdir(parents=True)
    answer_of(PROGRAM, folder)
    with Metrics(folder / "desk.db", folder / "taken") as made_there:
        time.sleep(3)
        want("it goes on", made_there.process.poll() is None)
    want("nothing is in it", not list((folder / "taken").iterdir()))
    want("no part is left", not parts_beside(folder / "taken"))


def packaged_to(out, **options):
    words = [sys.executable, f"{ROOT}/packaging/package.py", ROOT, PROGRAM, str(out), str(EPOCH)]
    return subprocess.Popen(words, stdout=subprocess.PIPE, stderr=subprocess.STDOUT, text=True,
                            **options)


def row_folder_that_is_a_file():
    (WORK / "a-file").touch()
    with packaged_to(WORK / "a-file") as made_there:
        told = made_there.communicate()[0]
    want(told, made_there.returncode == 1 and told == f"package: {WORK}/a-file: File exists\n")


def row_name_that_is_taken():
    out = WORK / "taken"
    (out / deb(made()).name).mkdir(parents=True)
    with packaged_to(out) as made_there:
        told = made_there.communicate()[0]
    want(told, made_there.returncode == 1 and told.startswith("package: "))
    want("nothing half made", [it.name for it in out.iterdir()] == [deb(made()).name])


def row_signal_in_between():
    out = WORK / "stopped"
    with packaged_to(out) as made_there:
        until = time.monotonic() + 60
        while not list(out.glob("part-*/tree/usr")) and time.monotonic() < until:
            time.sleep(0.01)
        made_there.send_signal(signal.SIGTERM)
        made_there.communicate()
    want(made_there.returncode, made_there.returncode == 143)
    want("nothing half made", not list(out.iterdir()))


def main():
    rows = {name: it for name, it in globals().items() if name.startswith("row_")}
    failed = 0
    for name in sys.argv[4:] or rows:
        try:
            rows[name]()
        except Exception:  # pylint: disable=broad-exception-caught
            failed += 1
            print(f"tests/package/run: {name}: {traceback.format_exc(limit=3)}", file=sys.stderr)
    tried = len(sys.argv[4:] or rows)
    print(f"packages: {tried - failed} rows passed, {failed} failed")
    return 1 if failed else 0


if __name__ == "__main__":
    os.umask(0o022)
    sys.exit(main())
