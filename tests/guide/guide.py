"""Plays the guide: `guide.py ROOT PROGRAM WORK`. See tests/guide/run."""
import os
import pathlib
import pty
import re
import select
import shutil
import signal
import socket
import sys
import time

ROOT, PROGRAM, WORK = pathlib.Path(sys.argv[1]), sys.argv[2], pathlib.Path(sys.argv[3])
# How often the page is played: a machine that has much to do may abort the good version, too.
TRIES = 3
FENCE = re.compile(r"^```(sh|text)\n(.*?)^```$", re.M | re.S)
# The ports of the page and of its files, and the folder into which it copies the examples.
PORTS = ("8080", "8081", "9090", "9101", "9102", "9103")
FOLDER = "/tmp/guide"
# The longest that the whole page may take, and the seconds in which a terminal's line comes.
SECONDS = 240


def free_ports():
    """Ports on which nobody listens. They stay taken for other programs that ask for any port."""
    held = [socket.socket() for _ in PORTS]
    for it in held:
        it.setsockopt(socket.SOL_SOCKET, socket.SO_REUSEADDR, 1)
        it.bind(("127.0.0.1", 0))
    return held, {port: str(it.getsockname()[1]) for port, it in zip(PORTS, held)}


def blocks_of(page):
    """The first part's blocks, in order: what is done, and what is printed then."""
    return FENCE.findall(page[:page.index("# From Argo to here")])


def with_ports(text, ports):
    return re.sub(rf"\b({'|'.join(PORTS)})\b", lambda it: ports[it[1]], text)


def script_of(blocks, ports, work):
    """The commands of all blocks, with a mark before each, and at the end."""
    made = []
    for place, (kind, text) in enumerate(blocks):
        if kind == "sh":
            text = text.replace("cp -r examples", f"cp -r {work}/examples")
            made += [f"echo '@@ {place}'", with_ports(text.replace(FOLDER, f"{work}/guide"), ports)]
    return "set -eu\n" + "\n".join(made) + "\necho '@@ end'\n"


def copy_examples(ports, work):
    """The examples, with free ports in the files of the guide."""
    shutil.copytree(ROOT / "examples", work / "examples")
    for path in (work / "examples/checkout").iterdir():
        path.write_text(with_ports(path.read_text("utf-8"), ports), "utf-8")


def played(script, work):
    """What a shell prints on a terminal."""
    (work / "bin").mkdir()
    (work / "bin/canary").symlink_to(PROGRAM)
    path = work / "script"
    path.write_text(script, "utf-8")
    shell, terminal = pty.fork()
    if shell == 0:
        os.chdir(work)
        os.environ["PATH"] = f"{work}/bin:{os.environ['PATH']}:/usr/sbin"
        os.execvp("bash", ["bash", str(path)])
    return read_all(shell, terminal)


def read_all(shell, terminal):
    text, until = b"", time.monotonic() + SECONDS
    try:
        while b"@@ end" not in text and time.monotonic() < until:
            if select.select([terminal], [], [], 1)[0]:
                text += os.read(terminal, 65536)
            elif os.waitpid(shell, os.WNOHANG)[0]:
                break
    except OSError:
        pass
    finally:
        end_all(shell)
    return text.decode(errors="replace").replace("\r\n", "\n")


def end_all(shell):
    """Ends the shell's session, in which all parts are."""
    for path in pathlib.Path("/proc").glob("[0-9]*/stat"):
        try:
            number, session = int(path.parent.name), path.read_text().rpartition(")")[2].split()[3]
            if int(session) == shell:
                os.kill(number, signal.SIGKILL)
        except (OSError, ValueError):
            pass


def outputs(text):
    """What came after each mark, by the places of blocks."""
    found = re.split(r"^@@ (\w+)\n", text, flags=re.M)
    return dict(zip(found[1::2], found[2::2]))


def missing(blocks, text):
    """The first line of the page that was not printed where it has to be, or none."""
    came = outputs(text)
    for place, (kind, told) in enumerate(blocks):
        rest = came.get(str(place - 1), "") if kind == "text" else ""
        for line in told.splitlines() if kind == "text" else ():
            wanted = ".*".join(map(re.escape, line.split("..")))
            found = re.search(rf"^.*{wanted}.*$", rest, re.M)
            if not found:
                return line
            rest = rest[found.end():]
    return None if "end" in came else "the last command"


def try_once(blocks, work):
    """What was printed, and the first line of the page that was not, or none."""
    work.mkdir()
    held, ports = free_ports()
    try:
        copy_examples(ports, work)
        text = played(script_of(blocks, ports, work), work)
    finally:
        for it in held:
            it.close()
    return text, missing(blocks, text)


def show(text, line, work):
    """What came in place of this line, and what the parts wrote."""
    logs = "".join(f"== {it.name}\n{it.read_text(errors='replace')[-1500:]}"
                   for it in sorted((work / "guide/checkout").glob("*.log")))
    print(f"guide: not printed: {line}\n{text}\n{logs}", file=sys.stderr)


def main():
    blocks = blocks_of((ROOT / "docs/GUIDE.md").read_text("utf-8"))
    if not [it for it in blocks if it[0] == "text"]:
        sys.exit("guide: the page has no blocks")
    for count in range(TRIES):
        work = WORK / f"try-{count}"
        text, line = try_once(blocks, work)
        if line is None:
            break
        show(text, line, work)
    else:
        sys.exit(f"guide: played {TRIES} times, and not as the page says")
    # A page with another line is missed.
    changed = [(kind, told.replace("aborted by", "promoted by")) for kind, told in blocks]
    if "promoted by" not in (missing(changed, text) or ""):
        sys.exit("guide: a line that was not printed is not missed")
    print(f"guide: {len(blocks)} blocks played")


if __name__ == "__main__":
    main()
