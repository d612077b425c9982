"""How the programs of examples/operations are called: a part of proxies.py."""
import os
import subprocess

from parts import OPERATIONS
from world import Wrong, expect

# Each program with its words, and calls of it that are invalid.
CALLS = {
    "follow-haproxy SERVICE SOCKET BACKEND [STATE] or [OPTION FILE].. --table TABLE SOCKET":
        ("", "web", "web socket", "web socket web state more", "--table", "--table table",
         "--table table socket more", "--state state web socket web", "--health h --table t",
         "--other x --table t socket", "--table t --report"),
    "follow-nginx SERVICE FILE [NGINX..] or [OPTION WORD].. --table TABLE FILE [NGINX..]":
        ("", "web", "--table table", "--ask a:1 web file", "--state s --table t file"),
    "notify SERVICE FILE or --table TABLE FILE":
        ("", "web", "web file more", "--table table", "--table table file more",
         "--health h --table table file"),
    "report SERVICE": ("", "web shop", "a b c d e f g h i j"),
    "serve-and-notify COMMAND [WORD..]": ("",),
    "watchdog SECONDS SERVICE..": ("", "120"),
}


def try_usage(world):
    """A call with too few words, or too many, says how the program is called, and has status 2,
    also with closed streams; one for help prints that. Nothing else happens: there is no
    `canary`."""
    folder = world.place("usage")
    for line, calls in CALLS.items():
        name = line.split()[0]
        for words in calls:
            row = f"{name} {words}"
            expect(row, called(folder, name, words), (2, "", f"usage: {line}\n"))
            expect(f"{row}, closed", called(folder, name, words, "<&- >&- 2>&-"), (2, "", ""))
        for word in ("--help", "-h"):
            status, output, errors = called(folder, name, word)
            expect(f"{name} {word}", (status, errors), (0, ""))
            if line not in output.split("\n")[0]:
                raise Wrong(f"{name} {word}: {output!r}")
        closed = called(folder, name, "--help", "<&- >&- 2>&-")
        expect(f"{name} --help, closed", closed[1:], ("", ""))
    expect("notify without a webhook", called(folder, "notify", "web file"),
           (2, "", "notify: CANARY_WEBHOOK is not set\n"))
    for words, errors in (("--table t --report r file", "--report needs --ask\n"),
                          ("--table t --ask nowhere file", "--ask: nowhere is no HOST:PORT\n")):
        expect(words, called(folder, "follow-nginx", words), (2, "", errors))
    (folder / "t").write_text("web web v1\n", encoding="ascii")
    for name, words in (("follow-haproxy", "--table t socket"), ("notify", "--table t file")):
        expect(f"{name}: no desk", called(folder, name, words, CANARY_DESK="nowhere",
                                          CANARY_WEBHOOK="http://127.0.0.1:1/"),
               (2, "", "CANARY_DESK: nowhere is no HOST:PORT\n"))
    (folder / "t").unlink()
    expect("report without a measure", called(folder, "report", "web"),
           (5, "", "report: there is no measure on the PATH\n"))
    none = folder / "none"
    expect("a watchdog without its folder", called(folder, "watchdog", "120 web",
                                                   WATCHDOG_FOLDER=str(none)),
           (5, "", f"watchdog: {none}: this user has to be able to write to it\n"))
    expect("nothing is made", os.listdir(folder), [])


def called(folder, name, words, ends="", **variables):
    """The status, the output and the errors of a call."""
    command = ["sh", "-c", f'exec "$@" {ends}', "sh", OPERATIONS / name, *words.split()]
    done = subprocess.run([*map(str, command)], cwd=folder, capture_output=True, text=True,
                          timeout=60, stdin=subprocess.DEVNULL, check=False,
                          env={"PATH": "/usr/bin:/bin", "PYTHONDONTWRITEBYTECODE": "1",
                               **variables})
    return done.returncode, done.stdout, done.stderr
