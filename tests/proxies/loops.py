"""The loop of examples/loop, as a whole and with each of its parts killed: parts of proxies.py."""
import re
import subprocess

from parts import OPERATIONS
from world import Late, Wrong, environment, expect, process_group

# What the loop says of something that did not come in time.
SAID_LATE = re.compile(r"not in \d+ seconds|does not end|is not seen in|still answer|timed out")


# A name with a blank.
KEPT = "what is kept"


def run_loop(world, name, *words):
    """What the loop shows. It ends well, and leaves nothing but what it is told to keep."""
    folder = world.place(name)
    with process_group([OPERATIONS.parent / "loop" / "run", *words, world.program], cwd=folder,
                       env=environment(TMPDIR=str(folder)), stdin=subprocess.DEVNULL,
                       stdout=subprocess.PIPE, stderr=subprocess.STDOUT, text=True) as started:
        shown = started.communicate(timeout=400)[0]
    if started.returncode != 0:
        raise (Late if SAID_LATE.search(shown) else Wrong)(f"{started.returncode}: {shown}")
    expect("it leaves", [path.name for path in folder.iterdir()], [KEPT] * ("--keep" in words))
    return folder, shown


def try_loop(world):
    """A good version is promoted, and a bad one aborted."""
    folder, shown = run_loop(world, "loop", "--keep", KEPT)
    for line in ("done v2", "abort run 3", "v1 100 -> 80", "v3 20 -> 0",
                 f"The page of the desk: {folder}/{KEPT}/desk.html"):
        expect(f"the loop shows {line}: {shown}", line in shown, True)
    page = (folder / KEPT / "desk.html").read_text(encoding="utf-8")
    expect("the page has the release", "v3" in page and page.endswith("</html>\n"), True)


def want_killed(world, *names):
    """What docs/NIGHT.md says of these parts is seen: the loop wants it."""
    away = "20" if world.is_whole else "3"
    words = [word for name in names for word in ("--part", name)]
    _, shown = run_loop(world, f"killed-{names[0]}", "--kill-each", "--away", away, *words)
    expect("each row is seen", shown.count("  settled once each, "), len(names))


def try_killed_desk(world):
    want_killed(world, "desk", "agent", "job")


def try_killed_router(world):
    want_killed(world, "follower", "haproxy", "traffic")


def try_killed_versions(world):
    want_killed(world, "prometheus", "new", "stable")
