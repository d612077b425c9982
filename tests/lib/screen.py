"""Programs on a terminal, and what it shows."""
import os
import select
import subprocess
import time
import tty

from story_words import expect

ERASED = b"\r\x1b[K"


def new_terminal():
    """A terminal that changes no byte: the descriptor that shows it, and that of its programs."""
    shown, terminal = os.openpty()
    tty.setraw(terminal)
    return shown, terminal


def begin_on_terminal(program, words, place, stream, **streams):
    """A process whose stream of this name is a terminal, and the descriptor that shows it."""
    shown, terminal = new_terminal()
    running = subprocess.Popen([program, *words], cwd=place, **{**streams, stream: terminal})
    os.close(terminal)
    return running, shown


def read_terminal(shown, seconds, is_enough=lambda found: False):
    """What the terminal showed until it is enough, nobody writes to it any more, or the time is
    over."""
    # Its descriptor may be above 1,023, which `select` does not take.
    found, looks, until = b"", select.poll(), time.monotonic() + seconds
    looks.register(shown, select.POLLIN)
    while not is_enough(found) and looks.poll(1000 * max(0, until - time.monotonic())):
        try:
            some = os.read(shown, 65536)
        except OSError:
            break
        if not some:
            break
        found += some
    return found


def run_showing(program, words, place, text=b"", status=0):
    """What the words wrote, and what they showed on their error stream, a terminal."""
    with open(os.path.join(place, "input"), "wb") as written:
        written.write(text)
    with open(os.path.join(place, "input"), "rb") as stdin, \
            open(os.path.join(place, "output"), "w+b") as stdout:
        running, shown = begin_on_terminal(program, words, place, "stderr", stdin=stdin,
                                           stdout=stdout)
        found = read_terminal(shown, 60)
        os.close(shown)
        expect(f"{words}: its status", running.wait(timeout=60), status)
        stdout.seek(0)
        return stdout.read(), found
