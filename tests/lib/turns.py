"""How the parts of a script are tried: side by side, and those once more, alone, that failed for
want of time. A part that saw something wrong has failed."""
import concurrent.futures
import os
import signal
import subprocess
import sys
import threading
import time
import traceback

from world import Late, Unsafe, running

# The seconds between two looks at the clock. A look that is so much later means that the machine
# stood still.
LOOK, STILL = .1, .5
PASSED, WRONG, LATE = "passed", "wrong", "late"
TIMEOUTS = (subprocess.TimeoutExpired, concurrent.futures.TimeoutError, TimeoutError)


def parts_of(*modules):
    """The parts of these modules, by their names, of which none stands for two."""
    found = [(name, part) for module in modules for name, part in vars(module).items()
             if name.startswith("try_") and part.__module__ == module.__name__]
    if len(dict(found)) != len(found):
        sys.exit(f"two parts of one name: {sorted(name for name, _ in found)}")
    return dict(found)


class Watch:
    """Looks at the clock as long as this process runs."""

    def __init__(self):
        self.stops = []
        threading.Thread(target=self.look, daemon=True).start()

    def look(self):
        last = time.monotonic()
        while True:
            time.sleep(LOOK)
            now = time.monotonic()
            if now - last > LOOK + STILL:
                self.stops.append(now)
            last = now

    def has_seen_stop(self, since):
        """Whether the machine stood still after this moment."""
        # The look that notes it may be still to come.
        time.sleep(2 * LOOK)
        return any(moment > since for moment in self.stops)


def is_for_time(fault, has_stood_still):
    """Whether a part that failed so is tried once more: something came too late, or the machine
    stood still meanwhile. No delay explains what is unsafe."""
    if isinstance(fault, Unsafe):
        return False
    return has_stood_still or isinstance(fault, (Late, *TIMEOUTS))


def end_all(*_):
    """Ends what runs, and this process."""
    for process in [*running]:
        if getattr(process, "is_of_group", False):
            os.killpg(process.pid, signal.SIGKILL)
        else:
            process.kill()
    os._exit(143)


def end_by_signals(end=end_all):
    for number in (signal.SIGTERM, signal.SIGINT, signal.SIGHUP):
        signal.signal(number, end)


class Turns:
    """The parts of a script, by their names. Each is a function of a world."""

    def __init__(self, script, parts):
        self.script, self.parts, self.watch = script, parts, Watch()

    def note(self, text):
        print(f"{self.script}: {text}", file=sys.stderr, flush=True)

    def try_part(self, name, world):
        """What came of a part."""
        begun = time.monotonic()
        try:
            told = self.parts[name](world) or "passed"
        except Exception as fault:  # pylint: disable=broad-except
            trace = traceback.format_exc()
            came = LATE if is_for_time(fault, self.watch.has_seen_stop(begun)) else WRONG
            self.note(f"{name} FAILED ({came})\n{trace}")
            return came
        self.note(f"{name}: {told} ({time.monotonic() - begun:.1f} s)")
        return PASSED

    def try_all(self, names, world, beside):
        """What came of each of these parts, so many of which run at a time."""
        with concurrent.futures.ThreadPoolExecutor(beside) as pool:
            tried = {name: pool.submit(self.try_part, name, world) for name in names}
            return {name: part.result() for name, part in tried.items()}

    def failing(self, names, world, again, beside):
        """The parts that fail. One that was late beside others is tried once more, alone, in the
        world that `again` makes."""
        came = self.try_all(names, world, beside)
        late = [name for name in names if came[name] == LATE]
        if late:
            self.note(f"once more, alone: {' '.join(late)}")
            came |= self.try_all(late, again(), 1)
        return [name for name in names if came[name] != PASSED]
