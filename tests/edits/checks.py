"""Runs checks of the prover on copies of a crate, each within limits of time."""
import collections
import contextlib
import os
import resource
import shutil
import signal
import subprocess
import tempfile
import threading

# What a check came to: its status, what it said, its seconds of a processor, the memory that it
# took, and whether it was killed beside proofs, most likely for memory.
Ran = collections.namedtuple("Ran", "status lines seconds memory is_lost")

NO_END = 124
# How often it is looked whether the prover has judged all.
LOOK = 0.05
# A check that waits for others takes longer by the clock than by its processor; and one that begins
# in idle time waits for the proofs.
CLOCK, CLOCK_IDLE = 4, 12


class Stopped(Exception):
    """Nothing more can be tried, for a reason that lies in no bug."""


class Ended(Stopped):
    """Nothing more is wanted."""


class Waits(Stopped):
    """There is no time left to begin what may wait."""


def copied(crate, parts, room, texts, gone):
    """Copies a crate's source to the folder `room`, with these texts and without the folders."""
    for part in parts:
        if os.path.isdir(f"{crate.folder}/{part}"):
            shutil.copytree(f"{crate.folder}/{part}", f"{room}/{part}")
    for path in gone:
        shutil.rmtree(f"{room}/{path}", ignore_errors=True)
    for path, text in texts.items():
        os.makedirs(os.path.dirname(f"{room}/{path}"), exist_ok=True)
        with open(f"{room}/{path}", "w", encoding="utf-8") as it:
            it.write(text)


def room_in(folder):
    """A new folder for a copy of a crate, where no other check looks."""
    os.makedirs(folder, exist_ok=True)
    return tempfile.TemporaryDirectory(prefix=f"together-{os.getpid()}-", dir=folder)


def take_files(room, ended):
    """Takes away the folder of a check's own files once the prover has judged all. Else it would
    run once more, for a fourth of its time, to print files from which proofs could start. It says
    that it cannot print them, and then what came of the check."""
    while not ended.wait(LOOK):
        with contextlib.suppress(OSError), open(f"{room}/stages", encoding="utf-8") as stages:
            if "stage session " in stages.read():
                os.rename(f"{room}/files", f"{room}/gone")
                return


@contextlib.contextmanager
def own_files(room, keeps_files):
    """The words, and the environment, by which a check in the folder `room` has a folder of its own
    files, as long as it needs one, or to its end."""
    os.mkdir(f"{room}/files")
    ended = threading.Event()
    thread = threading.Thread(target=take_files, args=(room, ended), daemon=True)
    if keeps_files:
        ended.set()
    thread.start()
    try:
        yield ["--stage-times", f"{room}/stages"], {**os.environ, "TMPDIR": f"{room}/files"}
    finally:
        ended.set()
        thread.join()


def run(words, room, log, limit, turn=None, keeps_files=False):
    """Runs the words in the folder `room`; what they say goes to the file `log`. They end after so
    many seconds of a processor, also on a busy machine. If it is some `turn`, that says how."""
    is_idle = turn is not None and turn.is_idle

    def begin():
        resource.setrlimit(resource.RLIMIT_CPU, (limit, limit + 5))
        if is_idle:
            turn.begin_idle()

    with (open(log, "w+", encoding="utf-8", errors="replace") as said,
          own_files(room, keeps_files) as (more, env)):
        # pylint: disable=subprocess-popen-preexec-fn, consider-using-with
        ran = subprocess.Popen([*words, *more], cwd=room, env=env, stdin=subprocess.DEVNULL,
                               stdout=said, stderr=subprocess.STDOUT, preexec_fn=begin)
        clock = threading.Timer((CLOCK_IDLE if is_idle else CLOCK) * limit, ran.kill)
        clock.start()
        if turn:
            turn.begin(ran)
        _, status, used = os.wait4(ran.pid, 0)
        clock.cancel()
        ran.returncode = status = os.waitstatus_to_exitcode(status)
        seconds = used.ru_utime + used.ru_stime
        if turn:
            turn.end(seconds)
        said.seek(0)
        text = said.read()
        said.write(f"\nstatus {status}\n")
    is_lost = is_idle and status == -signal.SIGKILL
    if status in (-signal.SIGXCPU, -signal.SIGKILL):
        status, text = NO_END, f"no end within {limit} seconds, or no memory"
    return Ran(status, text.rstrip("\n").split("\n"), seconds, 1024 * used.ru_maxrss, is_lost)
