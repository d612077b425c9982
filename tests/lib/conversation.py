"""A conversation with a program over its standard streams, on a clock that begins at the moment
B."""
import re
import resource
import signal

from story_words import B

AT_B = ["pipe", "--at", str(B), "--step", "1"]
STILL_AT_B = ["pipe", "--at", str(B), "--step", "0"]
PROGRESS = re.compile(rb"canary: \d+ (?:of \d+ )?"
                      rb"(?:MB judged|MB read|MB read to check \d+ MB|services drawn)(?:\n|$)")


def without_progress(errors):
    """What standard error has but for the lines of a program that takes more than a second, as it
    may on a slow machine."""
    return PROGRESS.sub(b"", errors)


def limits_writes(most):
    """Lets this process write files of so many bytes at most, as on a full disk."""
    signal.signal(signal.SIGXFSZ, signal.SIG_IGN)
    resource.setrlimit(resource.RLIMIT_FSIZE, (most, resource.RLIM_INFINITY))


def reply_of(process, message):
    """The bytes with which a process answers a message; none if it has ended."""
    try:
        process.stdin.write(message)
        process.stdin.flush()
    except BrokenPipeError:
        return b""
    head, length = b"", 0
    while line := process.stdout.readline():
        head += line
        if line.lower().startswith(b"content-length:"):
            length = int(line.split(b":")[1])
        if line == b"\r\n":
            break
    return head + process.stdout.read(length)
