"""Streams that are sent to `pipe` piece by piece, that end at any byte, over connections that
break, and to outputs that are slow, full or closed: parts of cli.py, each of which returns how many
rows it had."""
import fcntl
import os
import re
import select
import signal
import socket
import struct
import subprocess
import termios
import time

from conversation import AT_B, STILL_AT_B, limits_writes, without_progress
from story_words import (
    Wrong, blocks, command, expect, get, message, messages_of_story, put, query, reply,
)

STORIES = os.path.join(os.path.dirname(os.path.realpath(__file__)), "../stories")
REQUEST = put("ops", 1, b"{}")
UNREADABLE = reply("400 Bad Request", b'{"code":"unreadable"}')
MALFORMED = reply("400 Bad Request", b'{"code":"malformed"}', "Connection: close\r\n")
NOWHERE = (get("/nope"), reply("404 Not Found", b'{"code":"no-route"}'))
# Where an output begins that takes some bytes more: far beyond the size of a desk's file.
FAR = 1 << 26


def release():
    """The messages of a release, the first conversation of the stories, each with its reply."""
    with open(os.path.join(STORIES, "streams.story"), encoding="utf-8") as story:
        head, *rows = next(blocks(story.read().split("\n", 1)[1]))
    expect("the first conversation", head, "messages")
    return [message(row) for row in rows]


def story():
    """The messages of STORY; in front of each there is no end of line, or one of either kind."""
    fronts = (b"", b"\r\n", b"\n")
    return [(fronts[at % 3] + sent, told) for at, (sent, told) in enumerate(messages_of_story())]


def joined(messages):
    """The bytes of these messages, and those of their replies."""
    return tuple(map(b"".join, zip(*messages)))


def whole_in(messages, count):
    """The replies to the messages that are whole in the first so many bytes, and the place at which
    the last of these ends."""
    want, end = b"", 0
    for sent, told in messages:
        if end + len(sent) > count:
            break
        want, end = want + told, end + len(sent)
    return want, end


def begin(program, **more):
    """A process of the program that answers what it is sent."""
    streams = {name: subprocess.PIPE for name in ("stdin", "stdout", "stderr")}
    return subprocess.Popen([program, *AT_B], bufsize=0, **{**streams, **more})


def read_some(source, count, seconds=20):
    """So many bytes of this descriptor; fewer if it ends, or gives none for some seconds."""
    found = b""
    while len(found) < count and select.select([source], [], [], seconds)[0]:
        some = os.read(source, count - len(found))
        if not some:
            break
        found += some
    return found


def wait_until_taken(pipe):
    """Waits until the reader of a pipe has taken all that is in it."""
    for _ in range(20_000):
        left, = struct.unpack("i", fcntl.ioctl(pipe, termios.FIONREAD, b"0000"))
        if left == 0:
            return
        time.sleep(0.0005)
    raise Wrong("what was sent is not read")


def want_end(row, running, status=0, errors=b"", rest=b""):
    """It writes this rest, these errors, and ends with this status."""
    try:
        written, told = running.communicate(timeout=30)
    except subprocess.TimeoutExpired:
        running.kill()
        raise Wrong(f"{row}: it does not end") from None
    expect(row, (running.returncode, told, written or b""), (status, errors, rest))


def try_turns(program, _):
    """The reply to a message comes before anything after the message is sent."""
    conversations = ([NOWHERE] * 3, release())
    for messages in conversations:
        running = begin(program)
        for at, (sent, told) in enumerate(messages):
            running.stdin.write(sent)
            expect(f"message {at}", read_some(running.stdout.fileno(), len(told)), told)
        want_end("turn by turn", running)
    return sum(map(len, conversations))


def tell_pieces(program, row, stream, pieces, want):
    """Each piece is sent once the one before it was read."""
    running = begin(program)
    at = 0
    for size in pieces:
        if at < len(stream):
            running.stdin.write(stream[at:at + size])
            wait_until_taken(running.stdin)
        at += size
    want_end(row, running, rest=want)


def try_pieces(program, _):
    """The replies to a stream are the same in whatever pieces it comes."""
    stream, want = joined(release())
    rows = {
        "a byte at a time": [1] * len(stream),
        "seven bytes at a time": [7] * len(stream),
        "the first message and a byte more, and then a byte at a time":
            [len(release()[0][0]) + 1] + [1] * len(stream),
        "all at once": [len(stream)],
    }
    for row, pieces in rows.items():
        tell_pieces(program, row, stream, pieces, want)
    many, replies = joined([NOWHERE] * 1000)
    tell_pieces(program, "a thousand messages in one write", many, [len(many)], replies)
    return len(rows) + 1


def try_cuts(program, _):
    """The replies to a stream are the same wherever it is cut in two."""
    stream, want = joined(release())
    for at in range(len(stream) + 1):
        pieces = [at, len(stream) - at]
        tell_pieces(program, f"cut in two after {at} bytes", stream, pieces, want)
    return len(stream) + 1


def ends_after(rest):
    """How a stream may end whose input ends with these bytes after the last whole message: the
    bytes of a last reply, the exit status, and the standard error. The rules leave it open whether
    what ends inside a request's target is cut off or malformed."""
    if not rest.strip(b"\r\n"):
        return [(b"", 0, b"")]
    ends = [(b"", 1, b"canary: truncated\n")]
    if re.fullmatch(rb"[\r\n]*PUT [^ ]*", rest):
        ends.append((MALFORMED, 0, b""))
    return ends


def tell_until_end(program, messages, count):
    """So many bytes of the messages come, and then the input ends: what is whole is answered."""
    stream, _ = joined(messages)
    want, end = whole_in(messages, count)
    done = subprocess.run([program, *STILL_AT_B], input=stream[:count], capture_output=True,
                          timeout=60)
    found = (done.stdout, done.returncode, done.stderr)
    ends = [(want + last, status, told) for last, status, told in ends_after(stream[end:count])]
    if found not in ends:
        raise Wrong(f"an input of {count} bytes\n  wanted one of {ends!r}\n  and got {found!r}")


def try_ended_inputs(program, _):
    """The input ends after each so many bytes of a stream."""
    messages = story()
    counts = range(len(joined(messages)[0]) + 1)
    for count in counts:
        tell_until_end(program, messages, count)
    return len(counts)


def long_history():
    """Messages after which the history of web has some 100,000 bytes, a query for it, and its
    reply."""
    steps = [f"step {at} setWeight 20" for at in range(64)]
    asked, lines = [put("ops", 1, command("service v0 64*setWeight:20"))], ["created v0"]
    for number in range(1, 41):
        asked.append(put("ops", number + 1, command(f"start v{number}")))
        lines += [f"start v{number}", *steps, f"done v{number}"]
    told = ",".join(f'"2026-01-01T00:00:00Z {line}"' for line in lines)
    last = reply("200 OK", f'{{"code":"ok","lines":[{told}],"service":"web"}}'.encode())
    return b"".join(asked) + get(query("history web")), last


def try_slow_readers(program, folder):
    """What an output takes slowly comes whole. A process that is stopped and goes on while the rest
    of a write waits for room has made a short write."""
    stream, last = long_history()
    with open(os.path.join(folder, "asked"), "w+b") as asked:
        asked.write(stream)
        for kind in ("pipe", "socket"):
            asked.seek(0)
            if kind == "pipe":
                source, output = os.pipe()
                fcntl.fcntl(output, fcntl.F_SETPIPE_SZ, 4096)
            else:
                ours, theirs = socket.socketpair()
                theirs.setsockopt(socket.SOL_SOCKET, socket.SO_SNDBUF, 4096)
                source, output = ours.detach(), theirs.detach()
            running = subprocess.Popen([program, *STILL_AT_B], stdin=asked, stdout=output,
                                       stderr=subprocess.PIPE)
            os.close(output)
            found = read_slowly(source, running)
            os.close(source)
            want_end(f"a slow reader of a {kind}", running)
            expect(f"the replies through a {kind}", found.count(b"HTTP/1.1 200 OK"), 42)
            expect(f"the last reply through a {kind}", found[-len(last):], last)
    return 2


def read_slowly(source, running):
    """All that comes, 50 bytes at a time; the process is stopped now and then, and goes on."""
    found = b""
    while some := read_some(source, 50):
        found += some
        if len(found) % 5000 == 0:
            time.sleep(0.005)
            os.kill(running.pid, signal.SIGSTOP)
            os.kill(running.pid, signal.SIGCONT)
    return found


def answer_in(program, book, stream, output, most):
    """Answers the stream over a book in a file, with so many bytes of the output. What it wrote,
    its exit status and its standard error."""
    with open(output, "w+b") as written:
        written.seek(FAR - most)
        done = subprocess.run([program, *AT_B, "--db", book], input=stream, stdout=written,
                              stderr=subprocess.PIPE, timeout=60,
                              preexec_fn=lambda: limits_writes(FAR))
        written.seek(FAR - most)
        return written.read(), done.returncode, without_progress(done.stderr)


def try_cut_outputs(program, folder):
    """A part of the replies goes out to an output that is full after so many bytes; and the stream
    sent again gets its replies as if it came once."""
    stream, want = joined(release()[:4])
    output = os.path.join(folder, "output")
    counts = [*range(0, len(want), 97), len(want) - 1, len(want)]
    for at, most in enumerate(counts):
        row, book = f"an output of {most} bytes", os.path.join(folder, f"book{at}")
        ended = (0, b"") if most == len(want) else (1, b"canary: write\n")
        found = answer_in(program, book, stream, output, most)
        expect(row, found, (want[:most], *ended))
        again = answer_in(program, book, stream, output, FAR)
        expect(f"{row}, and all of it again", again, (want, 0, b""))
    return len(counts)


def try_closed_output(program, _):
    """The reader of the replies goes away after the first."""
    running = begin(program)
    running.stdin.write(NOWHERE[0])
    expect("the first reply", read_some(running.stdout.fileno(), len(NOWHERE[1])), NOWHERE[1])
    running.stdout.close()
    running.stdin.write(NOWHERE[0])
    running.stdout = None
    want_end("an output that was closed", running, 1, b"canary: write\n")
    return 1


def connection():
    """A client's end of a TCP connection, and the other end."""
    with socket.create_server(("127.0.0.1", 0)) as server:
        client = socket.create_connection(server.getsockname())
        return client, server.accept()[0]


def reset(client):
    """Ends a connection so that its other end fails to read."""
    client.setsockopt(socket.SOL_SOCKET, socket.SO_LINGER, struct.pack("ii", 1, 0))
    client.close()


def tell_until_reset(program, messages, count):
    """So many bytes of the messages come, and then the input fails: whole messages are answered,
    and the fault is printed."""
    row = f"a connection that fails after {count} bytes"
    stream, _ = joined(messages)
    want, _ = whole_in(messages, count)
    client, ours = connection()
    running = begin(program, stdin=ours)
    ours.close()
    client.sendall(stream[:count])
    expect(row, read_some(running.stdout.fileno(), len(want)), want)
    reset(client)
    want_end(row, running, 1, b"canary: read\n")


def try_failing_inputs(program, _):
    messages = release()
    counts = range(0, sum(len(sent) for sent, _ in messages) + 1, 50)
    for count in counts:
        tell_until_reset(program, messages, count)
    tell_until_reset(program, [(REQUEST, UNREADABLE)], len(REQUEST))
    return len(counts) + 1


STREAM_PARTS = (try_turns, try_pieces, try_cuts, try_ended_inputs, try_slow_readers,
                try_cut_outputs, try_closed_output, try_failing_inputs)
