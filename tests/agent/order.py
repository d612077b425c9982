"""What an agent has on the disk before it sends: a part of agent.py."""
from agents import agent_of, desk_for, measured, wait_until
from edges import measuring, services
from journal_disk import BYTES, CALL, Disk, unescaped
from journal_rule import journal_of
from world import Wrong, expect

REPORTS = 4


@measuring
def try_kept_first(world, server):
    """Each report stands in the journal, on the disk, before it is sent: whenever the power goes, the
    disk has what a desk may have settled."""
    with desk_for(world, "kept-first", *services(server.port, "web")) as desk:
        log = desk.folder / "calls"
        log.touch()
        path = str(desk.folder / "journals" / "agent-web")
        # -D: what is killed at the end is the agent, and not the tracer, which it would outlive
        front = ("strace", "-D", "-f", "-o", str(log), "-xx", "-s", "1000000", "-e",
                 "trace=openat,close,pwrite64,ftruncate,fsync,fdatasync,sendto")
        with agent_of(desk, front=front) as agent:
            wait_until("reports are seen", lambda: agent.must_run() or want_kept_first(
                log.read_text(), path) >= REPORTS)
        if len(measured(desk)) < REPORTS - 1:
            raise Wrong("nothing is measured")
        sent = want_kept_first(log.read_text(), path)
    return f"{sent} reports"


def want_kept_first(told, path):
    """How many reports go out, each of which the disk has by then."""
    disk, numbers, sent = Disk(), set(), 0
    for call, words, result in CALL.findall(told):
        number = words.split(",")[0]
        if call == "openat" and unescaped(BYTES.search(words)[1]).decode() == path:
            numbers.add(result)
        elif call == "close":
            numbers.discard(number)
        elif call == "sendto" and b'{"report"' in (text := unescaped(BYTES.search(words)[1])):
            want_pending(disk.synced, text)
            sent += 1
        elif number in numbers:
            disk.note(call, words, result)
    return sent


def want_pending(image, message):
    """The journal that the disk has asks for this message."""
    found = journal_of(image)
    if not found or not found.pending:
        raise Wrong(f"sent, and the disk has {image[-300:]!r}")
    head, _, body = message.partition(b"\r\n\r\n")
    expect("the number", f"/requests/{found.number()} ".encode() in head, True)
    expect("the body", (found.pending.body or found.pending.intent).encode(), body)
