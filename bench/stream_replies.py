"""Reads what the program writes, for bench/compare and bench/hostile: whole replies, one by one."""
import json
import re
from collections import Counter, namedtuple

REASONS = {200: "OK", 400: "Bad Request", 404: "Not Found", 405: "Method Not Allowed",
           409: "Conflict", 411: "Length Required", 413: "Content Too Large",
           422: "Unprocessable Content", 503: "Service Unavailable"}
CODES = {
    200: ("ok",),
    400: ("malformed", "bad-name", "bad-number", "unreadable", "unsupported"),
    404: ("no-route", "unknown-service", "unknown-run"),
    405: ("method",),
    409: ("reused", "ahead"),
    411: ("length",),
    413: ("too-long",),
    422: ("unknown-service", "service-exists", "bad-condition", "interval-needed",
          "duplicate-metric", "bad-dry-run", "unknown-template", "endless-metric", "bad-strategy",
          "in-progress", "already-stable", "not-in-progress", "not-paused", "not-aborted",
          "runs-spent", "unknown-run", "run-closed", "unknown-metric", "repeated-metric",
          "metric-closed", "recorded", "out-of-turn", "spent", "future", "too-early",
          "revisions-spent"),
    503: ("no-memory", "storage"),
}
ENDING = {(400, "malformed"), (411, "length"), (413, "too-long")}
HEAD = re.compile(rb"HTTP/1\.1 (\d{3}) ([A-Za-z ]+)\r\nContent-Type: application/json\r\n"
                  rb"Content-Length: (0|[1-9]\d*)\r\n(?:Allow: (PUT|GET)\r\n)?"
                  rb"(Connection: close\r\n)?\r\n")

Reply = namedtuple("Reply", "status code raw closes")


class BadReply(Exception):
    """What is wrong with the bytes that a program wrote."""


def first_reply(output, place):
    """The reply that begins at a place of the output."""
    head = HEAD.match(output, place)
    if not head:
        raise BadReply(f"no head of a reply at byte {place}: {output[place:place + 120]!r}")
    status, reason, length, allow, close = head.groups()
    status, start, end = int(status), head.end(), head.end() + int(length)
    if REASONS.get(status) != reason.decode() or (status == 405) != bool(allow):
        raise BadReply(f"a status line or Allow line that does not fit: {head.group()!r}")
    if output[start:start + 1] != b"{":
        return Reply(status, "head alone", output[place:start], bool(close))
    return Reply(status, code_of(status, output[start:end], int(length)), output[place:end],
                 bool(close))


def code_of(status, body, length):
    """The code of a body, which has to be compact JSON with its keys in order."""
    if len(body) != length:
        raise BadReply(f"a body of {len(body)} bytes in place of {length}")
    try:
        told = json.loads(body)
        same = json.dumps(told, separators=(",", ":"), sort_keys=True, ensure_ascii=False)
    except ValueError as fault:
        raise BadReply(f"a body that is no JSON: {body[:120]!r}") from fault
    code = told.get("code")
    if same.encode() != body or code not in CODES[status]:
        raise BadReply(f"a body of status {status} that is not written so: {body[:200]!r}")
    return code


def replies_of(output):
    """The replies that an output is made of."""
    replies, place = [], 0
    while place < len(output):
        reply = first_reply(output, place)
        replies.append(reply)
        place += len(reply.raw)
        if reply.closes and place < len(output):
            raise BadReply(f"bytes behind a reply that closes: {output[place:place + 120]!r}")
        if (reply.status, reply.code) in ENDING and not reply.closes:
            raise BadReply(f"a refusal that ends the stream does not close: {reply.raw!r}")
    return replies


def counts_of(replies):
    """How many replies there are of each status and code."""
    return Counter((reply.status, reply.code) for reply in replies)


def show_counts(counts):
    """Prints the counts: of statuses, and of the codes of each."""
    whole = sum(counts.values())
    for status in sorted({status for status, _ in counts}):
        codes = {code: count for (each, code), count in counts.items() if each == status}
        several = sum(codes.values())
        print(f"{status} {REASONS[status]}: {several} of {whole} ({100 * several / whole:.1f} %)")
        for code in sorted(codes, key=codes.get, reverse=True):
            print(f"    {code:18} {codes[code]:9}")


def missing(counts, statuses):
    """The codes of these statuses that no reply has."""
    return [code for status in statuses for code in CODES[status] if not counts[status, code]]


def message_ends(stream):
    """Where the messages of a stream end, as far as its heads are plain ones.

    A head ends with an empty line, its `Content-Length` is the first one that is digits alone.
    """
    ends, place = [], 0
    while True:
        while stream[place:place + 1] in (b"\r", b"\n"):
            place += 1
        head = stream.find(b"\r\n\r\n", place)
        if head < 0:
            return ends
        length = re.search(rb"(?i)\r\ncontent-length:[ \t]*(\d{1,9})[ \t]*\r\n",
                           stream[place:head + 2])
        place = head + 4 + (int(length.group(1)) if length else 0)
        if place > len(stream):
            return ends
        ends.append(place)
