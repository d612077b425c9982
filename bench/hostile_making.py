"""Mutated streams for bench/hostile: valid ones with heads, bodies, lengths and JSON changed."""
import json
import random
import re

from stream_making import Making
from stream_replies import message_ends
from stream_texts import Raw, odd

NUMBERS = ("0", "-0", "-1", "00", "1.0", "1.5", "1e2", "1E-2", "0.0", "-0.0", "1e999", "-", "+1",
           ".5", "01", "1.", "9223372036854775807", "9223372036854775808", "-9223372036854775808",
           "-9223372036854775809", "18446744073709551615", "18446744073709551616", "1000000000",
           "1000000001", "253370764799", "253370764800", "65535", "65536", "65537", "9" * 400,
           "0." + "3" * 400, "2147483648", "4294967296", "31536000", "31536001", "1000000", "63",
           "64", "NaN", "Infinity", "0x10", "1e99999999999", "1767225600", "null", "true", '"1"')
TEXTS = ('""', '"\\ud800"', '"\\udc00\\ud800"', '"\\ud83d\\ude00"', '"\\u0000"', '"\\x"', '"\\u12"',
         '"', '"\u00e9"', "'a'", '"a\tb"', '"' + "x" * 200 + '"', '"' + "x" * 5000 + '"', '"{{a}}"',
         '".*"', '"1h1m1s"', '"8760h"', '"result > 0"', '"' + "(" * 500 + '"',
         '"' + "! " * 500 + '"', '"' + "not " * 255 + 'result>0"',
         '"' + "result>0||" * 100 + 'result>0"', '"web"', "nul", "[]", "{}", "[{}]", "[[1,2],[3]]",
         "false", '{"a":1,"a":2}', "", ",", "//", "[1,]", '{"a":}')
JUNK = (b"\0", b"\xff", b"\x80", b"\xc3\x28", b"\xed\xa0\x80", b"\xf4\x90\x80\x80", b"\xc0\x80",
        b"\r", b"\n", b"\r\n", b"\n\n", b"\r\n\r\n", b"\t", b" ", b"\x0b", b"\x7f", b"\x01", b":",
        b"\xef\xbb\xbf", b"\r\r\n", b"{", b"}", b"[", b"]", b'"', b"\\", b",", b"0\r\n\r\n",
        b"HTTP/1.1", b"GET / HTTP/1.1")
LENGTHS = ("{0}\r\nContent-Length: {0}", "{0}\r\ncontent-length: 5", "{1}", "{2}", "abc", "+{0}",
           "-{0}", "", " ", "{0}, {0}", "{0} {0}", "99999999999999999999", "0x10", "000{0}",
           "{0}.0", "65536", "65537", "{0};", "\t{0}\t", "18446744073709551617", "{0}\0",
           "4294967296", "0" * 300 + "{0}", "\u0665", "0", "1")
LINES = ("Transfer-Encoding: chunked", "transfer-encoding: identity", "TRANSFER-ENCODING:",
         "Connection: close", "connection: Close", "Connection: keep-alive, close",
         "Connection: close,", "Connection: x close", "Connection: closed", "Connection:close\t",
         "Connection: \"close\"", "Connection: keep-alive\r\nConnection: CLOSE",
         "Connection: a,\tclOSE ,b", "Connection:", "X-Folded: a\r\n b", "X-Space : a", ": a", "X",
         "", " X: a", "X:", "X: \u00e9", "X: a\0b", "X: a\x7fb", "X: a\rb", "X\u00e9: a", "X(: a",
         "Expect: 100-continue", "Content-Length : 5", "X: a\nY: b", "Host: a\r\nHost: b",
         "Upgrade: h2c", "Content-Type: text/csv", "X:\t \ta\t \t")
VERSIONS = ("HTTP/1.0", "HTTP/1.2", "HTTP/2.0", "http/1.1", "HTTP/1.1 ", "HTTP/1.", "", "HTTP/11",
            " HTTP/1.1", "HTTP/0.9", "HTTP/1.1x", "ICY/1.1")
METHODS = ("GET", "PUT", "HEAD", "POST", "put", "P(T", "", "G" * 300, "PUT\t", "M-SEARCH",
           "PU\u00dc", "\0")
KEYS = ("kind", "failure", "result", "more", "dryRun", "pause", "setWeight")
TARGETS = ("*", "/", "", "http://desk/services/web", "/services/%77eb", "/services/w\u00e9b",
           "/services/web#x", "/services/web/../web", "//", "/services//history",
           "/callers//requests/1", "/services/a b", "/callers/ops/requests/", "/services/{service}",
           "/callers/{caller}/requests/{number}", "web", "/services/web?" + "x" * 300,
           "/services/web\x01", "/services/" + "a" * 64, "/a" * 200,
           "/services/web/runs/18446744073709551616", "/services/web/runs/", "/\x7f", "?",
           "/services/web\\")


def piece(chance, stream, most=400):
    """Where a part of the stream begins and ends."""
    begin = chance.randrange(len(stream) + 1)
    return begin, min(len(stream), begin + chance.randint(0, chance.choice((4, 40, most))))


def flip_bits(chance, stream):
    """Some bits turned over."""
    changed = bytearray(stream)
    for _ in range(chance.choice((1, 1, 2, 8))):
        changed[chance.randrange(len(changed))] ^= 1 << chance.randrange(8)
    return bytes(changed)


def cut_off(chance, stream):
    """The beginning of the stream."""
    return stream[:chance.randrange(len(stream) + 1)]


def copy_part(chance, stream):
    """A part copied to another place."""
    begin, end = piece(chance, stream)
    place = chance.randrange(len(stream) + 1)
    return stream[:place] + stream[begin:end] * chance.choice((1, 1, 2, 20)) + stream[place:]


def swap_parts(chance, stream):
    """Two parts, each in the other's place."""
    a, b, c, d = sorted((*piece(chance, stream), *piece(chance, stream)))
    return stream[:a] + stream[c:d] + stream[b:c] + stream[a:b] + stream[d:]


def drop_part(chance, stream):
    """A part left out."""
    begin, end = piece(chance, stream)
    return stream[:begin] + stream[end:]


def put_junk(chance, stream):
    """Bytes put in that mean something, or nothing."""
    place = chance.randrange(len(stream) + 1)
    return stream[:place] + chance.choice(JUNK) * chance.choice((1, 1, 1, 3)) + stream[place:]


def change_number(chance, stream):
    """A number of the stream changed, in a head or in a body."""
    found = list(re.finditer(rb"-?\d+", stream))
    if not found:
        return stream
    place = chance.choice(found)
    return stream[:place.start()] + chance.choice(NUMBERS).encode() + stream[place.end():]


def bare_lines(chance, stream):
    """Ends of lines written in another way, all or one of them."""
    ends = chance.choice((b"\n", b"\n", b"\r", b"\r\r\n", b"\n\r", b" \r\n", b"\r\n\r\n"))
    if chance.random() < 0.5:
        return stream.replace(b"\r\n", ends)
    place = chance.choice([found.start() for found in re.finditer(rb"\r\n", stream)] or [0])
    return stream[:place] + ends + stream[place + 2:]


WHOLE = (flip_bits, cut_off, copy_part, swap_parts, drop_part, put_junk, change_number, bare_lines)


def framed(head, body, length=None):
    """A message of a head without `Content-Length` and a body, with the length that it has."""
    length = str(len(body)) if length is None else length
    line = b"Content-Length: " + length.encode() + b"\r\n" if body or b"PUT" in head[:4] else b""
    return head[:-2] + line + b"\r\n" + body


def change_length(chance, head, body):
    """Another `Content-Length`."""
    own = len(body)
    length = chance.choice(LENGTHS).format(own, own + 1, max(0, own - 1))
    return framed(head, body or b"x", length)


def change_lines(chance, head, body):
    """Header lines that mean something, or that are none."""
    first, rest = head.split(b"\r\n", 1)
    lines = "\r\n".join(chance.choice(LINES) for _ in range(chance.choice((1, 1, 2))))
    return framed(first + b"\r\n" + lines.encode() + b"\r\n" + rest, body)


def many_lines(chance, head, body):
    """About as many header lines as there may be."""
    count = chance.randint(60, 66) if chance.random() < 0.9 else 2_000
    first, rest = head.split(b"\r\n", 1)
    return framed(first + b"\r\n" + b"a: b\r\n" * count + rest, body)


def long_head(chance, head, body):
    """A head about as long as it may be, by a long field, name or target."""
    near = 16_384 + chance.choice((chance.randint(-3, 3), chance.randint(-40, 40)))
    wanted = near if chance.random() < 0.7 else 40_000
    fill = b"x" * max(0, wanted - len(framed(head, body)) + len(body) - 5)
    first, rest = head.split(b"\r\n", 1)
    if chance.random() < 0.6:
        return framed(first + b"\r\na: " + fill + b"\r\n" + rest, body)
    if chance.random() < 0.5:
        return framed(first + b"\r\n" + fill + b"a:b\r\n" + rest, body)
    return framed(first.replace(b" HTTP", b"?" + fill + b" HTTP") + b"\r\n" + rest, body)


def long_body(chance, head, body):
    """A body about as long as it may be: white space, text or numbers in a list."""
    wanted = chance.choice((65_536 + chance.randint(-3, 3), 65_536, 65_537, 30_000))
    room = max(0, wanted - len(body))
    if chance.random() < 0.5:
        return framed(head, chance.choice((b" ", b"\n", b"x", b"[", b"\xff")) * room + body)
    return framed(head, body[:-1] + b',"more":"' + b"y" * max(0, room - 10) + b'"}')


def change_first_line(chance, head, body):
    """Another method, target or version."""
    parts = head.split(b"\r\n", 1)[0].split(b" ")
    place = chance.randrange(len(parts))
    other = chance.choice((METHODS, TARGETS, VERSIONS)[min(place, 2)]).encode()
    parts[place] = other
    return framed(b" ".join(parts) + b"\r\n" + head.split(b"\r\n", 1)[1], body)


def deep(chance, head, body):
    """A value of the body inside so many arrays or objects."""
    depth = chance.choice((chance.randint(120, 130), 126, 127, 128, 1_000, 30_000))
    begin, end = chance.choice(((b"[", b"]"), (b'{"a":', b"}"), (b"[", b""), (b'[{"a":', b"}]")))
    depth = min(depth, 60_000 // len(begin + end))
    inner = chance.choice((b"1", b"", b"null", b'"x"'))
    found = list(re.finditer(rb":", body))
    place = chance.choice(found).end() if found and chance.random() < 0.8 else 0
    tail = re.sub(rb"^[^,}\]]*", b"", body[place:]) if chance.random() < 0.7 and place else b""
    return framed(head, body[:place] + begin * depth + inner + end * depth + tail)


def places_of(tree, found):
    """Each object or list of a tree with each of its keys or indices."""
    inside = tree.items() if isinstance(tree, dict) else enumerate(tree)
    for key, value in inside:
        found.append((tree, key))
        if isinstance(value, (dict, list)):
            places_of(value, found)
    return found


def change_tree(chance, tree):
    """One value, key or member of a tree changed."""
    inside, key = chance.choice(places_of(tree, []))
    turn = chance.randrange(6)
    if turn == 0:
        del inside[key]
    elif turn == 1 and isinstance(inside, dict):
        name = chance.choice((key.upper(), key + "s", "", "more", "\0", "\u00e9"))
        inside[name] = inside.pop(key)
    elif turn == 2 and isinstance(inside, dict):
        inside[chance.choice(KEYS)] = Raw(chance.choice(TEXTS))
    elif turn == 3 and isinstance(inside, list):
        inside.extend([inside[key]] * chance.choice((1, 16, 32, 64)))
    else:
        inside[key] = Raw(chance.choice(NUMBERS if chance.random() < 0.5 else TEXTS))


def change_json(chance, head, body):
    """The body's JSON with values, keys or members changed, mostly still JSON."""
    try:
        tree = json.loads(body)
    except (ValueError, RecursionError):
        return framed(head, body + chance.choice(JUNK))
    for _ in range(chance.choice((1, 1, 2, 4))):
        if isinstance(tree, (dict, list)) and tree:
            change_tree(chance, tree)
    return framed(head, odd(chance, tree).encode("utf-8", "replace"))


def change_body(chance, head, body):
    """Bytes of the body changed, its length with them."""
    return framed(head, chance.choice(WHOLE[:-1])(chance, body or b" "))


PARTS = (change_length, change_lines, many_lines, long_head, long_body, change_first_line, deep,
         change_json, change_json, change_json, change_body, change_body)


def parted(message):
    """A message's head without its `Content-Length`, and its body."""
    head, body = message.split(b"\r\n\r\n", 1)
    head = re.sub(rb"(?i)\r\ncontent-length:[^\r]*", b"", head.lstrip(b"\r\n"))
    return head + b"\r\n\r\n", body


def hostile_stream(seed, index):
    """The stream of a seed with this index, and a place at which to cut it."""
    chance = random.Random(seed * 1_000_000_007 + index)
    making = Making(chance.randrange(2 ** 62), services=2, callers=2, wrong=2)
    messages = [making.message() for _ in range(chance.choice((1, 2, 4, 8, 16)))]
    for _ in range(chance.choice((0, 1, 1, 2, 4))):
        place = chance.randrange(len(messages))
        if b"\r\n\r\n" in messages[place].lstrip(b"\r\n"):
            changed = chance.choice(PARTS)(chance, *parted(messages[place]))
            messages[place:place + chance.choice((0, 0, 1))] = [changed]
    if chance.random() < 0.03:
        chance.shuffle(messages)
    stream = b"".join(messages)
    for _ in range(chance.choice((0, 0, 0, 1, 2))):
        stream = chance.choice(WHOLE)(chance, stream or b"\n")
    ends = message_ends(stream)
    anywhere = chance.randrange(len(stream) + 1)
    return stream, chance.choice(ends) if ends and chance.random() < 0.5 else anywhere
