"""The texts of messages for bench/streams: conditions, JSON in other words, durations, heads."""
import json

from stream_model import Condition

SPACES = ("", "", "", " ", "  ", "\t", "\n", "\r\n")
WORDS = frozenset("abcdefghijklmnopqrstuvwxyzABCDEFGHIJKLMNOPQRSTUVWXYZ0123456789_")
FAR = (2 ** 63 - 1, -2 ** 63, 1_000_000, -1)
WRONG_CONDITIONS = ("result >", "result", "> 5", "result > 0.5", "result = 1", "result > 1)",
                    "(result > 1", "(result) > 1", "result == 'a'", "result == true",
                    "{{args.most}} > result", " ", "result[-1] > 0", "result[] > 0", "result[0 > 0",
                    "result[result] > 0", "len(result) > 0", "result > 9223372036854775808",
                    "result > -9223372036854775809", "result > - 5", "result == 5and result == 6",
                    "result > 1 result", "result > 1 & result > 2", "5x == result", "result > 1 or",
                    "not", "!", "result !== 1", "result + 1 > 2", "default(result, 0) > 1",
                    "result < 1 < 2", "Result > 1", "result > 1 AND result > 2", "result \u2265 1",
                    "result > 1\u0000", "result[9223372036854775808] > 0", "result\u000b> 1", "()",
                    "result > 1 ()", "result.a > 1", "(" * 33 + "result > 0" + ")" * 33,
                    "result > 0" + " " * 1015, "result > 1 ||| result > 2")


class Raw(str):
    """A JSON text that is written as it is."""


def nested(depth):
    """So many lists, each in the one before."""
    value = []
    for _ in range(depth - 1):
        value = [value]
    return value


def compact(value):
    """JSON without white space, keys in the order that they have."""
    return json.dumps(value, separators=(",", ":"), ensure_ascii=False)


def odd_string(chance, text):
    """A JSON string, some of its characters escaped."""
    whole = json.dumps(text, ensure_ascii=chance.random() < 0.5)
    if "\\" in whole or not whole.isascii() or chance.random() < 0.7:
        return whole
    return '"' + "".join(f"\\u{ord(c):04{chance.choice('xX')}}" if chance.random() < 0.2 else c
                         for c in whole[1:-1]) + '"'


def odd(chance, value):
    """JSON of a value in other words: white space, the order of keys, escapes, a key twice."""
    def space():
        return chance.choice(SPACES)
    if isinstance(value, Raw):
        return str(value)
    if isinstance(value, str):
        return odd_string(chance, value)
    if isinstance(value, list):
        return "[" + ",".join(space() + odd(chance, each) + space() for each in value) + "]"
    if not isinstance(value, dict):
        return json.dumps(value)
    keys = list(value)
    chance.shuffle(keys)
    parts = [space() + odd_string(chance, key) + space() + ":" + space() + odd(chance, value[key])
             + space() for key in keys]
    if keys and chance.random() < 0.05:
        key = chance.choice(keys)
        parts.insert(0, odd_string(chance, key) + ":" + chance.choice(("null", "7", '"x"', "[{}]")))
    return "{" + (",".join(parts) or space()) + "}"


def operand(chance, shape):
    """An operand: a number, or the result or one of its values."""
    if chance.random() < 0.15:
        return ("number", chance.choice(FAR) if chance.random() < 0.2 else chance.randint(-3, 12))
    if chance.random() < 0.04:
        shape = 0 if shape else 3
    return ("result", None if shape == 0 else chance.randint(0, shape if chance.random() < 0.06
                                                             else shape - 1))


def tree_of(chance, shape, depth):
    """A random condition on whole results (shape 0), or on lists of so many values."""
    draw = chance.random()
    if depth and draw < 0.12:
        return ("not", tree_of(chance, shape, depth - 1))
    if depth and draw < 0.4:
        return (chance.choice(("and", "or", "or")), tree_of(chance, shape, depth - 1),
                tree_of(chance, shape, depth - 1))
    sign = chance.choice(("==", "!=", "<", "<=", ">", ">=", "<", "<=", ">", ">="))
    number = ("number", chance.choice(FAR) if chance.random() < 0.03 else chance.randint(-1, 11))
    pair = (operand(chance, shape), number)
    return (sign, *(pair if chance.random() < 0.8 else pair[::-1]))


def tokens_of(chance, tree, level=0):
    """The tokens of a condition; a level above that of its operator needs a bracket."""
    kind = tree[0]
    if kind in ("number", "result"):
        return operand_tokens(chance, tree)
    if kind == "not":
        inner, own = [chance.choice(("!", "not"))] + tokens_of(chance, tree[1], 2), 2
    elif kind in ("and", "or"):
        own = 1 if kind == "and" else 0
        sign = chance.choice((kind, "&&" if kind == "and" else "||"))
        inner = tokens_of(chance, tree[1], own) + [sign] + tokens_of(chance, tree[2], own + 1)
    else:
        inner, own = [*tokens_of(chance, tree[1]), kind, *tokens_of(chance, tree[2])], 3
    if own < level or chance.random() < 0.05:
        return ["(", *inner, ")"]
    return inner


def operand_tokens(chance, tree):
    """The tokens of an operand."""
    kind, value = tree
    if kind == "result":
        return ["result"] if value is None else ["result", "[", str(value), "]"]
    zeros = "0" * chance.choice((0, 0, 0, 0, 0, 0, 0, 1, 3))
    return [("-" if value < 0 else "") + zeros + str(abs(value))]


def spelled(chance, tree):
    """A condition that has a tree, with white space between its words or without."""
    tokens = tokens_of(chance, tree)
    spaced, text = chance.random() < 0.7, tokens[0]
    for token in tokens[1:]:
        needs = spaced or text[-1] in WORDS and token[0] in WORDS
        text += (" " if needs else "") if chance.random() < 0.9 or not needs else "\t\n "
        text += token
    return Condition(text, tree)


def condition(chance, shape):
    """A random condition that has a reading."""
    made = spelled(chance, tree_of(chance, shape, chance.choice((0, 0, 1, 2, 3))))
    return made if len(made.text) <= 1024 else condition(chance, shape)


def band(chance, shape):
    """A success and a failure condition, between which results are inconclusive."""
    part = ("result", chance.randrange(shape) if shape else None)
    low = chance.randint(0, 4)
    return (spelled(chance, (">=", part, ("number", low + chance.randint(1, 6)))),
            spelled(chance, ("<", part, ("number", low))))


def duration(chance, seconds, bare=False):
    """A text of a duration, or for a pause also a number."""
    hours, minutes = divmod(seconds, 3600)
    minutes, rest = divmod(minutes, 60)
    texts = [f"{seconds}s", f"{hours}h{minutes}m{rest}s", f"{rest}s{minutes}m{hours}h",
             f"{seconds // 60}m{rest}s", f"00{seconds}s"]
    return chance.choice(texts[:2] + texts if not bare else texts + [seconds, str(seconds)])


def put(chance, path, body):
    """A PUT with a body of bytes; now and then in another form of the same head."""
    if chance.random() < 0.85:
        return b"PUT %s HTTP/1.1\r\nContent-Length: %d\r\n\r\n%s" % (path.encode(), len(body), body)
    name = chance.choice(("content-length", "CONTENT-LENGTH", "Content-Length"))
    length = "0" * chance.choice((0, 0, 3)) + str(len(body))
    lines = [name + ":" + chance.choice(("", " ", "  \t")) + length + chance.choice(("", " "))]
    lines += other_lines(chance)
    chance.shuffle(lines)
    path += chance.choice(("", "", "?", "?a=b?c", "?/requests/1"))
    first = chance.choice(("", "", "\r\n", "\r\n\r\n")) + f"PUT {path} HTTP/1.1"
    return "\r\n".join([first, *lines, "", ""]).encode() + body


def other_lines(chance):
    """Header lines that mean nothing here."""
    lines = ("Host: desk.example", "Accept: */*", "Content-Type: application/json", "X-Empty:",
             "Connection: keep-alive", "Expect: 100-continue", "User-Agent: agent/1.0 (x; y)",
             "X-Length: 5", "Connection: closed, not-close", "Accept-Encoding: gzip, br")
    return chance.sample(lines, chance.randint(0, 4))


def get(chance, path, method="GET"):
    """A message without a body, or with one that is not looked at."""
    path += chance.choice(("",) * 8 + ("?", "?moment=now"))
    lines = other_lines(chance) if chance.random() < 0.1 else []
    body = chance.choice((b"",) * 12 + (b"ignored", b"{}"))
    if body or chance.random() < 0.05:
        lines.append(f"Content-Length: {len(body)}")
    return "\r\n".join([f"{method} {path} HTTP/1.1", *lines, "", ""]).encode() + body
