"""Random structures, and texts of them: as kubectl prints them, as JSON, by yaml.safe_dump, and
changed at random. Each function takes the random numbers from `rng`."""
import json

import reference
import yaml

WORDS = """web errors canary successCondition setWeight pause duration interval 10s 5m templateName
args value prometheus query sum rate http_requests_total service latency p99 image nginx:1.25
apps/v1 argoproj.io/v1alpha1 app.kubernetes.io/name true-ish nullable""".split()
# Plain scalars of one word on which versions of YAML, or their readers, part or may part.
SCALARS = """yes no on off y n Y N Yes NO On OFF true True TRUE tRUE false null Null NULL nULL ~ 0
00 -0 -00 +0 1 -1 +1 0123 017 08 -017 +08 007 0o17 0o8 0O17 +0o17 0x1F 0X1F +0x1F 0x 0xg 0x_1 0x1_f
0b101 0b2 -0b1 0B1 0b_ 0b1_0 1_000 1__0 1_ _1 0.1_0 1_0.5 1e1_0 1e_5 +_1 -_ 1,000
1_a 12:30:45 190:20:30 12:30
1:60 08:30 0:30 01:30.5 1:2.5_0 1:2: :1 a:1 1: 2001-01-01 2001-12-14t21:59:43.10-05:00 2001-1-1
2001-12-14T21:59:43Z 1e3 1.5e3 1.5e+3 1e-7 1e+5 5. .5 +.5 -.5e1 1. ._5 .5_0 . .. .e1 1e 1e999 1.2.3
1.20 .inf -.INF +.Inf .nan .NaN .nAn -.nan = << 1.0.0 10s 25% 0xffffffffffffffff
0x10000000000000000 18446744073709551615 18446744073709551616 -9223372036854775808
-9223372036854775809""".split()
TEXTS = ["", " ", " lead", "trail ", "a: b", "a #b", "#c", "- x", "-", "?", ":", ": x", "x:", "[a]",
         "{a: b}", "&a", "*a", "!a", "|", ">", "%a", "@a", "`a`", '"', "'", "it's", 'say "hi"',
         "a\\b", "multi\nline", "multi\nline\n", "multi\n\nline\n\n", "\nlead", "\n",
         "  two\n  lines\n", " x\ny\n", "a\n b\nc\n", "a\n\n b\n\nc", "tab\there", "\ttab", "tab\t",
         "caf\u00e9", "\u65e5\u672c\u8a9e", "\U0001f600", "\u00a0", "\ufeffx", "\x07", "x\ty: z",
         "result < 5", "result[0] >= 0.95 && result[0] != 1", "a,b", "a]b", "a}b",
         'sum(rate(x{a="b",c=~"d|e"}[5m])) /\nsum(rate(x[5m]))\n', "http://x:80/y?z#w",
         "{{args.service-name}}", "$(X)", "50%", "a  b", "word " * 30, "x" * 120, "---", "...",
         "--- a", "a:", "a: ", "-a", "?a", ":a", "- ", "''", '""', "\\n", "key with space"]
# These end a line in YAML 1.1, and in no later version: PyYAML prints texts with them so that no
# other reader has them back.
OLD_ENDS = ["\u0085", "\u2028x", "x\u2029"]
ALPHABET = "ab -:#,[]{}'\"\\\n\t&*!|>%@`?.~=0é"


def text_of(rng, more=()):
    kind = rng.random()
    if kind < 0.4:
        return rng.choice(WORDS)
    if kind < 0.6:
        return rng.choice([*TEXTS, *more])
    if kind < 0.8:
        return rng.choice(SCALARS)
    if kind < 0.9:
        return " ".join(rng.choice(WORDS) for _ in range(rng.randint(2, 25)))
    return "".join(rng.choice(ALPHABET) for _ in range(rng.randint(1, 12)))


def key_of(rng, more=()):
    # PyYAML prints long keys, and those of more than a line, as complex ones, which are refused.
    text = text_of(rng, more)
    return text[:60] if text and not set(text) & set("\n\u0085\u2028\u2029") else "k"


def scalar(rng, strings, more):
    kind = rng.random()
    if strings or kind < 0.5:
        return text_of(rng, more)
    if kind < 0.75:
        return rng.choice([0, 1, -1, 5, 100, 2 ** 31, 2 ** 53, 2 ** 63 - 1, -2 ** 63, 2 ** 64 - 1,
                           rng.randint(-10 ** 6, 10 ** 6)])
    if kind < 0.85:
        return rng.choice([0.5, -0.25, 1.0, 1e20, 1.5e-7, 0.1, 3.0, -0.0, 12345.678, rng.random()])
    return rng.choice([True, False, None])


def structure(rng, depth=0, strings=False, more=()):
    kind = rng.random()
    if depth >= 5 or kind < 0.35 and depth:
        return scalar(rng, strings, more)
    size = rng.choice([0, 1, 1, 2, 3, 4])
    parts = [structure(rng, depth + 1, strings, more) for _ in range(size)]
    return {key_of(rng, more): part for part in parts} if kind < 0.7 else parts


def dumped(rng):
    """A text of yaml.safe_dump, in one of its styles."""
    style = rng.choice([None, None, None, None, '"', "'", "|", ">"])
    value = structure(rng, strings=style is not None)
    if style is not None and not value:
        value = {"k": "v"}
    return yaml.safe_dump(
        value, default_style=style, default_flow_style=rng.choice([None, False, False, True]),
        width=rng.choice([20, 40, 80, 1000]), indent=rng.choice([2, 2, 3, 4]),
        allow_unicode=rng.random() < 0.5, explicit_start=rng.random() < 0.2,
        explicit_end=rng.random() < 0.2, sort_keys=rng.random() < 0.5)


def is_date(word):
    return yaml.SafeLoader("").resolve(yaml.ScalarNode, word, (True, False)).endswith("timestamp")


def is_text(word):
    """Whether all versions, and kubectl, read a plain scalar as its own text, and no date."""
    try:
        is_own = reference.value_by(reference.CoreLoader, word) == word
    except reference.Left:
        return False
    is_base_60 = word[0] in "-+0123456789" and ":" in word
    return is_own and not (is_base_60 or word == "<<" or is_date(word) or reference.is_apart(word))


def is_plain(value):
    """Whether kubectl prints a text without quotes."""
    if not value or value != value.strip() or not value.isascii() or not value.isprintable():
        return False
    if value[0] in "#,[]{}&*!|>'\"%@`" or value[:2].strip() in "-?:" or value.endswith(":"):
        return False
    return not (": " in value or " #" in value or value[:3] in ("---", "...")) and is_text(value)


def in_quotes(rng, value):
    if value.isprintable() and rng.random() < 0.5:
        return "'" + value.replace("'", "''") + "'"
    return json.dumps(value, ensure_ascii=rng.random() < 0.5 or not value.isprintable())


def is_literal(value):
    lines = value.split("\n")
    return len(lines) > 1 and all(it.isprintable() and it == it.rstrip() for it in lines)


def literal(value, column):
    """A text of more than a line, as kubectl prints it."""
    lines = value.split("\n")
    chomp = "-" if lines[-1] else "+" if value == "\n" or value.endswith("\n\n") else ""
    body = lines if lines[-1] else lines[:-1]
    pad = " " * (column + 2)
    head = "|" + ("2" if value[0] in " \n" else "") + chomp
    return head + "\n" + "\n".join(pad + line if line else "" for line in body)


def printed_scalar(rng, value, column):
    if not isinstance(value, str):
        return json.dumps(value)
    if is_literal(value):
        return literal(value, column)
    return value if is_plain(value) else in_quotes(rng, value)


def noise(rng, column):
    """A comment, maybe with a blank line after it, or mostly nothing. It begins in this column at
    most, so it is no part of a literal that may stand before it."""
    if rng.random() < 0.9:
        return ""
    return " " * rng.randint(0, column) + '# a comment: [not] "read\n' + rng.choice(["", "\n"])


def end_of_line(rng):
    return rng.choice(["", "", "", "", "", " ", "  # a comment"]) + "\n"


def printed_leaf(rng, value, column):
    text = printed_scalar(rng, value, column)
    return text + ("\n" if text.startswith("|") else end_of_line(rng))


def printed_member(rng, key, value, column):
    text = " " * column + (key if is_plain(key) else in_quotes(rng, key)) + ":"
    if isinstance(value, (dict, list)) and value:
        further = 2 if isinstance(value, dict) else rng.choice([0, 0, 2])
        return text + end_of_line(rng) + printed_lines(rng, value, column + further)
    return text + " " * rng.choice([1, 1, 1, 3]) + printed_leaf(rng, value, column)


def printed_item(rng, value, column):
    mark = " " * column + "-"
    if isinstance(value, (dict, list)) and value:
        inner = printed_lines(rng, value, column + 2)
        is_compact = inner.lstrip(" ")[0] != "#"
        return mark + (inner[column + 1:] if is_compact else "\n" + inner)
    return mark + " " + printed_leaf(rng, value, column)


def printed_lines(rng, value, column):
    """The lines of a mapping or a sequence as kubectl prints them, with comments."""
    if isinstance(value, dict):
        parts = [printed_member(rng, *it, column) for it in value.items()]
    else:
        parts = [printed_item(rng, it, column) for it in value]
    return "".join(noise(rng, column) + part for part in parts)


def printed(rng):
    """A structure as kubectl prints it, and the structure."""
    value = None
    while not value:
        value = structure(rng, more=OLD_ENDS)
    text = printed_lines(rng, value, 0)
    text = "---\n" + text if rng.random() < 0.3 else text
    return text.replace("\n", "\r\n") if rng.random() < 0.1 else text, value


def as_json(rng):
    """A structure in JSON."""
    return json.dumps(structure(rng, more=OLD_ENDS), indent=rng.choice([None, None, 2, 1]),
                      ensure_ascii=rng.random() < 0.5,
                      separators=rng.choice([None, (",", ":")]))


PIECES = ["\n", " ", "  ", "\t", ":", ": ", "- ", "-", "#", " #", '"', "'", "|", ">", "|-\n",
          ">+\n", "[", "]", "{", "}", ",", "&a ", "*a", "!t ", "? ", "<<: ", "%", "@", "`", "---\n",
          "...\n", "---", "\\", "\\u", "\\x4", "\r\n", "\r", "\x00", "\x07", "\u00e9", "\ufeff",
          "~", "0x", ".inf", "1e999", "key: value\n", '"a": b', "- - - ", "[[[[", "{{", "|2\n",
          ">1-\n", "\n\n", "a: b: c", "\u2028", "yes", "y: ", "0644", "1_000"]


def with_changed_line(rng, text):
    lines = text.split("\n")
    at = rng.randrange(len(lines))
    line = lines[at]
    lines[at] = rng.choice([" " + line, "  " + line, line[1:], line[2:], "\t" + line,
                            line.rstrip(), rng.choice(lines)])
    return "\n".join(lines)


def mutated(rng, text):
    """The text with one to five changes, in bytes; now and then one of them is not UTF-8."""
    for _ in range(rng.choice([1, 1, 1, 2, 3, 5])):
        at, other, kind = rng.randint(0, len(text)), rng.randint(0, len(text)), rng.random()
        if kind < 0.4:
            text = text[:at] + rng.choice(PIECES) + text[at:]
        elif kind < 0.6:
            text = text[:at] + text[at + rng.randint(1, 4):]
        elif kind < 0.7:
            text = text[:at]
        elif kind < 0.85:
            text = with_changed_line(rng, text)
        else:
            text = text[:at] + text[other:other + 20] + text[at:]
    data = text.encode("utf-8", "surrogatepass")
    half = len(data) // 2
    return data[:half] + b"\xff" + data[half:] if rng.random() < 0.01 else data
