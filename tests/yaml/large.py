"""Large and hostile texts, of 1,048,576 bytes at most: what they are, and whether they are read
(True), refused (False), or either (None)."""
import json

MOST = 1_048_576


def filled(piece, front="", end=""):
    """As many of the piece as a text has room for, between a front and an end."""
    return front + piece * ((MOST - len(front) - len(end)) // len(piece)) + end


def stairs(last):
    """Sequences in 127 levels, each in a line of its own, and the last line."""
    return "".join(" " * level + "-\n" for level in range(127)) + " " * 127 + last


TEXTS = {
    "numbers": (json.dumps(list(range(140000)))[:MOST - 10].rpartition(",")[0] + "]", True),
    "hexadecimal numbers": (filled("0x1F, ", "[", "1]"), True),
    "brackets, 127 deep": ("[" * 127 + "]" * 127, True),
    "brackets, 128 deep": ("[" * 128 + "]" * 128, False),
    "lines, 127 deep": (stairs(""), True),
    "lines, 128 deep": (stairs("- a\n"), False),
    "lines, 127 deep, and a long one": (stairs("x" * 1_000_000), True),
    "lines, 127 deep, and a long key": (stairs('"' + "x" * 1_000_000 + '": 1'), False),
    "dashes in a line": (filled("- "), False),
    "126 dashes before a long line": (filled("x", "- " * 126), True),
    "documents": (filled("---\na\n"), True),
    "markers": (filled("---\n"), True),
    "ends of documents": (filled("...\n"), True),
    "blank lines": (filled("\n", "a: b\n"), True),
    "comments": (filled("# c\n", "a: b\n"), True),
    "a comment": (filled("#"), True),
    "entries": (filled("- a\n"), True),
    "empty entries": (filled("-\n"), True),
    "entries and blank lines": (filled("- a\n\n\n"), True),
    "entries of an entry": (filled("- - a\n"), True),
    "members": ("".join(f"k{number}: {number}\n" for number in range(70000)), True),
    "members with long keys": ("".join("k" * 900 + f"{it}: 1\n" for it in range(1100)), True),
    "members of one name": (filled("a: 1\n"), False),
    "quotes over lines": (filled("x\n", '"', '"'), True),
    "a quote over blank lines": (filled("\n", '"', '"'), True),
    "escapes": (filled("\\u0041", '"', '"'), True),
    "escaped ends of lines": (filled("\\\n", '"', '"'), True),
    "blanks before ends of lines": (filled(" x  \n", '"', '"'), True),
    "a word over lines": (filled("x\n"), True),
    "a word over blank lines": (filled("x\n\n"), True),
    "a long word": (filled("x"), True),
    "a long word in brackets": (filled("x", "[", "]"), True),
    "literals": (filled("- |\n"), True),
    "a literal": (filled("  x\n", "a: |\n"), True),
    "a folded text": (filled("  x\n\n", "a: >\n"), True),
    "a literal of blanks": (filled(" \n", "a: |\n"), True),
    "a literal before blank lines": (filled("\n", "a: |+\n  x\n"), True),
    "literals before blank lines": (filled("- |+\n\n\n\n"), True),
    "open brackets": (filled("["), False),
    "open braces and quotes": (filled('{"'), False),
    "flow members without values": (filled("k, ", "{", "l}"), False),
    "colons": (filled(":"), None),
    "colons and spaces": (filled(": "), False),
    "words and colons": (filled("a:"), None),
    "words, colons and spaces": (filled("a: "), False),
    "both quotes": (filled("\"'"), False),
    "single quotes": (filled("''"), True),
    "an odd number of single quotes": (filled("''", end="'"), False),
    "a key of single quotes": (filled("''", "''", ": 1"), True),
    "items and ends of lines": (filled("a,\n", "[", "]"), True),
    "words in brackets": (filled("ab, ", "[", "]"), True),
    "spaces": (filled(" "), True),
    "tabs": (filled("\t"), None),
    "CR LF": (filled("\r\n"), True),
    "a CR in each line": (filled("a\rb\n"), False),
    "a byte more than is read": ("a" * (MOST + 1), False),
    "a long key": (filled("k", '"', '": 1'), True),
    "a long plain key": (filled("k", end=": 1"), True),
    "hyphens": (filled("-"), None),
    "brackets in members": ("a: {b: [" * 60 + "]}" * 60, False),
    "a long number": (filled("1"), None),
    "a long fraction": (filled("1", "0."), True),
    "a long hexadecimal number": (filled("f", "0x"), False),
    "a long number with _": (filled("1_"), False),
    "a long number in base 60": (filled(":1", "1"), False),
    "zeros": (filled("0"), True),
    "zeros and a nine": (filled("0", end="9"), False),
    "aliases": (filled("*a "), False),
    "anchors": ("a: &a [x]\n" + "".join(f"b{it}: &b{it} [*a, *a]\n" for it in range(9)), False),
    "a word of many characters": ("\u65e5" * (MOST // 3), True),
    "bytes that go on": (b"\x80" * MOST, False),
}
