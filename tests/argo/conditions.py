"""Conditions of Argo Rollouts, as far as `canary argo` takes them: what they say of a value, what
an agent has to report for them, and as what it is reported. All of it comes from Argo's text.

A value is a Fraction, NAN, INFINITE, MINUS_INFINITE, NULL, a Text, or a list of these."""
import collections
import functools
import math
import re
from fractions import Fraction

NAN, INFINITE, MINUS_INFINITE, NULL = "NaN", "+Inf", "-Inf", "null"
INFINITIES = (INFINITE, MINUS_INFINITE)
# The greatest number that is reported of a decimal, and what is reported in place of no number.
MOST = 9_223_372_036_854_775_803
NUMBERS = {NAN: -2 ** 63, MINUS_INFINITE: -2 ** 63 + 1, NULL: -2 ** 63 + 2, INFINITE: 2 ** 63 - 1}
# The same under a label that has no numbers for the infinities alone.
WITHIN = NUMBERS | {INFINITE: MOST, MINUS_INFINITE: -MOST}
# What is reported beside decimals, by the letter of a label, and the function that reads a text.
BESIDE = {"": INFINITIES, "w": INFINITIES, "n": (NAN, *INFINITIES), "t": (NAN, *INFINITIES),
          "i": (NAN, *INFINITIES), "s": tuple(NUMBERS)}
TEXTS = {"t": "asFloat", "w": "asInt"}
LEAST_PLACES = 6
COMPARISONS = ("==", "!=", "<", "<=", ">", ">=")
DIGITS = "[0-9][0-9_]*"
NUMBER = (rf"-?(?:0[xX][0-9A-Fa-f][0-9A-Fa-f_]*|(?:{DIGITS}(?:\.{DIGITS})?|\.{DIGITS})"
          rf"(?:[eE][+-]?{DIGITS})?)(?![0-9A-Za-z_.])")
TOKEN = re.compile(rf"[ \t\r\n]*({NUMBER}|[A-Za-z]+|[=!<>]=|&&|\|\||[<>!()\[\],])")
TURNED = {"==": "==", "!=": "!=", "<": ">", "<=": ">=", ">": "<", ">=": "<="}
# What is looked at: "whole", "length" or the number of a place, the function round it, and the
# number of a `default`.
Look = collections.namedtuple("Look", "place function number")
# A text that a provider gives in place of a number.
Text = collections.namedtuple("Text", "text")
FLOAT = re.compile(r"[+-]?([0-9]+\.?[0-9]*|\.[0-9]+)([eE][+-]?[0-9]+)?")
WORDS = {"nan": NAN, "inf": INFINITE, "infinity": INFINITE}


class Fault(Exception):
    """A condition looks for what the value does not have."""


# ---- numbers

def parts_of_number(text):
    """The sign, the digits before the point and after it, and the exponent of a decimal."""
    sign, whole, after, power = re.fullmatch(
        r"(-?)([0-9]*)\.?([0-9]*)(?:[eE]([+-]?[0-9]+))?", text.replace("_", "")).groups()
    return -1 if sign else 1, whole, after, int(power or 0)


def is_hexadecimal(text):
    return text.lstrip("-")[:2] in ("0x", "0X")


@functools.cache
def exact(text):
    """The number that a text spells."""
    if is_hexadecimal(text):
        return Fraction(int(text.replace("_", ""), 16))
    sign, whole, after, power = parts_of_number(text)
    return sign * int(whole + after) * Fraction(10) ** (power - len(after))


@functools.cache
def digits_after_point(text):
    """The digits after the point, as many as are written, and those that an exponent adds."""
    if is_hexadecimal(text):
        return 0
    _, _, after, power = parts_of_number(text)
    return len(after) + max(0, -power)


# ---- texts

def parse_float(text):
    """What Go's ParseFloat reads in a text: a number or a word. Left out are hexadecimal numbers,
    digits with `_` between them, and numbers from 10^308 on."""
    sign, word = (text[0], text[1:]) if text[:1] in ("+", "-") else ("", text)
    found = WORDS.get(word.lower())
    if found == INFINITE:
        return MINUS_INFINITE if sign == "-" else INFINITE
    if found == NAN and not sign:
        return NAN
    if not FLOAT.fullmatch(text) or abs(Fraction(text)) >= 10 ** 308:
        raise Fault
    return Fraction(text)


def parse_int(text):
    """What Go's ParseInt reads in a text: a whole number of 64 bits."""
    if not re.fullmatch(r"[+-]?[0-9]+", text) or not -2 ** 63 <= int(text) < 2 ** 63:
        raise Fault
    return Fraction(int(text))


def in_text(text, function):
    """What `asFloat` or `asInt` reads in a text; a text alone is compared with no number."""
    if function not in TEXTS.values():
        raise Fault
    return (parse_float if function == "asFloat" else parse_int)(text.text)


# ---- reading

def condition(tree):
    """The tree, if it is no operand."""
    if tree[0] in ("value", "number"):
        raise ValueError(f"{tree} alone")
    return tree


def comparison(left, sign, right):
    """The tree of a comparison, with its value first."""
    if (left[0], right[0]) == ("value", "number"):
        return ("compare", left[1], sign, right[1])
    if (left[0], right[0]) == ("number", "value"):
        return ("compare", right[1], TURNED[sign], left[1])
    raise ValueError(f"{left} {sign} {right}")


class Reader:
    """Reads a text to a tree: ("or", left, right), ("and", left, right), ("not", inner),
    ("ask", look), ("compare", look, sign, number), where the number is a text. What stands in
    brackets is a tree, too, or an operand: ("value", look) or ("number", text)."""

    def __init__(self, text):
        text = text.rstrip(" \t\r\n")
        self.words, at = [], 0
        while at < len(text):
            found = TOKEN.match(text, at)
            if not found:
                raise ValueError(f"{text!r}: no token at {at}")
            self.words.append(found[1])
            at = found.end()
        self.at = 0

    def next(self):
        return self.words[self.at] if self.at < len(self.words) else ""

    def take(self, *words):
        """The next word, if it is one of these."""
        if self.next() not in words:
            return None
        self.at += 1
        return self.words[self.at - 1]

    def need(self, *words):
        found = self.take(*words)
        if found is None:
            raise ValueError(f"{self.words}: no {words} at {self.at}")
        return found

    def whole(self):
        tree = condition(self.either())
        if self.next():
            raise ValueError(f"{self.words}: more at {self.at}")
        return tree

    def either(self):
        tree = self.both()
        while self.take("||", "or"):
            tree = ("or", condition(tree), condition(self.both()))
        return tree

    def both(self):
        tree = self.compared()
        while self.take("&&", "and"):
            tree = ("and", condition(tree), condition(self.compared()))
        return tree

    def compared(self):
        left = self.part()
        sign = self.take(*COMPARISONS)
        return comparison(left, sign, self.part()) if sign else left

    def part(self):
        if self.take("!", "not"):
            return ("not", condition(self.part()))
        if self.take("("):
            tree = self.either()
            self.need(")")
            return tree
        return ("number", self.number()) if self.is_number() else self.call()

    def call(self):
        """A value, or a question for one."""
        function = self.take("isNaN", "isInf", "asFloat", "asInt", "default", "len")
        if function is None:
            return ("value", Look(self.place(), "", None))
        self.need("(")
        place, number = self.place(), None
        if function == "default":
            if place != "whole":
                raise ValueError(f"{self.words}: default gives the whole result, as Argo has it")
            self.need(",")
            number = self.number()
        self.need(")")
        if function == "len" and place == "whole":
            return ("value", Look("length", "", None))
        kind = "ask" if function in ("isNaN", "isInf") else "value"
        return (kind, Look(place, function, number))

    def place(self):
        self.need("result")
        if not self.take("["):
            return "whole"
        place = exact(self.number())
        self.need("]")
        return int(place)

    def is_number(self):
        return re.match(r"-?[.0-9]", self.next()) is not None

    def number(self):
        if not self.is_number():
            raise ValueError(f"{self.words}: no number at {self.at}")
        self.at += 1
        return self.words[self.at - 1]


def read(text):
    return Reader(text).whole()


# ---- what conditions say of a value

def at_place(place, value):
    """The value at a place of what was measured."""
    if isinstance(value, list) == (place == "whole"):
        raise Fault
    if place == "whole":
        return value
    if place == "length":
        return Fraction(len(value))
    if place >= len(value):
        raise Fault
    return value[place]


def compared(left, sign, right):
    """Whether a comparison holds; of those with NaN only `!=` does. An infinity is beyond each
    number, and null is compared with none."""
    if left == NULL:
        raise Fault
    if left == NAN:
        return sign == "!="
    if left in INFINITIES:
        left, right = 1 if left == INFINITE else -1, 0
    return {"==": left == right, "!=": left != right, "<": left < right, "<=": left <= right,
            ">": left > right, ">=": left >= right}[sign]


class Meaning:
    """What conditions say. A class below it has a mistake, which the comparison must find."""

    @staticmethod
    def constant(text):
        return exact(text)

    @staticmethod
    def compares(left, sign, right):
        return compared(left, sign, right)

    @staticmethod
    def whole(value):
        """What `asInt` makes of a decimal: it is cut off towards 0."""
        return Fraction(math.trunc(value))

    def instead(self, number):
        """What stands in place of null, by the number of a `default`."""
        return self.constant(number)

    @staticmethod
    def in_text(text, function):
        return in_text(text, function)

    @staticmethod
    def whole_of_word(word):
        """What `asInt` makes of what is no decimal. In Argo that depends on the processor: here an
        infinity stays one, and NaN is a fault."""
        if word in INFINITIES:
            return word
        raise Fault

    def seen(self, look, value):
        """What a comparison sees of a value, by the function round it."""
        found = at_place(look.place, value)
        if isinstance(found, Text):
            found = self.in_text(found, look.function)
        if look.function == "default" and found == NULL:
            return self.instead(look.number)
        if look.function != "asInt" or found == NULL:
            return found
        return self.whole(found) if isinstance(found, Fraction) else self.whole_of_word(found)

    @staticmethod
    def asked(function, found):
        """What `isNaN` or `isInf` says."""
        if found == NULL or isinstance(found, Text):
            raise Fault
        return found in ((NAN,) if function == "isNaN" else INFINITIES)

    def joined(self, tree, value):
        """The right side counts only if the left one does not decide."""
        left = self.says(tree[1], value)
        return left if left == (tree[0] == "or") else self.says(tree[2], value)

    def says(self, tree, value):
        """Whether a condition holds of a value."""
        kind = tree[0]
        if kind in ("or", "and"):
            return self.joined(tree, value)
        if kind == "not":
            return not self.says(tree[1], value)
        if kind == "ask":
            return self.asked(tree[1].function, at_place(tree[1].place, value))
        _, look, sign, number = tree
        return self.compares(self.seen(look, value), sign, self.constant(number))

    @staticmethod
    def cannot_report(form, value):
        return form.cannot_report(value)

    def phase(self, trees, form, value):
        """The phase of a measurement of this value, by its success and failure conditions, of
        which one may be none."""
        if self.cannot_report(form, value):
            return "Error"
        try:
            success, failure = (tree and self.says(tree, value) for tree in trees)
        except Fault:
            return "Error"
        if failure:
            return "Failed"
        if success is False and failure is False:
            return "Inconclusive"
        return "Failed" if success is False else "Successful"


# ---- what is reported

def parts_of(tree):
    """The comparisons and the calls of isNaN and isInf in a tree."""
    if tree[0] in ("or", "and", "not"):
        for part in tree[1:]:
            yield from parts_of(part)
    else:
        yield tree


def numbers_of(part):
    """The numbers to which a value is compared, or that stand in place of null."""
    if part[1].place != "length":
        yield from part[3:]
    if part[1].number is not None:
        yield part[1].number


def letter_of(functions):
    """The letter of a label, by the functions round the values, of which one may be none."""
    for function, letter in (("default", "s"), ("isInf", "i"), ("isNaN", "n")):
        if function in functions:
            return letter
    if "asInt" in functions:
        return "" if "" in functions else "w"
    return "t" if functions == {"asFloat"} else "n"


class Form:
    """How the values of a metric with these conditions are reported."""

    def __init__(self, trees):
        parts = [part for tree in trees if tree for part in parts_of(tree)]
        named = {part[1].place for part in parts}
        self.is_list = "whole" not in named
        self.has_length = "length" in named
        self.count = max((place + 1 for place in named if isinstance(place, int)), default=0)
        self.functions = {part[1].function for part in parts if part[1].place != "length"}
        self.letter = letter_of(self.functions)
        digits = [digits_after_point(number) + 1 for part in parts for number in numbers_of(part)]
        self.places = max([LEAST_PLACES, *digits])

    def suffix(self):
        """What a label ends in."""
        shape = ""
        if self.has_length:
            shape = f"l{self.count}"
        elif self.is_list:
            shape = "f" if self.count == 1 else f"p{self.count}"
        return f".e{self.places}{self.letter}{shape}"

    def read(self, value):
        """A value as it is reported: a text as the number in it, if texts are read."""
        try:
            return in_text(value, TEXTS.get(self.letter)) if isinstance(value, Text) else value
        except Fault:
            return value

    def is_number(self, value):
        """Whether a number is reported of what is no list."""
        found = self.read(value)
        return isinstance(found, Fraction) or (
            isinstance(found, str) and found in BESIDE[self.letter])

    def looked_at(self, value):
        """The values that are reported, if any are."""
        return value[:self.count] if isinstance(value, list) else [value]

    def cannot_report(self, value):
        """Whether a failure is reported of a value."""
        if not self.is_list:
            return not self.is_number(value)
        if not isinstance(value, list) or not (value or self.has_length):
            return True
        return not all(map(self.is_number, value[:self.count]))

    def reported(self, value, to_number):
        """What is reported of a value, with that number of each decimal and word; none for a
        failure."""
        if self.cannot_report(value):
            return None
        numbers = [to_number(self.read(one), self) for one in self.looked_at(value)]
        if not self.is_list:
            return numbers[0]
        if self.has_length:
            return [len(value), *numbers]
        return numbers[0] if self.count == 1 else numbers


def multiple(value, places):
    """The number that is reported of a decimal: in units of 10^-places, cut off towards 0. If
    anything was cut off, and the last digit that is left is 0, that digit is 1."""
    scaled = abs(value) * 10 ** places
    number = scaled.numerator // scaled.denominator
    if scaled.denominator != 1 and number % 10 == 0:
        number += 1
    number = min(number, MOST)
    return -number if value < 0 else number


def number_of_word(word, letter):
    """The number that is reported of NaN, an infinity or null, under a label with that letter."""
    return (NUMBERS if letter in ("i", "s") else WITHIN)[word]


def number_of(value, form):
    """The number that is reported of a value."""
    if isinstance(value, Fraction):
        return multiple(value, form.places)
    return number_of_word(value, form.letter)
