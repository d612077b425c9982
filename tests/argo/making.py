"""Random metrics with Argo's conditions, and values for them. Each function takes the random
numbers from `rng`."""
import math
from fractions import Fraction

import conditions
from conditions import (
    COMPARISONS, INFINITE, INFINITIES, NAN, NULL, Form, Text, digits_after_point)

# The most digits of a constant, the most of them after the point, and the most of the number that
# a desk compares with.
MOST_DIGITS, MOST_AFTER, DESK_DIGITS = 15, 17, 18
# What the conditions of a metric have beside comparisons of values: `asInt` at some values; it or
# `asFloat` at each; `asFloat` at each; `isNaN`; `isInf` and `isNaN`; or `default` round each value.
KINDS = ["plain", "plain", "plain", "whole", "whole", "cut", "cut", "float", "float", "float",
         "nan", "infinite", "infinite", "null", "null"]
CUT, READ = ("whole", "cut"), ("cut", "float")
# Words that are measured: by kind, and in each of them.
WORDS = {"nan": [NAN, NAN, *INFINITIES], "null": [NULL, NULL, NULL, NAN, *INFINITIES]}
ANY_WORD = [NAN, *INFINITIES, NULL, Text("0.5"), Text("7")]
# How many of the values are words, by kind, and of the others texts, if those are read.
SHARES, TEXTS = {"nan": 0.25, "infinite": 0.25, "null": 0.25}, 0.5
# Texts that Go's ParseFloat reads, but no plain decimal, and what it and ParseInt read otherwise,
# or not.
WORD_TEXTS = ["NaN", "nan", "NAN", "Inf", "+Inf", "-inf", "Infinity", "-INFINITY", "+infinity"]
EDGE_TEXTS = ["9223372036854775807", "9223372036854775808", "-9223372036854775808",
              "-9223372036854775809", "+9223372036854775807", "0", "-0", "+0", "007", "5.", "-.5",
              "+.5e1", "0e9999", "1e307", "-9.9e307"]
ODD_TEXTS = ["", " ", "1 ", " 1", "up", "0x10", "1e", "1e+", ".", "+", "-", ".e1", "+-1", "--1",
             "1.2.3", "1,5", "\u0661", "+nan", "-NaN", "in", "infin", "infinity1", "true", "null",
             "1e400", "-1e309", "1\n"]
# Constants of people, and one that just fits a desk.
USUAL = ["0", "1", "0.95", "0.05", "0.99", "0.999", "95", "-1", "-0.5", "1.5", "500", "100.25",
         "0.950", "300.0", "9223372036854.77", "-9223372036854.7", "9223372036853", "1e-3", ".5",
         "-.25", "1_000", "0x1F", "-0x1_f", "0X10", "1.4E1", "-1.5e+2", "9.5e-1", "5e-9", "1e12",
         "1_2.5_0", "5.5", "-5", "80"]
STEPS = [0, 0, 0, 1, -1, 2, -2, 5, 10, -10]
# Values that are cut off to 0, and beside these.
NEAR_ZERO = [Fraction(sign * size, 10 ** 7) for sign in (1, -1)
             for size in (1, 5_000_000, 9_999_999, 10_000_000, 10_000_001)]


# ---- the forms of a number

def digits_of(text):
    """The sign and the digits of a decimal without an exponent, and how many stand after the
    point; of a whole number without the zeros at its end, that are less than none."""
    sign, whole, after, _ = conditions.parts_of_number(text)
    digits = (whole + after).lstrip("0") or "0"
    short = digits if after else digits.rstrip("0") or "0"
    return sign, short, len(after) - len(digits) + len(short)


def with_power(rng, text):
    """The number with an exponent."""
    sign, digits, places = digits_of(text)
    after = rng.randint(0, max(2, places + 2))
    digits = digits.rjust(after + 1, "0")
    mantissa = digits[:len(digits) - after] + ("." + digits[len(digits) - after:] if after else "")
    power = after - places
    plus = rng.choice(["", "+"]) if power >= 0 else ""
    return f"{'-' if sign < 0 else ''}{mantissa}{rng.choice('eE')}{plus}{power}"


def hexadecimal(rng, text):
    """The number in hexadecimal, if it is whole."""
    number = int(text) if text.lstrip("-").isdigit() else None
    if number is None:
        return text
    digits = rng.choice([str.upper, str.lower])(f"{abs(number):x}")
    return f"{'-' if text[0] == '-' else ''}0{rng.choice('xX')}{digits}"


def without_zero(_, text):
    """The number without a 0 before its point."""
    return text.replace("0.", ".", 1) if text.lstrip("-").startswith("0.") else text


def with_lines(rng, text):
    """The number with `_` between some digits."""
    made = text[:1]
    for last, digit in zip(text, text[1:]):
        is_between = last.isdigit() and digit.isdigit() and rng.random() < 0.4
        made += ("_" if is_between else "") + digit
    return made


SPELLINGS = [with_power, with_power, hexadecimal, hexadecimal, without_zero, with_lines]


def with_point(_, text):
    """A whole number with a point behind it."""
    return text if "." in text else f"{text}."


def plain(number):
    """A decimal without an exponent."""
    places = 0
    while (number * 10 ** places).denominator != 1:
        places += 1
    digits = str(abs(number) * 10 ** places).rjust(places + 1, "0")
    sign = "-" if number < 0 else ""
    return f"{sign}{digits[:-places]}.{digits[-places:]}" if places else sign + digits


class Metric:
    """Conditions of a metric, of which one may be none, and values that are measured."""

    def __init__(self, name, success, failure):
        self.name, self.texts = name, (success, failure)
        self.trees = tuple(text and conditions.read(text) for text in self.texts)
        self.form, self.values = Form(self.trees), []

    def manifest(self, count):
        """The metric as Argo has it, for so many measurements."""
        made = {"name": self.name, "provider": {"web": {"url": "http://any/"}}, "interval": "1s",
                "count": count, "failureLimit": count, "inconclusiveLimit": count,
                "consecutiveErrorLimit": count}
        for key, text in zip(("successCondition", "failureCondition"), self.texts):
            if text:
                made[key] = text
        return made

    def label(self):
        return self.name + self.form.suffix()


class Maker:
    """Makes the conditions of one metric, and its values."""

    def __init__(self, rng):
        self.rng, self.constants = rng, []
        self.digits = rng.choice([0, 1, 2, 2, 2, 3, 4, 5, 6, 7, 9, 11, 14, MOST_AFTER])
        self.kind = rng.choice(KINDS)
        # `default` gives the whole result.
        shape = rng.choice(["number", "number", "first", "first", "list", "length"])
        self.places = self.places_of("number" if self.kind == "null" else shape)

    def places_of(self, shape):
        """What the conditions look at."""
        if shape == "number":
            return ["result"]
        most = {"first": 1, "list": self.rng.randint(2, 4), "length": self.rng.randint(0, 3)}[shape]
        if shape != "first" and self.rng.random() < 0.1:
            most = 16 if shape == "list" else 15
        places = [f"result[{place}]" for place in range(most)]
        if shape == "length":
            places += ["len(result)"] * max(1, len(places))
        return places

    # ---- numbers

    def constant(self):
        """A number that fits, and is one of those near which values are."""
        text = self.rng.choice(USUAL)
        if self.rng.random() < 0.6 or not self.fits(text):
            text = self.spelled(self.made_constant())
        self.constants.append(conditions.exact(text))
        return text

    def spelled(self, plain):
        """The number in one of its forms that fits."""
        text = self.rng.choice(SPELLINGS)(self.rng, plain) if self.rng.random() < 0.5 else plain
        return text if self.fits(text) else plain

    def most_places(self):
        return max(conditions.LEAST_PLACES, self.digits + 1)

    def fits(self, text):
        """Whether a number is held, and a desk's number holds it, or the next whole one."""
        size, after = abs(conditions.exact(text)), digits_after_point(text)
        most = (size + (self.kind in CUT)) * 10 ** self.most_places()
        return after <= self.digits and size * 10 ** after < 10 ** MOST_DIGITS and most < 2 ** 63

    def made_constant(self):
        rng = self.rng
        after = rng.randint(0, self.digits)
        before = rng.randint(0, max(0, min(MOST_DIGITS - after, DESK_DIGITS - self.most_places())))
        is_below = rng.random() < (0.5 if self.kind in CUT else 0.25)
        text = ("-" if is_below else "") + str(rng.randrange(10 ** before))
        most = min(after, MOST_DIGITS)
        return text + (f".{rng.randrange(10 ** most):0{after}}" if after else "")

    def length(self):
        """A number to which a length is compared."""
        plain = str(self.rng.randint(0, 4))
        text = self.rng.choice([hexadecimal, with_power, with_lines])(self.rng, plain)
        return text if self.rng.random() < 0.2 and not digits_after_point(text) else plain

    # ---- conditions

    def comparison(self):
        """The words of a comparison."""
        rng, place = self.rng, self.rng.choice(self.places)
        if place == "len(result)":
            left, right = ["len", "(", "result", ")"], self.length()
        else:
            left, right = self.looked(place), self.constant()
        left, right = self.bracketed(left), self.bracketed([right])
        if rng.random() < 0.25:
            left, right = right, left
        return [*left, rng.choice(COMPARISONS), *right]

    def looked(self, place):
        """A value, in a function or not."""
        words, chance = self.words_of(place), self.rng.random()
        if self.kind == "null":
            return ["default", "(", *words, ",", self.constant(), ")"]
        if self.kind in CUT and chance < 0.6:
            return ["asInt", "(", *words, ")"]
        is_plain = chance < 0.8 and self.kind not in READ
        return words if is_plain else ["asFloat", "(", *words, ")"]

    def bracketed(self, words):
        return ["(", *words, ")"] if self.rng.random() < 0.12 else words

    def words_of(self, place):
        if place == "result":
            return ["result"]
        number = place[7:-1]
        return ["result", "[", f"0x{number:0>2}" if self.rng.random() < 0.05 and len(number) < 2
                else number, "]"]

    def asked(self):
        """`isNaN` or `isInf` of a place."""
        named = [place for place in self.places if place != "len(result)"]
        if not named:
            return self.comparison()
        is_nan = self.kind == "nan" or self.rng.random() < 0.3
        words = self.words_of(self.rng.choice(named))
        return ["isNaN" if is_nan else "isInf", "(", *words, ")"]

    def atom(self):
        is_asked = self.kind in ("nan", "infinite") and self.rng.random() < 0.4
        return self.asked() if is_asked else self.comparison()

    def negated(self, words):
        """The condition with a sign before it, and brackets where they are needed."""
        sign, is_closed = self.rng.choice(["!", "not"]), words.count("(") == 1
        if words[0] in ("isNaN", "isInf") and is_closed and self.rng.random() < 0.5:
            return [sign, *words]
        return [sign, "(", *words, ")"]

    def condition(self, depth):
        rng = self.rng
        if depth == 0 or rng.random() < 0.25:
            return self.atom()
        kind = rng.randrange(6)
        if kind == 0:
            return self.negated(self.condition(depth - 1))
        if kind == 1:
            return ["(", *self.condition(depth - 1), ")"]
        sign = rng.choice(["||", "or", "&&", "and"])
        return [*self.condition(depth - 1), sign, *self.condition(depth - 1)]

    def spaced(self, words):
        """A text of words, with blanks where they are needed, and mostly where they are not."""
        text = ""
        for word in words:
            is_needed = text[-1:].isalnum() and (word[0].isalnum() or word[0] == ".")
            blank = self.rng.choice([" ", " ", " ", "", "  ", "\t", "\n"])
            text += (blank or " ") if is_needed else blank if text else ""
            text += word
        return text

    def text(self):
        return self.spaced(self.condition(self.rng.randint(0, 3)))

    def metric(self, name):
        kind = self.rng.random()
        success = self.text() if kind < 0.8 else None
        return Metric(name, success, self.text() if kind > 0.6 else None)

    # ---- values

    def number(self):
        """A number at a constant, beside one, far away, or anywhere, or a text of such a number;
        rarely none."""
        rng, kind = self.rng, self.rng.random()
        if kind < 0.04:
            return rng.choice(ANY_WORD) if rng.random() < 0.6 else Fraction(rng.randrange(-9, 10))
        if kind < SHARES.get(self.kind, 0.12):
            return rng.choice(WORDS.get(self.kind, [NAN, *INFINITIES]))
        found = self.decimal(kind)
        return self.in_text(found) if self.kind in READ and rng.random() < TEXTS else found

    def decimal(self, kind):
        rng = self.rng
        if kind < 0.8 and self.constants:
            return self.near(rng.choice(self.constants))
        if kind < 0.9:
            return rng.choice([1, -1]) * Fraction(10) ** rng.randint(-30, 40) * rng.randint(1, 99)
        return Fraction(rng.randrange(-10 ** 9, 10 ** 9), 10 ** rng.randint(0, 12))

    def in_text(self, number):
        """A text of the number, or rarely another one."""
        rng, kind = self.rng, self.rng.random()
        if kind < 0.15:
            return Text(rng.choice(rng.choice([WORD_TEXTS, EDGE_TEXTS, ODD_TEXTS])))
        if self.kind == "cut" and kind < 0.7:
            number = Fraction(math.floor(number))
        text = plain(number)
        if kind > 0.8:
            text = rng.choice([with_power, without_zero, with_point])(rng, text)
        return Text(f"+{text}" if number >= 0 and rng.random() < 0.15 else text)

    def near(self, constant):
        """A number at a constant or beside it, or, where values are cut off, at a whole one."""
        rng = self.rng
        if self.kind in CUT and rng.random() < 0.2:
            return rng.choice(NEAR_ZERO)
        if self.kind in CUT and rng.random() < 0.7:
            constant = Fraction(math.floor(constant) + rng.choice([-1, 0, 0, 1, 1, 2]))
        step = Fraction(rng.choice(STEPS)) / 10 ** rng.choice([*range(14), 17, 18, 20, 25, 30])
        return constant + step

    def value(self):
        rng, is_list = self.rng, self.places != ["result"]
        if rng.random() < 0.02:
            is_list = not is_list
        if not is_list:
            return self.number()
        wanted = len(set(self.places) - {"len(result)"})
        length = rng.choice([wanted] * 6 + [max(0, wanted - 1)] * 2 + [
            wanted + 1, 0, 1, 2, 3, 20])
        return [self.number() for _ in range(length)]


def metric(rng, name, values):
    """A metric with so many values."""
    maker = Maker(rng)
    made = maker.metric(name)
    made.values = [maker.value() for _ in range(values)]
    return made
