"""Mistakes, of what is meant and of what is reported, that the comparison of pairs.py must find."""
import math
from fractions import Fraction

import conditions
from conditions import (
    INFINITE, INFINITIES, MINUS_INFINITE, MOST, NAN, NULL, NUMBERS, Fault, Form, Meaning, Text,
    number_of_word)


# ---- of what is meant

def with_zero(value, is_left_out):
    """A value with 0 in place of what is left out."""
    if isinstance(value, list):
        return [Fraction(0) if is_left_out(one) else one for one in value]
    return Fraction(0) if is_left_out(value) else value


class GreaterForAtLeast(Meaning):
    """`>=` read as `>`."""

    @staticmethod
    def compares(left, sign, right):
        return conditions.compared(left, ">" if sign == ">=" else sign, right)


class RoundedConstant(Meaning):
    """Constants with three digits after the point."""

    @staticmethod
    def constant(text):
        return round(conditions.exact(text), 3)


class BothSides(Meaning):
    """Both sides of && and || looked at."""

    def joined(self, tree, value):
        left, right = self.says(tree[1], value), self.says(tree[2], value)
        return left or right if tree[0] == "or" else left and right


class OrBeforeAnd(Meaning):
    """|| and && mixed up."""

    def joined(self, tree, value):
        return super().joined(("and" if tree[0] == "or" else "or", *tree[1:]), value)


class NotANumberCompared(Meaning):
    """NaN compared, where `asInt` stands beside."""

    @staticmethod
    def cannot_report(form, value):
        return form.cannot_report(with_zero(value, lambda one: one == NAN))


class NotANumberAFailure(Meaning):
    """NaN a failure, where nothing asks for it."""

    @staticmethod
    def cannot_report(form, value):
        is_asked = form.letter in ("i", "s") or "isNaN" in form.functions
        return form.cannot_report(value) or (not is_asked and NAN in form.looked_at(value))


class InfinityAFailure(Meaning):
    """An infinity a failure, where nothing asks for it."""

    @staticmethod
    def cannot_report(form, value):
        is_asked = form.letter in ("i", "s")
        has_one = any(one in INFINITIES for one in form.looked_at(value))
        return form.cannot_report(value) or (not is_asked and has_one)


class TextAFailure(Meaning):
    """A text a failure, whatever function stands round it."""

    @staticmethod
    def cannot_report(form, value):
        has_one = any(isinstance(one, Text) for one in form.looked_at(value))
        return form.cannot_report(value) or has_one


class TextCutOff(Meaning):
    """`asInt` of a text the number in it, cut off."""

    @staticmethod
    def cannot_report(form, value):
        reading = Form(())
        reading.__dict__.update(form.__dict__, letter="t" if form.letter == "w" else form.letter)
        return reading.cannot_report(value)

    @staticmethod
    def in_text(text, function):
        return conditions.in_text(text, function and "asFloat")


class TextIsZero(Meaning):
    """A text that is no number as 0."""

    @staticmethod
    def cannot_report(form, value):
        return form.cannot_report(with_zero(value, lambda one: isinstance(one, Text)))

    @staticmethod
    def in_text(text, function):
        try:
            return conditions.in_text(text, function)
        except Fault:
            return Fraction(0)


class NotANumberBelow(Meaning):
    """NaN less than each number, as its number is."""

    @staticmethod
    def compares(left, sign, right):
        return conditions.compared(MINUS_INFINITE if left == NAN else left, sign, right)


class InfinityNotANumber(Meaning):
    """An infinity taken for NaN."""

    @staticmethod
    def compares(left, sign, right):
        return conditions.compared(NAN if left in INFINITIES else left, sign, right)

    @staticmethod
    def asked(function, found):
        return Meaning.asked(function, NAN if found in INFINITIES else found)


class InfinityAboveAlone(Meaning):
    """`isInf` of the infinity above 0 alone."""

    @staticmethod
    def asked(function, found):
        return Meaning.asked(function, Fraction(0) if found == MINUS_INFINITE else found)


class InfinityWithoutSign(Meaning):
    """The infinity below 0 above each number."""

    @staticmethod
    def compares(left, sign, right):
        return conditions.compared(INFINITE if left == MINUS_INFINITE else left, sign, right)


class AsIntDropped(Meaning):
    """`asInt` of a number that number."""

    @staticmethod
    def whole(value):
        return value


class AsIntFloored(Meaning):
    """`asInt` of a number below 0 rounded down."""

    @staticmethod
    def whole(value):
        return Fraction(math.floor(value))


class AsIntRounded(Meaning):
    """`asInt` of a number the nearest whole one."""

    @staticmethod
    def whole(value):
        return Fraction(round(value))


class NullIsZero(Meaning):
    """Null taken as 0 without `default`."""

    def phase(self, trees, form, value):
        if form.letter == "s":
            return super().phase(trees, form, value)
        return super().phase(trees, form, with_zero(value, lambda one: one == NULL))


class DefaultDropped(Meaning):
    """`default` of null that."""

    def instead(self, number):
        return NULL


class DefaultOfZero(Meaning):
    """`default` of null 0, whatever the number."""

    def instead(self, number):
        return Fraction(0)


class DefaultOfNotANumber(Meaning):
    """`default` of NaN the number."""

    def seen(self, look, value):
        found = super().seen(look, value)
        return self.constant(look.number) if look.number and found == NAN else found


class HexadecimalAsDecimal(Meaning):
    """The digits of a hexadecimal number as those of a decimal one."""

    @staticmethod
    def constant(text):
        if not conditions.is_hexadecimal(text):
            return conditions.exact(text)
        total = 0
        for digit in text.replace("_", "").lstrip("-")[2:]:
            total = total * 10 + int(digit, 16)
        return Fraction(-total if text[0] == "-" else total)


class HexadecimalWithoutSign(Meaning):
    """A hexadecimal number without its sign."""

    @staticmethod
    def constant(text):
        return conditions.exact(text.lstrip("-") if conditions.is_hexadecimal(text) else text)


class PowerWithoutSign(Meaning):
    """An exponent without its sign."""

    @staticmethod
    def constant(text):
        is_decimal = not conditions.is_hexadecimal(text)
        return conditions.exact(
            text.replace("e-", "e").replace("E-", "e") if is_decimal else text)


class PowerLeftOut(Meaning):
    """A number without its exponent."""

    @staticmethod
    def constant(text):
        if conditions.is_hexadecimal(text):
            return conditions.exact(text)
        return conditions.exact(text.lower().partition("e")[0])


class DigitsUpToLine(Meaning):
    """A number up to its first `_`."""

    @staticmethod
    def constant(text):
        return conditions.exact(text.partition("_")[0])


MEANINGS = (GreaterForAtLeast, RoundedConstant, BothSides, OrBeforeAnd, NotANumberCompared,
            NotANumberAFailure, InfinityAFailure, TextAFailure, TextCutOff, TextIsZero,
            NotANumberBelow, InfinityNotANumber, InfinityAboveAlone, InfinityWithoutSign,
            AsIntDropped, AsIntFloored, AsIntRounded, NullIsZero, DefaultDropped, DefaultOfZero,
            DefaultOfNotANumber, HexadecimalAsDecimal, HexadecimalWithoutSign, PowerWithoutSign,
            PowerLeftOut, DigitsUpToLine)


# ---- of what is reported

def floored(value, places):
    """The floor of a value: a constant may be reached from above alone."""
    return max(-MOST, min(MOST, value.numerator * 10 ** places // value.denominator))


def cut_off(value, places):
    """Cut off towards 0, with a last digit of 0."""
    number = min(MOST, abs(value).numerator * 10 ** places // value.denominator)
    return -number if value < 0 else number


def with_a_place_less(value, places):
    return conditions.multiple(value, places - 1)


def without_a_limit(value, places):
    """Beyond the greatest number, the next one."""
    number = conditions.multiple(value, places)
    return number if abs(number) < MOST else -number // abs(number)


def up_to_infinity(value, places):
    """Beyond the greatest number, what stands for an infinity."""
    number = conditions.multiple(value, places)
    if abs(number) < MOST:
        return number
    return NUMBERS[INFINITE] if number > 0 else NUMBERS[MINUS_INFINITE]


def infinity_as_nan(word, letter):
    return number_of_word(NAN if word in INFINITIES else word, letter)


def infinity_as_most(word, letter):
    return {INFINITE: MOST, MINUS_INFINITE: -MOST}.get(word) or number_of_word(word, letter)


def infinity_within(word, letter):
    """An infinity as a number that a constant may reach."""
    number = number_of_word(word, letter)
    return number // 10 if word in INFINITIES else number


def nan_as_infinity(word, letter):
    return number_of_word(INFINITE if word == NAN else word, letter)


def null_as_nan(word, letter):
    return number_of_word(NAN if word == NULL else word, letter)


def null_as_zero(word, letter):
    return 0 if word == NULL else number_of_word(word, letter)


DECIMALS = (floored, cut_off, with_a_place_less, without_a_limit, up_to_infinity)
WORDS = (infinity_as_nan, infinity_as_most, infinity_within, nan_as_infinity, null_as_nan,
         null_as_zero)


def with_mistake(mistake):
    """What is reported of a value, with a mistake in decimals, or in words."""
    def number_of(value, form):
        if isinstance(value, Fraction) != (mistake in DECIMALS):
            return conditions.number_of(value, form)
        return mistake(value, form.places if mistake in DECIMALS else form.letter)

    return number_of
