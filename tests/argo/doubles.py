"""What Argo itself says of a value: its numbers have 64 bits, as Go and expr compute with them."""
import functools
import math
from fractions import Fraction

import conditions
from conditions import Meaning, Text


class LeftToProcessor(Exception):
    """What Go leaves to the processor: NaN, an infinity, or 2^63 and more as a whole number."""


@functools.cache
def double(number):
    """The float64 next to a number, as an exact one."""
    return Fraction(float(number))


@functools.cache
def is_shortest(number):
    """Whether a decimal is the shortest one of its float64, which prints as that decimal."""
    return Fraction(repr(float(number))) == number


class Argo(Meaning):
    """What conditions say by these numbers. A value without a number is no failure here."""

    @staticmethod
    def constant(text):
        return double(conditions.exact(text))

    def seen(self, look, value):
        found = super().seen(look, value)
        return double(found) if isinstance(found, Fraction) else found

    @staticmethod
    def whole(value):
        if abs(value) >= 2 ** 63:
            raise LeftToProcessor
        return Fraction(math.trunc(double(value)))

    @staticmethod
    def whole_of_word(word):
        raise LeftToProcessor

    @staticmethod
    def cannot_report(form, value):
        return False

    def phase(self, trees, form, value):
        """The phase, or none if it is left to the processor."""
        try:
            return super().phase(trees, form, value)
        except LeftToProcessor:
            return None


def numbers_in(metric, value):
    """The decimals of a value that are looked at, also those in texts."""
    for one in metric.form.looked_at(value):
        found = metric.form.read(one)
        if isinstance(found, Fraction):
            yield found


def has_shortest(metric, value):
    """Whether each decimal that is looked at is a shortest one. The constants are: they have 15
    digits at most."""
    return all(map(is_shortest, numbers_in(metric, value)))


def has_text(metric, value):
    """Whether a text is reported as a number."""
    return any(isinstance(one, Text) for one in metric.form.looked_at(value)
               ) and not metric.form.cannot_report(value)
