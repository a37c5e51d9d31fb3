"""Numbers as the fractions that their decimals say, and back to floats, rounded down."""
from __future__ import annotations

import math
import re
import struct
from fractions import Fraction
from typing import SupportsFloat, SupportsIndex, Union

from .errors import RosError

Number = Union[SupportsFloat, SupportsIndex, str]  # a Fraction and numbers of numpy too
LONGEST_NUMBER = 400  # characters; what a float is written as is below it
HUGE = re.compile(r"[eE][+-]?0*[1-9]\d{3}")  # an exponent that takes forever


def exact(number: Number) -> Fraction:
    """A number as the fraction that its decimals say: 0.05 is 1/20, and not the double next to it.
    """
    if isinstance(number, Fraction):
        return number
    word = str(number).strip()
    if len(word) > LONGEST_NUMBER or "_" in word or HUGE.search(word):
        raise RosError(f"'{word[:40]}' is no number of a map")
    try:
        return Fraction(word)
    except (ValueError, ZeroDivisionError):
        raise RosError(f"'{number}' is no number") from None


def _stepped(number: float, steps: int) -> float:
    """The float that many steps after one from 0 on."""
    (bits,) = struct.unpack("<q", struct.pack("<d", number))
    (found,) = struct.unpack("<d", struct.pack("<q", bits + steps))
    return float(found)


def float_below(number: Fraction) -> float:
    """The greatest float that isn't above a number from 0 on."""
    near = float(number)
    return near if Fraction(near) <= number else _stepped(near, -1)


def root_float_below(square: Fraction, less: Fraction = Fraction(0)) -> float:
    """The greatest float that isn't above the root of a number, less another, both from 0 on; 0 if
    that is below 0."""
    if less * less >= square:
        return 0.0
    number, parts = square.numerator, square.denominator
    digits = max(256 - (number.bit_length() - parts.bit_length()) // 2, 0)
    root = Fraction(math.isqrt((number << 2 * digits) // parts), 1 << digits)
    found = float_below(max(root - less, Fraction(0)))
    while (Fraction(_stepped(found, 1)) + less) ** 2 <= square:
        found = _stepped(found, 1)
    return found


def root_below(number: int) -> Fraction:
    """The square root of a whole number, rounded down to a billionth."""
    return Fraction(math.isqrt(number * 10**18), 10**9)
