"""Words that stand for whole values, so that the engine compares these as Elasticsearch does.

A text that is compared whole becomes one word of hexadecimal digits: words compare by bytes, and begin alike, as the
texts do. A number becomes one of as many digits as any other, smaller numbers first.
"""

from __future__ import annotations

import struct
from decimal import Decimal, InvalidOperation
from math import ceil, floor, isinf, isnan
from typing import Any

BITS = {"byte": 8, "short": 16, "integer": 32, "long": 64}
_HALF = 1 << 63
_DIGITS = "016x"


class Unfit(ValueError):
    """A value is not of its field's type."""


def keyword_word(text: str) -> str:
    """The word of a text that is compared whole."""
    return "k" + text.encode().hex()


def truth_word(value: Any) -> str:
    """The word of true or false, which may also be given as a text, where the empty one is false."""
    if value in (True, "true"):
        return "true"
    if value in (False, "false", ""):
        return "false"
    raise Unfit(f"[{value}] is neither true nor false")


def decimal_of(value: Any) -> Decimal:
    """A number, which may be given as a text."""
    if isinstance(value, bool) or not isinstance(value, (int, float, str)):
        raise Unfit(f"[{value}] is no number")
    try:
        number = Decimal(str(value).strip())
    except InvalidOperation:
        raise Unfit(f"[{value}] is no number") from None
    if not number.is_finite() or abs(number.adjusted()) > 400:
        raise Unfit(f"[{value}] is no number that is served")
    return number


def within(number: int, kind: str) -> int:
    """A whole number, which has to be one of this type."""
    half = 1 << (BITS[kind] - 1)
    if not -half <= number < half:
        raise Unfit(f"[{number}] is out of range for a {kind}")
    return number


def integer_word(number: int) -> str:
    """The word of a whole number of up to 64 bits."""
    return "n" + format(number + _HALF, _DIGITS)


def floating(number: Decimal, kind: str) -> float:
    """The number of the type nearest to a number."""
    value = float(number)
    if kind == "float":
        try:
            value = struct.unpack(">f", struct.pack(">f", value))[0]
        except OverflowError:
            raise Unfit(f"[{number}] is out of range for a float") from None
    if isinf(value) or isnan(value):
        raise Unfit(f"[{number}] is out of range for a {kind}")
    return value


def floating_word(value: float) -> str:
    """The word of a number of the type double."""
    bits = struct.unpack(">Q", struct.pack(">d", value))[0]
    return "n" + format(bits ^ ((1 << 64) - 1) if bits & _HALF else bits | _HALF, _DIGITS)


def least_whole(number: Decimal, is_included: bool) -> int:
    """The least whole number from a low end on."""
    return ceil(number) if is_included else floor(number) + 1


def most_whole(number: Decimal, is_included: bool) -> int:
    """The greatest whole number up to a high end."""
    return floor(number) if is_included else ceil(number) - 1
