"""Numbers that people write, as the binary32 numbers that wishes are.

A wish must not shrink: a number that is no binary32 stands for the next one above it, never for one below. So a wish of
whole slots is never a slot short. A number below zero, however near to it, stays below zero and is refused, and one that is
too large for a binary32 stands for the largest there is, which is refused as well.

>>> value_of(bits_of(1.5)), value_of(bits_of("1.5"))
(1.5, 1.5)
>>> value_of(bits_of("0.1")), value_of(bits_of("16777217"))
(0.10000000149011612, 16777218.0)
"""
from __future__ import annotations

import re
import struct
from array import array
from decimal import Decimal
from fractions import Fraction
from typing import Any, NamedTuple, Sequence

LARGEST = 0x7F7F_FFFF  # the largest binary32
SIGN = 0x8000_0000
NOT_A_NUMBER = 0x7FC0_0000
INFINITY = 0x7F80_0000

_DECIMAL = re.compile(r"([+-]?)(?:([0-9]+)(?:\.([0-9]*))?|\.([0-9]+))(?:[eE]([+-]?[0-9]+))?")
_WORD = re.compile(r"([+-]?)(inf(?:inity)?|nan)", re.IGNORECASE)
_LARGEST = 2.0**128 - 2.0**104  # the value of LARGEST
_SPAN = 400  # powers of ten beyond this are far outside of all binary32 numbers


class Single(NamedTuple):
    """The bits of a binary32, and whether they stand for just the number that was given."""

    bits: int
    exact: bool


def value_of(bits: int) -> float:
    """The number that the bits of a binary32 stand for."""
    value: float = struct.unpack("<f", struct.pack("<I", bits))[0]
    return value


def is_number(text: str) -> bool:
    """Whether a text is a number as a wish may be written: decimal digits with a point and an exponent, or nan, or inf.

    >>> [is_number(text) for text in ("2", "-.5e3", "inf", "1,5", "0x10", "")]
    [True, True, True, False, False, False]
    """
    return bool(_DECIMAL.fullmatch(text) or _WORD.fullmatch(text))


def bits_of(number: Any) -> int:
    """The bits of the least binary32 that is not below a number: an int, a float, a Fraction, a Decimal or a text.

    >>> hex(bits_of(1)), hex(bits_of(0.1)), hex(bits_of(-0.0)), hex(bits_of("nan"))
    ('0x3f800000', '0x3dcccccd', '0x80000000', '0x7fc00000')
    """
    return single(number).bits


def single(number: Any) -> Single:
    """The same, and whether the number is that binary32.

    >>> single("0.5").exact, single("0.1").exact
    (True, False)
    """
    if isinstance(number, str):
        return _of_text(number)
    if isinstance(number, Decimal):
        return _of_text(str(number))
    if isinstance(number, (int, Fraction)):
        return _of_exact(Fraction(number))
    return _of_float(float(number))


def bits_of_all(numbers: Sequence[Any]) -> "array[int]":
    """The bits for many numbers at once, in a fraction of the time where they are floats or small whole numbers.

    >>> bits_of_all([1, 0.1]).tolist() == [bits_of(1), bits_of(0.1)]
    True
    """
    try:
        singles = array("f", numbers)
    except (TypeError, OverflowError):
        return array("I", [bits_of(number) for number in numbers])
    bits = array("I", singles.tobytes())
    for k, near in enumerate(singles):
        number = numbers[k]
        if near == number:
            continue
        if isinstance(number, float) and 0 < number and near < _LARGEST:
            bits[k] += near < number  # the nearest is one of the two that the number stands between
        else:
            bits[k] = bits_of(number)
    return bits


def _of_float(number: float) -> Single:
    if number != number:
        return Single(NOT_A_NUMBER, True)
    if number in (float("inf"), float("-inf")):
        return Single(INFINITY if number > 0 else INFINITY | SIGN, True)
    if number == 0:
        return Single(struct.unpack("<I", struct.pack("<f", number))[0], True)
    return _of_exact(Fraction(number))


def _of_text(text: str) -> Single:
    word = _WORD.fullmatch(text)
    if word:
        bits = NOT_A_NUMBER if word[2][0] in "nN" else INFINITY
        return Single(bits | SIGN if word[1] == "-" else bits, True)
    written = _DECIMAL.fullmatch(text)
    if not written:
        raise ValueError(f"{text!r} is no number")
    sign, whole, part, alone, exponent = written.groups("")
    digits = (whole + part + alone).lstrip("0")
    negative = SIGN if sign == "-" else 0
    if not digits:
        return Single(negative, True)
    power = _bounded(exponent) - len(part + alone)
    if len(digits) + power > _SPAN:
        return Single(LARGEST | negative, False)
    if len(digits) + power < -_SPAN:
        return Single(1 | negative, False)
    digits, power = _shortened(digits, power)
    exact = Fraction(int(digits)) * Fraction(10) ** power
    return _of_exact(-exact if negative else exact)


def _bounded(exponent: str) -> int:
    """An exponent, or one far beyond all that matters where it has more digits than anybody needs."""
    digits = exponent.lstrip("+-").lstrip("0")
    size = int(digits or "0") if len(digits) < 10 else 10**9
    return -size if exponent.startswith("-") else size


def _shortened(digits: str, power: int) -> "tuple[str, int]":
    """Digits behind the first thousand tell only whether the number is a little larger, which one last digit tells as well."""
    if len(digits) <= 1_000:
        return digits, power
    kept, rest = digits[:1_000], digits[1_000:]
    return kept + ("1" if rest.strip("0") else "0"), power + len(rest) - 1


def _of_exact(number: Fraction) -> Single:
    """By the definition: the least binary32 that is not below, found from the nearest one."""
    size, negative = abs(number), SIGN if number < 0 else 0
    if size > Fraction(value_of(LARGEST)):
        return Single(LARGEST | negative, False)
    bits = struct.unpack("<I", struct.pack("<f", float(size)))[0]
    while bits and Fraction(value_of(bits)) > size:
        bits -= 1
    exact = Fraction(value_of(bits)) == size
    if negative:  # up is towards zero here, but zero itself would no longer be below zero
        return Single(max(bits, 1) | negative, exact)
    return Single(bits if exact else bits + 1, exact)
