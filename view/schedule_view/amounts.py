"""Amounts of money and power as texts and as whole millionths: micro-dollars and watts."""
from __future__ import annotations

import re
from fractions import Fraction
from typing import Optional, Tuple, Union

MILLION = 1_000_000
# more digits than any amount of an instance, a report or a certificate has
MOST_DIGITS = 38

# watts, and sums of them: fractions where powers are over a denominator
Watts = Union[int, Fraction]

_AMOUNT = re.compile(r"(-?)(0|[1-9][0-9]*)\.([0-9]{6})")
_WHOLE = re.compile(r"0|[1-9][0-9]{0,17}")
_SIGNED = re.compile(r"0|-?[1-9][0-9]{0,17}")
_NUMBER = re.compile(r"(-?)([0-9]+)(?:\.([0-9]+))?(?:[eE]([+-]?[0-9]+))?")


def amount(text: str) -> Optional[int]:
    """The millionths of an amount with exactly six decimals; None where the text is no such amount."""
    parts = _AMOUNT.fullmatch(text)
    if parts is None or len(parts[2]) + 6 > MOST_DIGITS:
        return None
    size = int(parts[2] + parts[3])
    if not parts[1]:
        return size
    return -size if size else None


def whole(text: str) -> Optional[int]:
    """A whole number of at most 18 digits from nought, without leading zeros; None for any other text."""
    return int(text) if _WHOLE.fullmatch(text) else None


def signed(text: str) -> Optional[int]:
    """A whole number of at most 18 digits of any sign, in its one spelling; None for any other text."""
    return int(text) if _SIGNED.fullmatch(text) else None


def over(number: int, denominator: int) -> Watts:
    """A number of parts of a watt."""
    return number if denominator == 1 else Fraction(number, denominator)


def thousandths(millionths: Watts) -> int:
    """The nearest whole thousandths of a millionth, half away from nought."""
    return nearest(Fraction(millionths) / 1000)


def _decimals(millionths: Watts) -> Tuple[int, str]:
    """The whole part of an amount from nought, and its decimals: six, and of a fraction nine, the last one rounded."""
    if isinstance(millionths, int):
        return millionths // MILLION, f"{millionths % MILLION:06}"
    whole, rest = divmod(thousandths(millionths), 1000 * MILLION)
    return whole, f"{rest:09}"


def amount_text(millionths: Watts) -> str:
    """An amount as reports print it, with six decimals, or with nine where there are parts of a millionth."""
    whole, decimals = _decimals(abs(millionths))
    return f"{'-' if millionths < 0 else ''}{whole}.{decimals[:6]}{decimals[6:].rstrip('0')}"


def short_text(millionths: Watts) -> str:
    """An amount with its thousands parted by commas and without zeros at its end, for a reader's eye."""
    whole, decimals = _decimals(abs(millionths))
    decimals = decimals.rstrip("0")
    return f"{'-' if millionths < 0 else ''}{whole:,}{'.' + decimals if decimals else ''}"


def dollars_text(micros: int) -> str:
    """An amount of money for a reader's eye."""
    return f"{'-' if micros < 0 else ''}${short_text(abs(micros))}"


def nearest(value: Fraction) -> int:
    """The whole millionths nearest to a fraction, half away from nought."""
    scaled = abs(value) * MILLION
    size = (2 * scaled.numerator + scaled.denominator) // (2 * scaled.denominator)
    return -size if value < 0 else size


def nearest_text(value: Fraction) -> str:
    """A fraction rounded to six decimals, as `short_text` shows it."""
    return short_text(nearest(value))


def gap_parts(cost: int, bound: int) -> Optional[int]:
    """Cost less bound in parts per million of the cost, rounded up; None where the cost alone is 0.

    An answer is closed where these are at most the gap that was asked for.
    """
    if not cost:
        return 0 if bound == cost else None
    return -((bound - cost) * MILLION // abs(cost))


def scaled(text: str) -> Optional[Tuple[int, bool]]:
    """A JSON number as the nearest whole millionths, half away from nought, and whether it was rounded.

    None where the number has more than 20 digits before its seventh decimal, which is past every limit.
    """
    parts = _NUMBER.fullmatch(text)
    assert parts is not None, "the JSON reader hands on numbers alone"
    decimals = parts[3] or ""
    digits = (parts[2] + decimals).lstrip("0")
    # (the power of ten that makes millionths of the digits)
    shift = _exponent(parts[4] or "0") - len(decimals) + 6
    kept = len(digits) + shift
    if not digits or kept < 0:
        return 0, bool(digits)
    if kept > 20:
        return None
    size = int(digits[:kept] or "0") * 10 ** max(shift, 0)
    dropped = digits[kept:]
    size += dropped[:1] >= "5"
    return (-size if parts[1] else size), bool(dropped.strip("0"))


def _exponent(text: str) -> int:
    """An exponent, held within 10^9 in size."""
    if len(text.lstrip("+-0")) > 9:
        return -(10**9) if text.startswith("-") else 10**9
    return int(text)
