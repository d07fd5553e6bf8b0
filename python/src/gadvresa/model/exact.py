"""Numbers as the programs print them, which are exact, with floats beside them."""
from __future__ import annotations

import re
from dataclasses import dataclass
from decimal import ROUND_DOWN, ROUND_HALF_UP, Context, Decimal, Inexact, InvalidOperation, Overflow
from fractions import Fraction
from typing import Union

# How many counts a unit has: every load, limit and risk is kept as a whole number of them.
COUNTS = 10 ** 12
# How many units of a score a cost of 1 in one period has.
SCORES = 10 ** 18

DECIMAL = re.compile(r"-?(?:0|[1-9][0-9]*)\.[0-9]{12}")
WHOLE = re.compile(r"-?(?:0|[1-9][0-9]*)")
# How numbers of an instance are read in bounded time and memory, whatever their digits and exponents. They are cut to
# more digits than such a number may have, and rounded once; a whole must lose nothing.
COUNT = Decimal(1).scaleb(-12)
CUT = Context(prec=60, rounding=ROUND_DOWN)
ROUNDED = Context(prec=60, rounding=ROUND_HALF_UP)
UNCUT = Context(prec=60, traps=[Inexact, InvalidOperation, Overflow])
# What a whole of an instance is at most, and what a number of it is below in size, in counts.
MOST, TOO_LARGE = 999_999_999, 10 ** 20
# What a slack may be given as.
Slack = Union[None, str, int, float, Decimal, Fraction]


@dataclass(frozen=True)
class Range:
    """A value that is at least `low` and at most `high`, both exact; they differ where 12 decimals aren't enough.

    >>> cost = Range(Fraction("1.416666666666"), Fraction("1.416666666667"))
    >>> print(cost)
    1.416666666666 to 1.416666666667
    >>> float(cost)
    1.4166666666665
    >>> Fraction(17, 12) in cost
    True
    """

    low: Fraction
    high: Fraction

    @property
    def middle(self) -> Fraction:
        """The middle of the two, which is off by no more than half their distance."""
        return (self.low + self.high) / 2

    def __float__(self) -> float:
        return float(self.middle)

    def __contains__(self, value: object) -> bool:
        return isinstance(value, (int, float, Decimal, Fraction)) and self.low <= value <= self.high

    def __str__(self) -> str:
        return shown(self.low) if self.low == self.high else f"{shown(self.low)} to {shown(self.high)}"


def shown(number: Fraction) -> str:
    """A number with 12 decimals, which it has at most.

    >>> shown(Fraction(5, 4))
    '1.250000000000'
    """
    count = number * COUNTS
    if count.denominator != 1:
        raise ValueError(f"{number} has more than 12 decimals")
    size = abs(int(count))
    return f"{'-' if count < 0 else ''}{size // COUNTS}.{size % COUNTS:012}"


def decimal_of(word: str) -> Fraction:
    """The number that is printed with 12 decimals."""
    if not DECIMAL.fullmatch(word):
        raise ValueError(f"{word!r} is no number with 12 decimals")
    return Fraction(word)


def whole_of(word: str) -> int:
    """The whole number that is printed."""
    if not WHOLE.fullmatch(word):
        raise ValueError(f"{word!r} is no whole number")
    return int(word)


def counted(text: str) -> int:
    """A number of an instance as the programs keep it: the nearest count of 10^-12, halves away from 0.

    Raises ArithmeticError or ValueError for a text that is none, and for a number of 10^8 or more in size.

    >>> counted("1.5"), counted("-5e-13"), counted("1e-1000000000")
    (1500000000000, -1, 0)
    """
    count = int(ROUNDED.quantize(CUT.create_decimal(text), COUNT).scaleb(12, ROUNDED))
    if not abs(count) < TOO_LARGE:
        raise ValueError(f"{text:.40} is 10^8 or more in size")
    return count


def kept(text: str) -> Fraction:
    """The number of `counted` in its own unit. It raises as that does.

    >>> kept("0.1234567890123456"), kept("1e-1000000000")
    (Fraction(30864197253, 250000000000), Fraction(0, 1))
    """
    return Fraction(counted(text), COUNTS)


def kept_whole(text: str) -> int:
    """A whole number of an instance, from 0 to 999,999,999. Raises ArithmeticError or ValueError for any other text.

    >>> kept_whole("1e3")
    1000
    """
    number = UNCUT.create_decimal(text)
    if not 0 <= number <= MOST or number != number.to_integral_value(context=UNCUT):
        raise ValueError(f"{text:.40} is no whole number from 0 to {MOST}")
    return int(number)


def slack_word(slack: Slack) -> str:
    """The word for a slack: a number from 0 to 0.001 with at most 12 decimals. A float counts as it is printed.

    >>> slack_word(1e-05)
    'slack=0.00001'
    >>> slack_word("0.0010")
    'slack=0.001'
    """
    try:
        value = Fraction(repr(slack) if isinstance(slack, float) else 0 if slack is None else slack)
    except (InvalidOperation, TypeError, ValueError, OverflowError):
        raise ValueError(f"a slack is a number from 0 to 0.001, and not {slack!r}") from None
    if isinstance(slack, bool) or not 0 <= value <= Fraction(1, 1000) or (value * COUNTS).denominator != 1:
        raise ValueError(f"a slack is from 0 to 0.001, with at most 12 decimals, and not {slack!r}")
    text = shown(value).rstrip("0").rstrip(".")
    return f"slack={text}"
