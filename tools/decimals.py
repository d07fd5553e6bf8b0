"""Numbers of an instance as the programs keep them, in bounded time and memory, whatever their digits and exponents.

A text is first cut to 60 digits. These hold each number that an instance may have, which is below 10^8 and has 12
decimals. Cutting moves no number across a half of 10^-12, so a number is rounded only once. `plain.py` stands on this
file, which is independent on purpose: `gadvresa.model.exact` is written anew, so the two can't share a fault.
"""
from decimal import ROUND_DOWN, ROUND_HALF_UP, Context, Decimal, Inexact, InvalidOperation, Overflow

COUNT = Decimal(1).scaleb(-12)
CUT = Context(prec=60, rounding=ROUND_DOWN)
ROUNDED = Context(prec=60, rounding=ROUND_HALF_UP)
UNCUT = Context(prec=60, traps=[Inexact, InvalidOperation, Overflow])
# What a whole of an instance is at most.
MOST = 999_999_999


def whole(text):
    """A whole number from 0 to 999,999,999. Raises ArithmeticError or ValueError for any other number."""
    number = UNCUT.create_decimal(text)
    if not 0 <= number <= MOST or number != number.to_integral_value(context=UNCUT):
        raise ValueError(f"{text[:40]!r} is no whole number from 0 to {MOST}")
    return int(number)


def counts(text):
    """A number as the nearest count of 10^-12, halves away from 0. Raises ArithmeticError for one that is too large."""
    return int(ROUNDED.quantize(CUT.create_decimal(text), COUNT).scaleb(12, ROUNDED))
