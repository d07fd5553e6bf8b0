"""Scores, the costs that they stand for, and gaps in percent: exact, and as they are shown."""
from __future__ import annotations

import math
from fractions import Fraction
from typing import Optional, Union

from .exact import SCORES


def cost_of(score: int, periods: int) -> Fraction:
    """The cost that a score or a bound stands for, exactly.

    >>> float(cost_of(1500000000000000000, 3))
    0.5
    """
    return Fraction(score, SCORES * periods)


def percent_of(part: int, whole: int) -> Optional[Fraction]:
    """A part in percent of a whole: 0 for no part, and None for a whole that isn't above 0."""
    if part == 0:
        return Fraction(0)
    return Fraction(100 * part, whole) if whole > 0 else None


def gap_of(score: Optional[int], bound: Optional[int]) -> Optional[Fraction]:
    """How far a score is above a bound, in percent of the score; None where that says nothing.

    >>> gap_of(4, 3), gap_of(3, 4), gap_of(-1, -2), gap_of(None, 3)
    (Fraction(25, 1), Fraction(0, 1), None, None)
    """
    return None if score is None or bound is None else percent_of(max(0, score - bound), score)


def cost_shown(score: int, periods: Optional[int]) -> str:
    """A score as a cost, rounded down to six decimals; or itself in multiples of 10^18, where the periods aren't known.

    >>> cost_shown(1500000000000000000, 3), cost_shown(-1, 1)
    ('0.500000', '-0.000001')
    """
    return decimal(cost_of(score, periods or 1), 6)


def gap_shown(gap: Optional[Fraction], decimals: int) -> str:
    """A gap, rounded up.

    >>> gap_shown(Fraction(1, 3), 2), gap_shown(None, 2)
    ('0.34', '-')
    """
    return "-" if gap is None else decimal(gap, decimals, up=True)


def decimal(number: Union[int, Fraction], decimals: int, up: bool = False) -> str:
    """A number with so many decimals, rounded down, or up."""
    count = math.ceil(number * 10 ** decimals) if up else math.floor(number * 10 ** decimals)
    sign, size = "-" if count < 0 else "", abs(count)
    return f"{sign}{size // 10 ** decimals}.{size % 10 ** decimals:0{decimals}}"
