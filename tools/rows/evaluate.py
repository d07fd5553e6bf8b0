"""Rows of `evaluate`: reports, limits that are widened, and which file is refused first."""
from __future__ import annotations

from . import texts as t
from .case import PLANNER, Call, Case, case, lines


def judged(what: str, instance: bytes, plan: bytes, status: int, said: bytes, words: str = "evaluate I P") -> Case:
    return case(what, {"I": instance, "P": plan}, Call(PLANNER, words, status, said))


# Of two scenarios in a period the quantile 0.95 is the greater one: 3 and 4, above the means 2 and 2.
STEEP = t.feasible("3500000000000000000", "1.750000000000 1.750000000000", "2.000000000000 2.000000000000",
                   "1.500000000000 1.500000000000")
SURE = t.feasible("2000000000000000000", "1.000000000000 1.000000000000", "1.000000000000 1.000000000000", t.NOTHING)
# The mean is -5/3, and the greatest risk -1.
NEGATIVE = t.feasible("-1666666666666666667", "-1.666666666667 -1.666666666666", "-1.666666666667 -1.666666666666",
                      "0.666666666666 0.666666666667")
EMPTY = t.feasible("0", t.NOTHING, t.NOTHING, t.NOTHING)
# The means are 6, 7 and 1, the quantiles 8, 9 and 1.5.
LOOSE = t.feasible("9250000000000000000", "3.083333333333 3.083333333334", "4.666666666666 4.666666666667",
                   "1.500000000000 1.500000000000")
ROUNDED = t.feasible("1500000000000500000", "1.499999999999 1.500000000002", "1.999999999999 2.000000000002",
                     "0.999999999999 1.000000000002", rounded=1)


def over(upper: str) -> bytes:
    return t.infeasible(f"B1 c 1 12.000000000000 {upper}")


REPORTS = [
    judged("a plan without limits", t.PLAIN, t.APART, 0, t.PLAIN_REPORT),
    judged("a plan within limits", t.BANDED, t.APART, 0, t.PLAIN_REPORT),
    judged("an exclusion that is kept", t.EXCLUDED, t.APART, 0, t.PLAIN_REPORT),
    judged("a load above its limit", t.BANDED, t.TOGETHER, 1, t.OVER),
    judged("an exclusion that is broken", t.EXCLUDED, t.TOGETHER, 1, t.infeasible("X1 e 1")),
    judged("blanks, an empty line, and no line feed at the end", t.PLAIN, b"I1   1  \n\nI2 2", 0, t.PLAIN_REPORT),
    judged("a high quantile", t.STEEP, t.APART, 0, STEEP),
    judged("one scenario a period", t.SURE, t.APART, 0, SURE),
    judged("risks below 0", t.NEGATIVE, b"I1 1\n", 0, NEGATIVE),
    judged("no intervention", t.EMPTY, b"", 0, EMPTY),
    judged("numbers as texts and with a point", t.LOOSE, b"I1 1\nI2 3\n", 0, LOOSE),
    judged("a risk of 13 decimals", t.ROUNDED, b"I1 1\n", 0, ROUNDED),
    judged("a start that is missing", t.SURE, b"I1 1\n", 1, t.infeasible("S1 I2")),
    judged("a start out of range", t.PLAIN, b"I2 3\nI1 1\n", 1, t.infeasible("S2 I2 3")),
    judged("a start that runs past the horizon", t.LATE, b"I1 2\nI2 1\n", 1, t.infeasible("S3 I1 2")),
    judged("a missing start where another one runs past the horizon", t.LATE, b"I1 1\n", 1, t.infeasible("S1 I2")),
]

SLACKS = [
    judged(f"both just too much, {slack}", t.TIGHT, t.TOGETHER, status, said, f"evaluate I P {slack}")
    for slack, status, said in (
        ("slack=0", 1, over("11.999500000000")),
        ("slack=0.0004", 1, over("11.999900000000")),
        ("slack=0.000499999999", 1, over("11.999999999999")),
        ("slack=0.0005", 0, t.PLAIN_REPORT),
        ("slack=0.001", 0, t.PLAIN_REPORT),
    )
]

FILES = [
    judged("no instance", t.PLAIN, t.APART, 7, lines("refused read 2"), "evaluate I0 P"),
    judged("no plan", t.PLAIN, t.APART, 7, lines("refused read 3"), "evaluate I P0"),
    judged("an instance with a fault before a plan that isn't there", b"", t.APART, 3,
           lines("refused instance syntax 0"), "evaluate I P0"),
    judged("an intervention twice in a plan", t.PLAIN, b"I1 1\nI1 2\n", 4, lines("refused plan twice 2")),
    judged("an unknown name in a plan", t.PLAIN, b"I3 1\n", 4, lines("refused plan unknown name 1")),
    judged("a bad line in a plan", t.PLAIN, b"\nI1 one\n", 4, lines("refused plan bad line 2")),
    judged("a plan above the longest", t.EMPTY, b" " * ((1 << 24) + 1), 4, lines("refused plan too long")),
    judged("a plan as long as the longest", t.EMPTY, b" " * (1 << 24), 0, EMPTY),
    judged("a folder in place of an instance", t.PLAIN, t.APART, 7, lines("refused read 2"), "evaluate . P"),
    judged("a folder in place of a plan", t.PLAIN, t.APART, 7, lines("refused read 3"), "evaluate I ."),
]

UNSAID = [
    case(what, {"I": t.PLAIN, "P": t.APART}, Call(PLANNER, words, 8, b"", is_full=True))
    for what, words in (
        ("a report that can't be said", "evaluate I P"),
        ("words that are refused, which can't be said", "x"),
        ("a file that can't be read, which can't be said", "evaluate none P"),
        ("a rehearsal that can't be said", "rehearse 0 1"),
    )
]

CASES = [*REPORTS, *SLACKS, *FILES, *UNSAID]
