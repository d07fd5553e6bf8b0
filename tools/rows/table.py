"""Rows of `table`: periods of a plan."""
from __future__ import annotations

from . import texts as t
from .case import PLANNER, Call, Case, case, lines


def reported(what: str, instance: bytes, plan: bytes, words: str, status: int, said: bytes) -> Case:
    return case(what, {"I": instance, "P": plan}, Call(PLANNER, f"table {words}", status, said))


def both(limits: str) -> bytes:
    """Both in the first period."""
    return lines("period 1 scenarios 2 rank 1", "risk 3.000000000000 3.000000000000 5.000000000000",
                 "mean 4.000000000000 4.000000000000", f"excess {t.NOTHING}", f"load c 12.000000000000 {limits}",
                 "run I1 1 1 1 2.000000000000 2.000000000000", "run I2 1 1 1 2.000000000000 2.000000000000", "end 1",
                 "rounded 0")


FIRST = ("period 1 scenarios 2 rank 1", "risk 1.000000000000 1.000000000000 3.000000000000",
         "mean 2.000000000000 2.000000000000", f"excess {t.NOTHING}",
         "load c 6.000000000000 0.000000000000 10.000000000000 fits", "run I1 1 1 1 2.000000000000 2.000000000000")
# The other one works alone; nothing is at work past the horizon.
SECOND = ("period 2 scenarios 2 rank 1", "risk 0.000000000000 0.000000000000 4.000000000000",
          "mean 2.000000000000 2.000000000000", f"excess {t.NOTHING}",
          "load c 6.000000000000 0.000000000000 10.000000000000 fits", "run I2 2 1 1 2.000000000000 2.000000000000")
CLASH = lines("period 2 scenarios 2 rank 1", "risk 5.000000000000 5.000000000000 9.000000000000",
              "mean 7.000000000000 7.000000000000", f"excess {t.NOTHING}",
              "load c 12.000000000000 0.000000000000 12.000000000000 fits",
              "run I1 2 1 1 5.000000000000 5.000000000000", "run I2 2 1 1 2.000000000000 2.000000000000", "clash E",
              "end 1", "rounded 0")

CASES = [
    reported("the first period", t.BANDED, t.APART, "I P 1 1 slack=0", 0, lines(*FIRST, "end 1", "rounded 0")),
    reported("all periods", t.BANDED, t.APART, "I P 1 512 slack=0", 0, lines(*FIRST, *SECOND, "end 2", "rounded 0")),
    reported("an exclusion that is broken", t.WINTER, t.LATER, "I P 2 9 slack=0", 0, CLASH),
    reported("periods past the horizon", t.BANDED, t.APART, "I P 5 9 slack=0", 0, lines("end 0", "rounded 0")),
    reported("a load above its limit", t.TIGHT, t.TOGETHER, "I P 1 1 slack=0", 0,
             both("0.000000000000 11.999500000000 over")),
    reported("limits that are widened by just enough", t.TIGHT, t.TOGETHER, "I P 1 1 slack=0.0005", 0,
             both("-0.000500000000 12.000000000000 fits")),
    reported("a missing start", t.BANDED, b"I1 1\n", "I P 5 9 slack=0", 1, t.infeasible("S1 I2")),
    reported("a fault of the instance, and no plan", b"[]", b"x", "I none 1 1", 3, lines("refused instance shape 0")),
    reported("no instance", t.BANDED, b"x", "none P 1 1", 7, lines("refused read 2")),
    reported("`-` is the name of a file as any other", t.BANDED, b"x", "I - 1 1", 7, lines("refused read 3")),
    reported("a fault of the plan", t.BANDED, b"x", "I P 1 1", 4, lines("refused plan bad line 1")),
    reported("a folder in place of a plan", t.BANDED, b"x", "I . 1 1", 7, lines("refused read 3")),
    case("a table that can't be said", {"I": t.BANDED, "P": t.APART},
         Call(PLANNER, "table I P 1 2", 8, b"", is_full=True)),
]
