"""Rows of `repair` and `audit`: plans with few changes, and certificates of how few there are."""
from __future__ import annotations

from . import texts as t
from .case import ANY, REPAIR, Call, Case, OneOf, Text, around, case, lines

WORDS = "repair I P C O 3"


def repaired(what: str, plan: bytes, changed: int, new_plan: Text) -> Case:
    """A repair with as few changes as there are, whose certificate is then accepted."""
    return case(what, {"I": t.SURE_BANDED, "P": plan},
                Call(REPAIR, WORDS, 0, around(lines("plan repaired", f"changed {changed}", f"least {changed}")
                                              + b"splits ", b"\nrounded 0\n"), {"C": ANY, "O": new_plan}),
                Call(REPAIR, "audit I P C", 0, lines("accepted", f"least {changed}", "rounded 0")))


REPAIRS = [
    repaired("one start of two is changed", t.TOGETHER, 1, OneOf((t.APART, t.TURNED))),
    repaired("a feasible plan is not changed", t.APART, 0, t.APART),
    repaired("without old starts all are changed", b"", 2, OneOf((t.APART, t.TURNED))),
    case("no plan exists without a start", {"I": t.STARTLESS, "P": b""},
         Call(REPAIR, "repair I P C O 5", 10, lines("no plan exists", "splits 0", "rounded 0"), {"C": t.NO_START}),
         Call(REPAIR, "audit I P C", 0, lines("accepted", "least none", "rounded 0"))),
    case("without turns nothing is found", {"I": t.SURE_BANDED, "P": t.TOGETHER},
         Call(REPAIR, "repair I P C O 0", 9, lines("nothing found", "least 0", "splits 0", "rounded 0"), {"C": ANY})),
]

# The tree bounds changes from both at once by 1; a bound is rounded up to whole changes.
AUDITS = [
    case(f"a bound of {bound}",
         {"I": t.SURE_BANDED, "P": t.TOGETHER, "C": lines("mpcert 1", f"bound {bound}", *t.TREE)},
         Call(REPAIR, "audit I P C", status, lines(*said)))
    for bound, status, said in (
        ("1000000000000000000", 0, ("accepted", "least 1", "rounded 0")),
        ("1", 0, ("accepted", "least 1", "rounded 0")),
        ("1000000000000000001", 5, ("refused certificate leaf 2",)),
        ("2000000000000000000", 5, ("refused certificate leaf 2",)),
        ("-1", 0, ("accepted", "least 0", "rounded 0")),
    )
]

FILES = [
    case("files that are refused, in order", {"I": t.SURE_BANDED, "P": b"I1\n"},
         Call(REPAIR, "repair X P C O 3", 7, lines("refused read 2")),
         Call(REPAIR, WORDS, 4, lines("refused plan bad line 1")),
         Call(REPAIR, "audit I P C", 4, lines("refused plan bad line 1")),
         Call(REPAIR, "repair I X C O 3", 7, lines("refused read 3")),
         Call(REPAIR, "audit I P none", 4, lines("refused plan bad line 1"))),
    case("no certificate", {"I": t.SURE_BANDED, "P": t.APART},
         Call(REPAIR, "audit I P none", 7, lines("refused read 4"))),
    case("files that can't be written", {"I": t.SURE_BANDED, "P": t.APART},
         Call(REPAIR, "repair I P none/C O 3", 8, lines("refused write 4")),
         Call(REPAIR, "repair I P /dev/full O 3", 8, lines("refused write 4")),
         Call(REPAIR, "repair I P C none/O 3", 8, lines("refused write 5"), {"C": ANY})),
    case("a report that can't be said", {"I": t.SURE_BANDED, "P": t.APART},
         Call(REPAIR, WORDS, 8, b"", {"C": ANY, "O": t.APART}, is_full=True),
         Call(REPAIR, "x", 8, b"", is_full=True)),
]

CASES = [*REPAIRS, *AUDITS, *FILES]
