"""Rows of `check`: certificates of each version, with and without a plan, by both programs that have the command."""
from __future__ import annotations

from typing import Tuple

from . import texts as t
from .case import PLANNER, REFINE, Call, Case, case, lines

BOTH, OLDER, NEWER = (PLANNER, REFINE), (PLANNER,), (REFINE,)


def checked(what: str, programs: Tuple[str, ...], instance: bytes, certificate: bytes, status: int, said: bytes,
            plan: bytes = t.APART, words: str = "check I - C") -> Case:
    files = {"I": instance, "P": plan, "C": certificate}
    return case(what, files, *(Call(program, words, status, said) for program in programs))


def refused(what: str, programs: Tuple[str, ...], instance: bytes, certificate: bytes, fault: str) -> Case:
    return checked(what, programs, instance, certificate, 5, lines(f"refused certificate {fault}"))


def with_list(version: int, bound: str, entry: str, leaf: str = "cost 1") -> bytes:
    """A certificate of one list of one entry, line 5, and of one leaf."""
    return lines(f"mpcert {version}", f"bound {bound}", "lists 1", "prices", entry, "tree", leaf)


def with_tree(bound: str, *nodes: str) -> bytes:
    return lines("mpcert 1", f"bound {bound}", "lists 0", "tree", *nodes)


# The price of 1/3 for a load of 6 against a limit of 10 takes off 10/3, and each intervention pays 2 at period 1.
PRICED = with_list(1, "666666000000000000", "up 1 1 333333")
# Each intervention pays 2 in period 1, and the list takes 2 off.
EXCLUSION = "ex 1 1 2000000"
TWO_UNITS = "2000000000000000000"

WITHOUT_PLAN = [
    checked("the least scores of both, added", BOTH, t.BANDED, t.ROOT, 0, t.ACCEPTED),
    refused("a leaf with a cost, and the claim that no plan is there", BOTH, t.BANDED, with_tree("none", "cost 0"),
            "leaf 1"),
    checked("a tail", BOTH, t.ONE, with_list(1, "1500000000000000000", "tail 1 1000 2"), 0,
            t.accepted("1500000000000000000", "1.500000000000")),
    refused("a tail that the leaf doesn't name", BOTH, t.ONE,
            with_list(1, "1500000000000000000", "tail 1 1000 2", "cost 0"), "leaf 1"),
    refused("a tail of too few scenarios", BOTH, t.ONE_MIDDLE, with_list(1, "1500000000000000000", "tail 1 1000 2"),
            "bounds 5"),
    checked("a price on a limit", BOTH, t.SURE_BANDED, PRICED, 0,
            t.accepted("666666000000000000", "0.333333000000")),
    refused("a price on a limit, and a bound of 1 more", BOTH, t.SURE_BANDED,
            with_list(1, "666666000000000001", "up 1 1 333333"), "leaf 1"),
    refused("a price out of range", BOTH, t.SURE_BANDED, with_list(1, "666666000000000000", "up 1 1 1000000001"),
            "bounds 5"),
    checked("splits and a load that is too much", BOTH, t.SURE_BANDED, t.OLD, 0, t.ACCEPTED),
    refused("the same, and a bound of 1 more", BOTH, t.SURE_BANDED,
            with_tree("2000000000000000001", *t.TREE[2:]), "leaf 2"),
    refused("a tree without its last leaf", BOTH, t.SURE_BANDED, with_tree(TWO_UNITS, *t.TREE[2:-1]), "cut 9"),
    refused("a line behind the tree", BOTH, t.SURE_BANDED, t.OLD + b"cost 0\n", "bad line 10"),
    checked("an exclusion that is broken", BOTH, t.WINTER,
            with_tree("0", "split 1 1", "cost 0", "split 2 1", "cost 0", "excl 1"), 0,
            t.accepted("0", "0.000000000000")),
    refused("an exclusion that may be kept", BOTH, t.WINTER,
            with_tree("0", "split 1 1", "excl 1", "split 2 1", "cost 0", "excl 1"), "leaf 1"),
    checked("a price on an exclusion, version 2", BOTH, t.SURE_EXCLUDED, with_list(2, TWO_UNITS, EXCLUSION), 0,
            t.ACCEPTED),
    refused("a price on an exclusion, version 1", BOTH, t.SURE_EXCLUDED, with_list(1, TWO_UNITS, EXCLUSION),
            "bad line 5"),
    checked("an intervention without a start, version 2", BOTH, t.STARTLESS, t.NO_START, 0, t.ACCEPTED_NONE),
    refused("no certificate at all", BOTH, t.BANDED, b"", "cut 1"),
    refused("a version that isn't there", BOTH, t.BANDED, lines("mpcert 4"), "bad line 1"),
    checked("version 3", NEWER, t.SURE_BANDED, t.NEW_3, 0, t.ACCEPTED),
    refused("version 3 by the program of versions 1 and 2", OLDER, t.SURE_BANDED, t.NEW_3, "bad line 1"),
    checked("a clique", NEWER, t.SURE_EXCLUDED, with_list(3, TWO_UNITS, "clq 1 2000000 1 2"), 0, t.ACCEPTED),
    refused("a clique in version 2", NEWER, t.SURE_EXCLUDED, with_list(2, TWO_UNITS, "clq 1 2000000 1 2"),
            "bad line 5"),
    checked("a tail, version 3", NEWER, t.ONE, with_list(3, "1500000000000000000", "tail 1 2 1000"), 0,
            t.accepted("1500000000000000000", "1.500000000000")),
    refused("a tail, version 3, and a bound of 1 more", NEWER, t.ONE,
            with_list(3, "1500000000000000001", "tail 1 2 1000"), "leaf 1"),
    refused("a tail of version 1 in version 3", NEWER, t.ONE, with_list(3, "1500000000000000000", "tail 1 1000 2"),
            "bounds 5"),
    checked("an intervention without a start, version 3", NEWER, t.STARTLESS,
            lines("mpcert 3", "bound none", "lists 0", "tree", "empty 1"), 0, t.ACCEPTED_NONE),
]


def compared(what: str, programs: Tuple[str, ...], instance: bytes, plan: bytes, certificate: bytes, status: int,
             said: bytes, words: str = "check I P C") -> Case:
    return checked(what, programs, instance, certificate, status, said, plan, words)


WITH_PLAN = [
    compared("the plan of the bound", BOTH, t.BANDED, t.APART, t.ROOT, 0, t.ACCEPTED_PLAN),
    compared("a leaf that doesn't hold", BOTH, t.BANDED, t.APART, t.ROOT_MORE, 5, t.LEAF_1),
    compared("a plan that breaks a rule", BOTH, t.BANDED, t.TOGETHER, t.ROOT, 1, t.OVER),
    compared("a plan that breaks a rule, and a leaf that doesn't hold", BOTH, t.BANDED, t.TOGETHER, t.ROOT_MORE, 1,
             t.OVER),
    compared("a gap", BOTH, t.SURE_BANDED, t.APART, PRICED, 0,
             t.accepted("666666000000000000", "0.333333000000", "score 2000000000000000000",
                        "gap 1333334000000000000")),
    compared("a price on an exclusion", BOTH, t.SURE_EXCLUDED, t.APART, with_list(2, TWO_UNITS, EXCLUSION), 0,
             t.ACCEPTED_PLAN),
    compared("a start out of range, and a certificate that is cut", BOTH, t.BANDED, b"I1 5\n", b"x", 5,
             lines("refused certificate cut 1")),
    compared("version 3", NEWER, t.SURE_BANDED, t.APART, t.NEW_3, 0, t.ACCEPTED_PLAN),
    compared("version 3, and a plan that breaks a rule", NEWER, t.SURE_BANDED, t.TOGETHER, t.NEW_3, 1, t.OVER),
    compared("a bad line in a plan", NEWER, t.SURE_BANDED, b"I1\n", t.NEW_3, 4, lines("refused plan bad line 1")),
    compared("a plan that breaks a rule, and a certificate that is cut", BOTH, t.SURE_BANDED, t.TOGETHER, b"x", 5,
             lines("refused certificate cut 1")),
]

SLACKS = [
    compared("both just too much, slack=0", BOTH, t.TIGHT, t.TOGETHER, t.ROOT, 1,
             t.infeasible("B1 c 1 12.000000000000 11.999500000000"), "check I P C slack=0"),
    compared("both just too much, slack=0.0005", BOTH, t.TIGHT, t.TOGETHER, t.ROOT, 0, t.ACCEPTED_PLAN,
             "check I P C slack=0.0005"),
    compared("a slack above the greatest", BOTH, t.TIGHT, t.TOGETHER, t.ROOT, 2, lines("refused words"),
             "check I P C slack=0.0011"),
]

FILES = [
    compared(what, BOTH, instance, plan, t.ROOT, status, lines(line), words)
    for what, instance, plan, words, status, line in (
        ("a fault of the instance, and no other file", b"[]", b"x", "check I none none", 3,
         "refused instance shape 0"),
        ("a fault of the plan, and no certificate", t.BANDED, b"x", "check I P none", 4, "refused plan bad line 1"),
        ("no plan, and no certificate", t.BANDED, b"x", "check I none none", 7, "refused read 3"),
        ("no certificate", t.BANDED, t.APART, "check I P none", 7, "refused read 4"),
        ("no certificate, and none asked of a plan", t.BANDED, b"x", "check I - none", 7, "refused read 4"),
        ("no instance", t.BANDED, t.APART, "check none - C", 7, "refused read 2"),
        ("a folder in place of a certificate", t.BANDED, t.APART, "check I P .", 7, "refused read 4"),
    )
]

UNSAID = [case("a report that can't be said", {"I": t.BANDED, "C": t.ROOT},
               *(Call(program, "check I - C", 8, b"", is_full=True) for program in BOTH))]

CASES = [*WITHOUT_PLAN, *WITH_PLAN, *SLACKS, *FILES, *UNSAID]
