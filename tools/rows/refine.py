"""Rows of `bound` and `improve`: certificates and plans that are made, and then checked."""
from __future__ import annotations

from typing import Dict

from . import texts as t
from .case import ANY, REFINE, Around, Call, Case, around, case, lines

# ---- bound


def files(instance: bytes, plan: bytes, certificate: bytes = b"") -> Dict[str, bytes]:
    return {"I": instance, "P": plan, "C": certificate}


# How many lists and splits there are, and what is kept of an old certificate, follows from no definition.
LEAST = around(b"bound 2000000000000000000\nlists ", b"\nsplits ", b"\nkept ", b"\nchanged ", b"\nrounded 0\n")
LEAST_PLAN = around(b"bound 2000000000000000000\nscore 2000000000000000000\ngap 0\nlists ", b"\nsplits ", b"\nkept ",
                    b"\nchanged ", b"\nrounded 0\n")
CHECKED = Call(REFINE, "check I P O", 0, t.ACCEPTED_PLAN)


def some_bound(splits: int) -> Around:
    """A bound whose value isn't known, with so many splits."""
    return around(b"bound ", b"\nlists ", f"\nsplits {splits}\n".encode(), b"\nrounded 0\n")


def split(what: str, part: str, tree: bytes) -> Case:
    """A part of HALVES is split; what is written has this in its tree, and is valid."""
    return case(what, files(t.SURE_BANDED, t.APART, t.HALVES),
                Call(REFINE, f"bound I - C O 1 slack=0 {part}", 0, some_bound(1),
                     {"O": around(b"mpcert 3\n", tree, b"")}),
                Call(REFINE, "check I - O", 0, around(b"accepted\nbound ", b"\nbound-cost ", b"\nrounded 0\n")))


BOUNDS = [
    *(case(f"a bound reaches the least score, {plan} {certificate}", files(t.SURE_BANDED, t.APART, t.UNBOUNDED),
           Call(REFINE, f"bound I {plan} {certificate} O 3", 0, LEAST if plan == "-" else LEAST_PLAN, {"O": ANY}),
           CHECKED)
      for plan in "-P" for certificate in "-C"),
    case("a plan that breaks a rule has no gap", files(t.SURE_BANDED, t.TOGETHER, t.OLD),
         Call(REFINE, "bound I P - O 3", 0, LEAST, {"O": ANY})),
    # (the old bound is the least score, so without a turn no other one is left)
    *(case(f"a bound that goes on doesn't fall, {what}", files(t.SURE_BANDED, t.APART, certificate),
           Call(REFINE, "bound I - C O 0", 0, LEAST, {"O": ANY}),
           Call(REFINE, "bound I P O N 1", 0, LEAST_PLAN, {"N": ANY}),
           Call(REFINE, "check I P N", 0, t.ACCEPTED_PLAN))
      for what, certificate in (("version 1", t.OLD), ("version 3", t.NEW_3))),
    split("the first part is split alone", "part=0/2", b"tree\nsplit 1 1\nsplit 2 1\nband 1 1 over\npoint\ncost "),
    split("the second part is split alone", "part=1/2", b"\nsplit 2 1\npoint\nband 1 2 over\n"),
    # (a part without a leaf that may be split stops at once, whatever its turns are)
    *(case(f"{certificate} has {splits} to split in {part}", files(t.SURE_BANDED, t.APART, t.HALVES),
           Call(REFINE, f"bound I - {certificate} O 1 {part}", 0, some_bound(splits), {"O": ANY}))
      for certificate, part, splits in (("-", "part=1/2", 0), ("C", "part=2/1000000", 0), ("-", "part=0/2", 1))),
    case("no plan exists without a start", files(t.STARTLESS, b""),
         Call(REFINE, "bound I - - O 5", 10, around(b"bound none\nlists ", b"\nrounded 0\n"), {"O": ANY}),
         Call(REFINE, "check I - O", 0, t.ACCEPTED_NONE)),
    *(case(what, files(instance, plan, b"x"), Call(REFINE, f"bound {words} O 1", status, lines(line)))
      for what, instance, plan, words, status, line in (
          ("no instance for a bound", t.SURE_BANDED, b"x", "none P C", 7, "refused read 2"),
          ("a fault of the instance of a bound", b"[]", b"x", "I P C", 3, "refused instance shape 0"),
          ("no plan for a bound", t.SURE_BANDED, b"x", "I none C", 7, "refused read 3"),
          ("a fault of the plan of a bound", t.SURE_BANDED, b"x", "I P C", 4, "refused plan bad line 1"),
          ("no certificate for a bound", t.SURE_BANDED, t.APART, "I P none", 7, "refused read 4"),
          ("no certificate for a bound without a plan", t.SURE_BANDED, b"x", "I - none", 7, "refused read 4"),
          ("a fault of the certificate of a bound", t.SURE_BANDED, t.TOGETHER, "I P C", 5,
           "refused certificate cut 1"))),
    case("a bound that can't be written or said", files(t.SURE_BANDED, t.APART),
         Call(REFINE, "bound I P - none/O 1", 8, lines("refused write 5")),
         Call(REFINE, "bound I P - /dev/full 1", 8, lines("refused write 5")),
         Call(REFINE, "bound I P - O 1", 8, b"", {"O": ANY}, is_full=True)),
]

# ---- improve


def improved(what: str, plan: bytes, before: str, changed: int, name: str = "P") -> Case:
    """The plan of the least score is found from every plan. A start that the plan has not is changed, and one that it
    leaves out.
    """
    said = lines("plan improved", "score 2000000000000000000", f"before {before}", f"changed {changed}",
                 "cost 1.000000000000 1.000000000000", "mean 1.000000000000 1.000000000000", f"excess {t.NOTHING}",
                 "rounded 0")
    return case(what, files(t.SURE_BANDED, plan), Call(REFINE, f"improve I {name} O 1 7", 0, said, {"O": t.APART}))


# The least overload that was met is 2: both are together, or each is 1 above its limit.
NOTHING_FOUND = lines("nothing found", "violation 2000000000000", "rounded 0")
IMPROVEMENTS = [
    improved("the best plan is kept", t.APART, "2000000000000000000", 0),
    improved("a dearer plan is improved", t.TURNED, "4000000000000000000", 2),
    improved("a plan that breaks a rule is improved", t.TOGETHER, "none", 1),
    improved("a plan without its second start is improved", b"I1 1\n", "none", 1),
    improved("a plan without its first start is improved", b"I2 2\n", "none", 1),
    improved("a plan with a start out of range is improved", b"I1 9\nI2 2\n", "none", 1),
    improved("a plan without starts is improved", b"", "none", 2),
    improved("a plan is made from none", b"", "none", 2, "-"),
    case("nothing is improved without turns", files(t.SURE_BANDED, t.TURNED),
         Call(REFINE, "improve I P O 0 7", 0,
              lines("plan improved", "score 4000000000000000000", "before 4000000000000000000", "changed 0",
                    "cost 2.000000000000 2.000000000000", "mean 2.000000000000 2.000000000000", f"excess {t.NOTHING}",
                    "rounded 0"), {"O": t.TURNED})),
    *(case(f"no plan is found, {what}", files(instance, t.TOGETHER),
           Call(REFINE, f"improve I {name} O {turns} 7", 9, NOTHING_FOUND))
      for what, instance, name, turns in (("both together and no turns", t.SURE_BANDED, "P", 0),
                                          ("none given and no turns", t.SURE_BANDED, "-", 0),
                                          ("both together and no room", t.NARROW, "P", 1),
                                          ("none given and no room", t.NARROW, "-", 1))),
    *(case(f"no plan is improved without a start, {name}", files(t.STARTLESS, b"I1 1\n"),
           Call(REFINE, f"improve I {name} O 5 7", 10, lines("no plan exists", "rounded 0")))
      for name in "P-"),
    case("a seed repeats itself", files(t.SURE_EXCLUDED, b""),
         Call(REFINE, "improve I - O 2 18446744073709551615", 0, around(b"plan improved\nscore ", b"\nrounded 0\n"),
              {"O": ANY})),
    *(case(what, files(instance, b"x"), Call(REFINE, f"improve {words} O 1 7", status, lines(line)))
      for what, instance, words, status, line in (
          ("no instance to improve", t.SURE_BANDED, "none gone", 7, "refused read 2"),
          ("a fault of the instance to improve", b"[]", "I gone", 3, "refused instance shape 0"),
          ("no plan to improve", t.SURE_BANDED, "I gone", 7, "refused read 3"),
          ("a fault of the plan to improve", t.SURE_BANDED, "I P", 4, "refused plan bad line 1"))),
    case("an improvement that can't be written or said", files(t.SURE_BANDED, t.APART),
         Call(REFINE, "improve I P none/O 1 7", 8, lines("refused write 4")),
         Call(REFINE, "improve I P O 1 7", 8, b"", {"O": t.APART}, is_full=True)),
]

CASES = [*BOUNDS, *IMPROVEMENTS]
