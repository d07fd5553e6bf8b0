"""Rows of `replay`: keys behind each line of a script, and lines that are refused."""
from __future__ import annotations

from . import texts as t
from .case import PLANNER, Call, Case, case, lines


def replayed(what: str, instance: bytes, plan: bytes, script: bytes, status: int, *said: str,
             words: str = "replay I P S") -> Case:
    files = {"I": instance, "P": plan, "S": script}
    return case(what, files, Call(PLANNER, words, status, lines(*said)))


# A key is a violation, of 10^12 for a load that is 1 above its limit, and a score: apart 2 as they are and 3.5 turned.
APART, TURNED = "0 2000000000000000000", "0 3500000000000000000"
SWAPPED = ("0 " + APART, "1 " + TURNED, "2 2000000000000 3500000000000000000", "3 " + TURNED, "4 " + APART)

CASES = [
    replayed("more undone than done", t.BANDED, t.APART, b"swap I1 I2\nmove I2 2\nundo\nundo\nundo\n", 6,
             *SWAPPED, "refused script nothing to undo 5"),
    replayed("all undone, without a line feed at the end", t.BANDED, t.APART, b"swap I1 I2\nmove I2 2\nundo\nundo", 0,
             *SWAPPED, "end 4"),
    replayed("a start that isn't allowed", t.LATE, t.APART, b"move I1 2\n", 6, "0 " + APART,
             "refused script not allowed 1"),
    replayed("no line", t.BANDED, t.APART, b"", 0, "0 " + APART, "end 0"),
    replayed("a swap of an intervention with itself", t.BANDED, t.APART, b"swap I1 I1\nundo\n", 0,
             "0 " + APART, "1 " + APART, "2 " + APART, "end 2"),
    replayed("an unknown name", t.BANDED, t.APART, b"swap I1 I3\n", 6, "refused script unknown name 1"),
    replayed("a number that begins with 0", t.BANDED, t.APART, b"move I1 01\n", 6, "refused script bad line 1"),
    replayed("a missing start", t.LATE, b"I1 1\n", b"undo\n", 1, "infeasible", "S1 I2", "rounded 0"),
    replayed("a missing start, and a bad line", t.LATE, b"I1 1\n", b"undone\n", 6, "refused script bad line 1"),
    replayed("no script", t.BANDED, t.APART, b"", 7, "refused read 4", words="replay I P none"),
    replayed("a folder in place of a script", t.BANDED, t.APART, b"", 7, "refused read 4", words="replay I P ."),
    case("keys that can't be said", {"I": t.BANDED, "P": t.APART, "S": b"undo\n"},
         Call(PLANNER, "replay I P S", 8, b"", is_full=True)),
]
