"""Rows of `roll`, `rebound`, `solve` and `rehearse`: what is written is then read again."""
from __future__ import annotations

from typing import Dict

from . import texts as t
from .case import ANY, PLANNER, REFINE, Call, Text, around, case, lines

# ---- roll

ROLLED = lines("rolled", "kept 1", "free 1", "rounded 0")
# What is left of BANDED from period 2 on, where I1 has begun: its duration is 3 at another start, past the horizon.
LEFT = (b'{"Resources":{"c":{"max":[10.000000000000,10.000000000000],"min":[0.000000000000,0.000000000000]}},'
        b'"Seasons":{},"Interventions":{"I1":{"tmax":2,"Delta":[1,3],"workload":{"c":{"1":{"1":6.000000000000}}},'
        b'"risk":{"1":{"1":[1.000000000000,3.000000000000]}}},"I2":{"tmax":2,"Delta":[3,1],'
        b'"workload":{"c":{"2":{"2":6.000000000000}}},"risk":{"2":{"2":[4.000000000000,0.000000000000]}}}},'
        b'"Exclusions":{},"T":2,"Scenarios_number":[2,2],"Quantile":0.500000,"Alpha":0.500000}')
LEFT_EMPTY = (b'{"Resources":{},"Seasons":{},"Interventions":{},"Exclusions":{},"T":1,"Scenarios_number":[1],'
              b'"Quantile":1.000000,"Alpha":1.000000}')
ROLLS = [
    case("the rest of a year is judged as the year", {"I": t.BANDED, "P": b"I1 1\n", "A": t.APART, "B": t.TOGETHER},
         Call(PLANNER, "roll I P 2 O", 0, ROLLED, {"O": LEFT}),
         Call(PLANNER, "evaluate I A", 0, t.PLAIN_REPORT),
         Call(PLANNER, "evaluate O A", 0, t.PLAIN_REPORT),
         Call(PLANNER, "evaluate O B", 1, t.infeasible("S3 I2 1"))),
    case("the rest of a year without interventions", {"I": t.EMPTY, "P": b"", "O": b"old"},
         Call(PLANNER, "roll I P 1 O", 0, lines("rolled", "kept 0", "free 0", "rounded 0"), {"O": LEFT_EMPTY})),
    case("a kept start that isn't allowed", {"I": t.BANDED, "P": b"I1 0\n"},
         Call(PLANNER, "roll I P 2 O", 1, t.infeasible("S2 I1 0"))),
    case("no instance, no plan, and files that can't be written", {"I": t.BANDED, "P": t.APART},
         Call(PLANNER, "roll none P 2 O", 7, lines("refused read 2")),
         Call(PLANNER, "roll I none 2 O", 7, lines("refused read 3")),
         Call(PLANNER, "roll I P 2 none/O", 8, lines("refused write 5")),
         Call(PLANNER, "roll I P 2 /dev/full", 8, lines("refused write 5")),
         Call(PLANNER, "roll I P 3 O", 8, b"", {"O": ANY}, is_full=True)),
]

# ---- rebound

REBOUND = lines("rebound", "bound 2000000000000000000", "kept 2", "changed 1", "rounded 0")
REBOUNDS = [
    *(case(f"what is rebound is accepted, by {program}", {"I": t.SURE_BANDED, "C": t.OLD},
           Call(program, "rebound I C O", 0, REBOUND, {"O": text}),
           Call(program, "check I - O", 0, t.ACCEPTED))
      for program, text in ((PLANNER, t.NEW), (REFINE, t.NEW_3))),
    *(case(f"a certificate that says that there is no plan, by {program}", {"I": t.SURE_BANDED, "C": t.UNBOUNDED},
           Call(program, "rebound I C O", 0, REBOUND, {"O": text}))
      for program, text in ((PLANNER, t.NEW), (REFINE, t.NEW_3))),
    case("what fits the limits stays as it is", {"I": t.SURE_BANDED, "C": t.NEW_3},
         Call(REFINE, "rebound I C O", 0,
              lines("rebound", "bound 2000000000000000000", "kept 3", "changed 0", "rounded 0"), {"O": t.NEW_3})),
    *(case(f"no instance, no certificate, and files that can't be written, by {program}",
           {"I": t.SURE_BANDED, "C": t.OLD},
           Call(program, "rebound none C O", 7, lines("refused read 2")),
           Call(program, "rebound I none O", 7, lines("refused read 3")),
           Call(program, "rebound I C none/O", 8, lines("refused write 4")),
           Call(program, "rebound I C /dev/full", 8, lines("refused write 4")),
           Call(program, "rebound I C O", 8, b"", {"O": ANY}, is_full=True))
      for program in (PLANNER, REFINE)),
]

# ---- solve

# The least score and a bound that comes to it; how many splits and moves there are follows from no definition.
FOUND = around(lines("plan found", "score 2000000000000000000", "bound 2000000000000000000", "gap 0",
                     "cost 1.000000000000 1.000000000000", "mean 1.000000000000 1.000000000000",
                     f"excess {t.NOTHING}") + b"splits ", b"\nmoves ", b"\nrounded 0\n")
SURE_REPORT = t.feasible("2000000000000000000", "1.000000000000 1.000000000000", "1.000000000000 1.000000000000",
                         t.NOTHING)
MADE: Dict[str, Text] = {"P": t.APART, "C": ANY, "M": ANY}
SOLUTIONS = [
    case("a solution without turns has a certificate alone", {"I": t.SURE_BANDED},
         Call(PLANNER, "solve I P C M 0", 9, around(b"nothing found\nbound ", b"\nsplits 0\nmoves 0\nrounded 0\n"),
              {"C": ANY, "M": b""}),
         Call(PLANNER, "check I - C", 0, around(b"accepted\nbound ", b"\nbound-cost ", b"\nrounded 0\n"))),
    *(case(f"a solution with {turns} turns is accepted", {"I": t.SURE_BANDED},
           Call(PLANNER, f"solve I P C M {turns}", 0, FOUND, MADE),
           Call(PLANNER, "check I P C", 0, t.ACCEPTED_PLAN))
      for turns in (3, 20)),
    case("the plan of a solution is feasible", {"I": t.SURE_BANDED},
         Call(PLANNER, "solve I P C M 3 slack=0", 0, FOUND, MADE),
         Call(PLANNER, "evaluate I P", 0, SURE_REPORT)),
    case("no plan exists without a start", {"I": t.STARTLESS},
         Call(PLANNER, "solve I P C M 3", 10, lines("no plan exists", "splits 0", "moves 0", "rounded 0"),
              {"C": t.NO_START, "M": b""})),
    case("files of a solution that can't be read or written", {"I": t.STARTLESS},
         Call(PLANNER, "solve none P C M 3", 7, lines("refused read 2")),
         Call(PLANNER, "solve I P none/C M 3", 8, lines("refused write 4")),
         Call(PLANNER, "solve I P C none/M 3", 8, lines("refused write 5"), {"C": t.NO_START})),
    case("a plan of a solution that can't be written", {"I": t.SURE_BANDED},
         Call(PLANNER, "solve I none/P C M 3", 8, lines("refused write 3"), {"C": ANY, "M": ANY})),
]

# ---- rehearse

# Seed and count fix the drawn instance: the values of its opening come from another program of the same definition.
REHEARSALS = [
    case("a rehearsal says the same again", {},
         Call(PLANNER, "rehearse 7 40", 0,
              around(b"interventions 40\nopening 549000000000000 2670000000000000000000\ndescent ",
                     b"\nundone 549000000000000 2670000000000000000000\nbound ", b"\nrounded 0\n"))),
    case("one intervention is rehearsed", {},
         Call(PLANNER, "rehearse 0 1", 0,
              around(b"interventions 1\nopening 0 173500000000000000000\ndescent 0 ",
                     b"\nundone 0 173500000000000000000\nbound ", b"\nrounded 0\n"))),
]

CASES = [*ROLLS, *REBOUNDS, *SOLUTIONS, *REHEARSALS]
