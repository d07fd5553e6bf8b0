"""Lists every overload, underload and clash of a plan with allowed starts, and adds them up.

    tools/faults INSTANCE PLAN [slack=D]
    tools/faults --table FILE

`evaluate` names the first broken rule; this names all of them, from what `./planner table` says, or from a FILE with
that. A line for each, period by period:

    over RESOURCE PERIOD LOAD LIMIT BY          the load is above the upper limit, by so much
    under RESOURCE PERIOD LOAD LIMIT BY         the load is below the lower limit
    clash EXCLUSION PERIOD                      both interventions are in progress

and then how many they are, with the greatest and the sum of what loads are outside:

    overloads COUNT greatest BY total BY
    underloads COUNT greatest BY total BY
    clashes COUNT exclusions COUNT

The status is 0 where there is none and 1 where there is one. Where `./planner table` ends with another status than 0,
as with 1 where a start isn't allowed, it is that one, and what it says goes to standard error. What goes wrong in this
script itself has statuses of its own: 64 its words, 65 the text is none of `table`, 66 FILE can't be read, 69 the
program isn't there, 70 something unforeseen, 74 standard output takes nothing.
"""
from __future__ import annotations

import sys
from fractions import Fraction
from typing import List, Tuple

from ..cli import say
from ..model.exact import shown
from ..reports.tables import Periods
from ..running.holding import end_by_signals
from ..running.statuses import Status
from .asking import asked_table, table_parser

NONE = Fraction(0)


def fault_lines(table: Periods) -> Tuple[List[str], bool]:
    """The lines of a table, and whether it has a fault."""
    lines: List[str] = []
    over: List[Fraction] = []
    under: List[Fraction] = []
    clashes: List[str] = []
    for period in table.periods:
        for load in period.loads:
            if load.state != "fits":
                is_over = load.state == "over"
                limit = load.upper if is_over else load.lower
                by = abs(load.load - limit)
                (over if is_over else under).append(by)
                numbers = " ".join(shown(number) for number in (load.load, limit, by))
                lines.append(f"{load.state} {load.resource} {period.number} {numbers}")
        for name in period.clashes:
            clashes.append(name)
            lines.append(f"clash {name} {period.number}")
    for word, found in (("overloads", over), ("underloads", under)):
        lines.append(f"{word} {len(found)} greatest {shown(max(found, default=NONE))} total {shown(sum(found, NONE))}")
    lines.append(f"clashes {len(clashes)} exclusions {len(set(clashes))}")
    return lines, bool(over or under or clashes)


def main() -> None:
    """Runs the script."""
    end_by_signals()
    parser = table_parser(str(__doc__))
    table, _ = asked_table(parser, parser.parse_args(), 0)
    lines, has_fault = fault_lines(table)
    say("".join(line + "\n" for line in lines))
    sys.exit(Status.BROKEN_RULE if has_fault else Status.DONE)
