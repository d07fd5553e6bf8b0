"""Reads the plan out of a solver's solution file: cbc, HiGHS, SCIP, Gurobi, and glpsol by -o.

Each of them has, in some line, the name of a column and behind it its value; glpsol breaks the line behind a long name,
and puts a mark for a whole column between the two. Columns that aren't named are 0. The values behind a heading of
HiGHS on dual values aren't those of the solution.
"""
from __future__ import annotations

import re
from typing import Dict, Optional

from ..files import Plan
from ..model.instance import Instance
from .program import possible_starts, start_name

COLUMN = re.compile(r"x([0-9]+)_(?:[A-Za-z0-9_]*_)?s([0-9]+)")
NUMBER = re.compile(r"[-+]?(?:[0-9]+\.?[0-9]*|\.[0-9]+)(?:[eE][-+]?[0-9]+)?")


class NoPlan(Exception):
    """The text has no plan; the message says why."""


def values_of(text: str) -> Dict[str, float]:
    """The values of the columns of starts, by name."""
    values: Dict[str, float] = {}
    named: Optional[str] = None
    for line in text.split("\n"):
        if line.startswith("# Dual"):
            break
        for word in line.split():
            if named and word != "*":
                if not NUMBER.fullmatch(word):
                    raise NoPlan(f"{named} has the value {word!r}, which is no number")
                values[named] = float(word)
                named = None
            elif COLUMN.fullmatch(word):
                named = word
    if named:
        raise NoPlan(f"{named} has no value: the file is cut off")
    return values


def plan_of(instance: Instance, text: str) -> Plan:
    """The start of each intervention whose column has a value near 1. Raises NoPlan where one has none, or two."""
    values = values_of(text)
    if not values and instance.interventions:
        raise NoPlan("no column of a start is named: the solver found no plan, or the model is another one's")
    plan: Dict[str, int] = {}
    for number, (name, starts) in enumerate(possible_starts(instance).items()):
        near = [start for start in starts if values.pop(start_name(number, name, start), 0.0) > 0.5]
        if len(near) != 1:
            said = "no start" if not near else f"the starts {', '.join(map(str, near))}"
            raise NoPlan(f"{name} has {said} with a value near 1")
        plan[name] = near[0]
    if values:
        raise NoPlan(f"{min(values)} is no column of this instance: is it the model of another one?")
    return Plan(plan)
