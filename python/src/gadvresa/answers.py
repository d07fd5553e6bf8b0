"""What calls answer: frozen records of exact numbers, with floats beside them.

Scores and bounds are whole numbers: a cost times the number of periods times 10^18, each period rounded down. Costs,
means and excesses have the unit of the risks in the instance, and loads and limits that of their resource; each is a
`Fraction`, or a `Range` of two between which it lies. `rounded` counts the numbers of the instance that 12 decimals
can't hold. `called` says which program was called, how, and all that it said.
"""
from __future__ import annotations

import enum
from dataclasses import dataclass, field
from fractions import Fraction
from typing import Any, Dict, List, Optional, Tuple

from .files import Certificate, Plan
from .model.exact import Range, shown
from .model.instance import Instance
from .model.scores import cost_of, percent_of
from .reports import Key, Load, Period, Rule, Run
from .running import Called

__all__ = [
    "Audited", "Bounded", "Checked", "Improved", "Judged", "Key", "Load", "Outcome", "Period", "Rebound", "Repaired",
    "Replayed", "Rolled", "Rule", "Run", "Solved", "Table", "cost_of",
]


class Outcome(enum.Enum):
    """What a search came to."""

    FOUND = "found"
    """There is a plan that keeps every rule (status 0)."""
    NOTHING_FOUND = "nothing found"
    """In so many turns no plan was found, and there may be one (status 9)."""
    NO_PLAN_EXISTS = "no plan exists"
    """No plan keeps every rule (status 10)."""


@dataclass(frozen=True)
class Judged:
    """What `evaluate` says of a plan: `rule` is the first that it breaks, or else it has a score and a cost."""

    rule: Optional[Rule]
    score: Optional[int]
    cost: Optional[Range]
    mean: Optional[Range]
    excess: Optional[Range]
    rounded: int
    called: Called = field(repr=False)

    @property
    def feasible(self) -> bool:
        """Whether the plan keeps every rule."""
        return self.rule is None


@dataclass(frozen=True)
class Checked:
    """What `check` says of a valid certificate. A bound of None says that no plan keeps the rules.

    `bound_cost` is the cost that the bound stands for, rounded down. `score` and `gap`, how far it is above the bound,
    are those of the plan that was given.
    """

    bound: Optional[int]
    bound_cost: Optional[Fraction]
    score: Optional[int]
    gap: Optional[int]
    rounded: int
    called: Called = field(repr=False)

    @property
    def gap_percent(self) -> Optional[float]:
        """The gap in percent of the plan's score."""
        return gap_percent(self.gap, self.score)


@dataclass(frozen=True)
class Solved:
    """What `solve` found: a plan that keeps every rule, or none, and a certificate of the bound that holds either way.

    `gap` is how far the score is above the bound; with 0 no plan that keeps the rules has a lower score. `trail` has
    the lines of a script that leads from the plan of all least allowed starts to the end of the descent.
    """

    outcome: Outcome
    plan: Optional[Plan]
    score: Optional[int]
    bound: Optional[int]
    gap: Optional[int]
    cost: Optional[Range]
    mean: Optional[Range]
    excess: Optional[Range]
    splits: int
    moves: int
    rounded: int
    certificate: Certificate = field(repr=False)
    trail: Tuple[str, ...] = field(repr=False)
    called: Called = field(repr=False)

    @property
    def gap_percent(self) -> Optional[float]:
        """The gap in percent of the score."""
        return gap_percent(self.gap, self.score)


@dataclass(frozen=True)
class Improved:
    """What `improve` found: a plan that keeps every rule and is no worse than the one that was given, or none.

    `before` is the score of the plan that was given, None where that breaks a rule, or none was given; `changed` how
    many starts aren't its. `violation` says, where nothing was found, how far outside the rules the plan is at which
    the search ended.
    """

    outcome: Outcome
    plan: Optional[Plan]
    score: Optional[int]
    before: Optional[int]
    changed: Optional[int]
    cost: Optional[Range]
    mean: Optional[Range]
    excess: Optional[Range]
    violation: Optional[Fraction]
    rounded: int
    called: Called = field(repr=False)


@dataclass(frozen=True)
class Bounded:
    """What `bound` shows: no plan that keeps the rules scores below the bound; None where no plan keeps them.

    `score` and `gap` are those of the plan that was given, where that keeps every rule. `lists` counts the price lists
    of the certificate, `splits` the new splits; `kept` and `changed` count the leaves of the certificate that was
    given.
    """

    outcome: Outcome
    bound: Optional[int]
    score: Optional[int]
    gap: Optional[int]
    lists: int
    splits: int
    kept: int
    changed: int
    rounded: int
    certificate: Certificate = field(repr=False)
    called: Called = field(repr=False)

    @property
    def gap_percent(self) -> Optional[float]:
        """The gap in percent of the plan's score."""
        return gap_percent(self.gap, self.score)


@dataclass(frozen=True)
class Rebound:
    """What `rebound` made of a certificate for an instance whose limits changed. A bound of None: no plan is left."""

    bound: Optional[int]
    kept: int
    changed: int
    rounded: int
    certificate: Certificate = field(repr=False)
    called: Called = field(repr=False)


@dataclass(frozen=True)
class Repaired:
    """What `repair` found: a plan that keeps every rule and changes few starts, or none.

    `changed` is how many it changes, and `least` how many every plan that keeps the rules changes at least.
    """

    outcome: Outcome
    plan: Optional[Plan]
    changed: Optional[int]
    least: Optional[int]
    splits: int
    rounded: int
    certificate: Certificate = field(repr=False)
    called: Called = field(repr=False)


@dataclass(frozen=True)
class Audited:
    """What `audit` says of a valid certificate of `repair`: how many starts every plan that keeps the rules changes.

    A `least` of None says that no plan keeps the rules.
    """

    least: Optional[int]
    rounded: int
    called: Called = field(repr=False)


@dataclass(frozen=True)
class Rolled:
    """What `roll` wrote: the instance of the rest of the year, with how many interventions are kept and free."""

    instance: Instance
    kept: int
    free: int
    rounded: int
    called: Called = field(repr=False)


@dataclass(frozen=True)
class Replayed:
    """The keys of a script: of the plan as it was given, and behind each line."""

    keys: Tuple[Key, ...] = field(repr=False)
    called: Called = field(repr=False)

    @property
    def lines(self) -> int:
        """How many lines the script has."""
        return len(self.keys) - 1


@dataclass(frozen=True)
class Table:
    """A plan period by period. `rows` gives it to pandas."""

    periods: Tuple[Period, ...]
    rounded: int
    called: Called = field(repr=False)

    def rows(self, kind: str = "loads") -> List[Dict[str, Any]]:
        """Rows for a data frame, as in `pandas.DataFrame(table.rows("loads"))`: a dictionary for each, by columns.

        | kind | a row for each | columns |
        |---|---|---|
        | `loads` | period and resource | period, resource, load, lower, upper, state |
        | `runs` | period and intervention in progress | period, name, start, day, duration, mean, mean_low, mean_high |
        | `periods` | period | period, scenarios, rank; least, quantile, greatest; mean, excess with low and high |
        | `clashes` | period and broken exclusion | period, exclusion |

        Numbers with decimals are floats, and beside each stands the exact one, as text, in a column of the same name
        with `_exact` behind it; a mean and an excess lie between the exact `_low` and `_high`. Raises ValueError for
        another kind.
        """
        if kind not in ROWS:
            raise ValueError(f"a kind of rows is one of {', '.join(ROWS)}, and not {kind!r}")
        return [row for period in self.periods for row in ROWS[kind](period)]


def _number(name: str, value: Fraction) -> Dict[str, Any]:
    return {name: float(value), f"{name}_exact": shown(value)}


def _range(name: str, value: Range) -> Dict[str, Any]:
    return {name: float(value), f"{name}_low": shown(value.low), f"{name}_high": shown(value.high)}


def _load_rows(period: Period) -> List[Dict[str, Any]]:
    return [{"period": period.number, "resource": it.resource, **_number("load", it.load), **_number("lower", it.lower),
             **_number("upper", it.upper), "state": it.state} for it in period.loads]


def _run_rows(period: Period) -> List[Dict[str, Any]]:
    return [{"period": period.number, "name": it.name, "start": it.start, "day": it.day, "duration": it.duration,
             **_range("mean", it.mean)} for it in period.runs]


def _period_rows(period: Period) -> List[Dict[str, Any]]:
    return [{"period": period.number, "scenarios": period.scenarios, "rank": period.rank,
             **_number("least", period.least), **_number("quantile", period.quantile),
             **_number("greatest", period.greatest), **_range("mean", period.mean), **_range("excess", period.excess)}]


def _clash_rows(period: Period) -> List[Dict[str, Any]]:
    return [{"period": period.number, "exclusion": name} for name in period.clashes]


ROWS = {"loads": _load_rows, "runs": _run_rows, "periods": _period_rows, "clashes": _clash_rows}


def gap_percent(gap: Optional[int], score: Optional[int]) -> Optional[float]:
    """A gap in percent of a score; None where either is missing, or the score isn't above 0 though there is a gap."""
    found = None if gap is None or score is None else percent_of(gap, score)
    return None if found is None else float(found)
