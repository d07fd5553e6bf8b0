"""Reads what `table` says: a plan period by period."""
from __future__ import annotations

from dataclasses import dataclass
from fractions import Fraction
from typing import NamedTuple, Tuple

from ..model.exact import Range, decimal_of
from .lines import NoReport, Report, natural_of, one_of

STATES = ("fits", "over", "under")


@dataclass(frozen=True)
class Load:
    """The load of a resource in a period between its limits; `state` is `fits`, `over` or `under`."""

    resource: str
    load: Fraction
    lower: Fraction
    upper: Fraction
    state: str


@dataclass(frozen=True)
class Run:
    """An intervention in progress in a period: its start, which day of how many it is, and the mean risk it brings."""

    name: str
    start: int
    day: int
    duration: int
    mean: Range


@dataclass(frozen=True)
class Period:
    """A period of a plan: its risks by scenario, its loads, what is in progress, and which exclusions are broken."""

    number: int
    scenarios: int
    rank: int
    least: Fraction
    quantile: Fraction
    greatest: Fraction
    mean: Range
    excess: Range
    loads: Tuple[Load, ...]
    runs: Tuple[Run, ...]
    clashes: Tuple[str, ...]


class Periods(NamedTuple):
    """The periods of a table, and how many numbers of the instance 12 decimals can't hold."""

    periods: Tuple[Period, ...]
    rounded: int


def read_table(text: str) -> Periods:
    """The table of a text. Raises NoReport, with the first line that doesn't fit."""
    report, periods = Report(text), []
    # (the last two lines count the periods, and what was rounded)
    while report.left > 2:
        periods.append(period_of(report))
    end = report.fault("")
    count = report.one("end", natural_of)
    if count != len(periods):
        raise NoReport(f"{count} periods are said to be there, and {len(periods)} are", end.number, end.line)
    rounded = report.one("rounded", natural_of)
    report.end()
    return Periods(tuple(periods), rounded)


def period_of(report: Report) -> Period:
    """The next period of a table."""
    number, _, scenarios, _, rank = report.take("period", natural_of, one_of("scenarios"), natural_of, one_of("rank"),
                                                natural_of)
    least, quantile, greatest = report.take("risk", decimal_of, decimal_of, decimal_of)
    mean, excess = report.range("mean"), report.range("excess")
    loads, runs, clashes = [], [], []
    while report.next() == "load":
        loads.append(Load(*report.take("load", str, decimal_of, decimal_of, decimal_of, one_of(*STATES))))
    while report.next() == "run":
        name, start, day, duration, low, high = report.take("run", str, *[natural_of] * 3, decimal_of, decimal_of)
        runs.append(Run(name, start, day, duration, Range(low, high)))
    while report.next() == "clash":
        clashes.append(report.one("clash", str))
    return Period(number, scenarios, rank, least, quantile, greatest, mean, excess, tuple(loads), tuple(runs),
                  tuple(clashes))
