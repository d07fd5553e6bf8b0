"""An instance as a method for planning sees it: names, numbers of periods and scenarios, and exact tables.

The file is read when something of it is asked for. A walk over its text finds where each value begins, and a value is
made when it is asked for, so the risks of a large file take memory only for the interventions that are looked into.
This reader makes no judgement: what is wrong with a file the programs say. Numbers are those that the programs keep:
the file's, rounded to 12 decimals. Calls hand its path on to the programs.
"""
from __future__ import annotations

import os
from dataclasses import dataclass, field
from fractions import Fraction
from functools import cached_property
from typing import Any, Callable, Dict, FrozenSet, List, Mapping, Tuple, TypeVar

from ..running.finding import Path
from ..whole_files import open_regular
from .exact import counted, kept, kept_whole
from .json_text import Broken, Data, Value, mapped

Made = TypeVar("Made")
# What comes of a value that isn't what an instance has in its place.
UNFIT = (ArithmeticError, AttributeError, Broken, KeyError, RecursionError, TypeError, ValueError)


class Unreadable(ValueError):
    """The file isn't an instance as far as this package reads it. `evaluate` says what is wrong with it, and where."""


@dataclass(frozen=True)
class Exclusion:
    """Two interventions that must not be in progress in the same period of a season."""

    name: str
    one: str
    other: str
    season: str


@dataclass(frozen=True)
class Band:
    """The limits of a resource, by period: `upper[0]` and `lower[0]` are those of period 1, in its unit."""

    name: str
    upper: Tuple[Fraction, ...]
    lower: Tuple[Fraction, ...]


@dataclass(frozen=True)
class Intervention:
    """A work: its name, its last start, and its duration at each start from 1 on, in periods."""

    name: str
    last_start: int
    durations: Tuple[int, ...]
    periods: int = field(repr=False)
    _workload: Value = field(repr=False, compare=False)
    _risk: Value = field(repr=False, compare=False)

    @cached_property
    def starts(self) -> Tuple[int, ...]:
        """The allowed starts: those whose run ends in the last period or before."""
        return tuple(start for start, duration in enumerate(self.durations, 1) if start + duration <= self.periods + 1)

    def run(self, start: int) -> range:
        """The periods in which it is in progress, if it starts so. Raises ValueError for a start that it hasn't."""
        if not 1 <= start <= len(self.durations):
            raise ValueError(f"{self.name} has the starts 1 to {len(self.durations)}, and not {start}")
        return range(start, start + self.durations[start - 1])

    def _read(self, name: str, made: Callable[[], Made]) -> Made:
        """What is made of its table of this name."""
        try:
            return made()
        except UNFIT as fault:
            raise Unreadable(f"{self.name}: {name}: {fault!r}") from None

    @cached_property
    def resources(self) -> Tuple[str, ...]:
        """The resources under which it has workloads."""
        return self._read("workload", lambda: tuple(self._workload.members()))

    @cached_property
    def _loads(self) -> Dict[str, Dict[Tuple[int, int], str]]:
        return self._read("workload", lambda: {
            name: {(int(t), int(s)): text for t, row in table.items() for s, text in row.items()}
            for name, table in self._workload.parsed().items()})

    @cached_property
    def _risks(self) -> Dict[Tuple[int, int], List[str]]:
        return self._read("risk", lambda: {
            (int(t), int(s)): _list(row) for t, table in self._risk.parsed().items()
            for s, row in table.items()})

    def _load(self, number: Callable[[str], Made], resource: str, period: int, start: int) -> Made:
        is_running = period in self.run(start)
        text = self._loads.get(resource, {}).get((period, start), "0") if is_running else "0"
        return self._read("workload", lambda: number(text))

    def _risk_row(self, number: Callable[[str], Made], period: int, start: int) -> List[Made]:
        if period not in self.run(start):
            raise ValueError(f"{self.name}, started in {start}, isn't in progress in period {period}")
        return self._read("risk", lambda: list(map(number, self._risks[period, start])))

    def load(self, resource: str, period: int, start: int) -> Fraction:
        """Its load on a resource in a period of its run from a start, in the resource's unit; 0 where none is told."""
        return self._load(kept, resource, period, start)

    def run_loads(self, start: int) -> Dict[str, Tuple[Fraction, ...]]:
        """Its loads in the periods of the run from a start, by resource; a resource on which it has none is left out.

        Nothing else of its workload is kept, which suits who looks at one start of each intervention.
        """
        run = self.run(start)

        def row(table: Mapping[str, Mapping[str, str]]) -> Tuple[Fraction, ...]:
            found = {int(t): kept(text) for t, by_start in table.items() if int(t) in run
                     for s, text in by_start.items() if int(s) == start}
            return tuple(found.get(t, Fraction(0)) for t in run)

        rows = self._read("workload", lambda: {name: row(it) for name, it in self._workload.parsed().items()})
        return {name: row for name, row in rows.items() if any(row)}

    def risks(self, period: int, start: int) -> Tuple[Fraction, ...]:
        """Its risks in a period of its run from a start, one for each scenario of the period."""
        return tuple(self._risk_row(kept, period, start))

    def counted_loads(self, resource: str) -> Dict[Tuple[int, int], int]:
        """Its loads on a resource other than 0 in the periods of its allowed runs, by period and start, in counts."""
        runs = {start: self.run(start) for start in self.starts}
        found = self._read("workload", lambda: {
            at: counted(text) for at, text in self._loads.get(resource, {}).items() if at[0] in runs.get(at[1], ())})
        return {at: count for at, count in found.items() if count}

    def counted_risks(self, period: int, start: int) -> List[int]:
        """`risks` in counts, which are whole numbers."""
        return self._risk_row(counted, period, start)

    def float_load(self, resource: str, period: int, start: int) -> float:
        """`load` as a float, which is fast and rounded."""
        return self._load(float, resource, period, start)

    def float_risks(self, period: int, start: int) -> List[float]:
        """`risks` as floats, which are fast and rounded."""
        return self._risk_row(float, period, start)


class Instance:
    """An instance file.

    >>> instance = Instance.read("examples/summer/instance.json")
    >>> instance.periods, instance.scenarios
    (3, (2, 2, 2))
    >>> list(instance.interventions), list(instance.resources)
    (['north-line', 'south-line'], ['crew'])
    >>> line = instance.interventions["north-line"]
    >>> line.starts, list(line.run(1)), line.load("crew", 2, 2)
    ((1, 2), [1, 2], Fraction(3, 1))
    >>> instance.resources["crew"].lower
    (Fraction(0, 1), Fraction(1, 1), Fraction(0, 1))
    """

    def __init__(self, path: Path) -> None:
        self.path = os.fspath(path)
        self._is_mapped = False

    @classmethod
    def read(cls, path: Path) -> Instance:
        """The instance of a file, whose tables are read once they are asked for.

        Raises OSError where it can't be opened, or is no regular file, as it is read more than once. What is wrong with
        its text is said by the calls that take it; a table that can't be read raises Unreadable.
        """
        with open_regular(os.fspath(path), 0):
            return cls(path)

    @classmethod
    def mapped(cls, path: Path) -> Instance:
        """As `read`, but the file is mapped into memory and not copied: it mustn't be changed while this is used."""
        instance = cls.read(path)
        instance._is_mapped = True
        return instance

    def __getstate__(self) -> Dict[str, Any]:
        # (a copy in another process reads the file itself)
        return {"path": self.path, "_is_mapped": self._is_mapped}

    def __fspath__(self) -> str:
        return self.path

    def __repr__(self) -> str:
        return f"Instance({self.path!r})"

    @cached_property
    def _root(self) -> Dict[str, Value]:
        """Where the values of the file's keys are."""
        if self._is_mapped:
            text: Data = mapped(self.path)
        else:
            with open_regular(self.path, 0) as file:
                text = file.read()
        try:
            return Value.of(text).members()
        except Broken as fault:
            raise Unreadable(f"{self.path}: byte {fault} isn't what an instance has there") from None

    def _read(self, name: str, made: Callable[[Value], Made]) -> Made:
        """What is made of the value of a key."""
        root = self._root
        try:
            return made(root[name])
        except UNFIT as fault:
            raise Unreadable(f"{self.path}: {name}: {fault!r}") from None

    @cached_property
    def periods(self) -> int:
        """The number of periods, which count from 1."""
        return self._read("T", lambda it: kept_whole(it.parsed()))

    @cached_property
    def scenarios(self) -> Tuple[int, ...]:
        """The number of scenarios of each period: `scenarios[0]` is that of period 1."""
        return self._read("Scenarios_number", lambda it: tuple(map(kept_whole, _list(it.parsed()))))

    @cached_property
    def alpha(self) -> Fraction:
        """The weight of the mean risk in the cost."""
        return self._read("Alpha", lambda it: kept(it.parsed()))

    @cached_property
    def quantile(self) -> Fraction:
        """What part of the scenarios the quantile of the excess is at."""
        return self._read("Quantile", lambda it: kept(it.parsed()))

    def rank(self, period: int) -> int:
        """Which of the scenarios of a period, in ascending order of their risks, is the quantile; it counts from 1."""
        product = self.quantile * self.scenarios[period - 1]
        return -(-product.numerator // product.denominator)

    @cached_property
    def resources(self) -> Dict[str, Band]:
        """The resources by name, in the order of the file."""

        def band(name: str, it: Mapping[str, Any]) -> Band:
            return Band(name, tuple(map(kept, _list(it["max"]))), tuple(map(kept, _list(it["min"]))))

        return self._read("Resources", lambda found: {
            name: band(name, it.parsed()) for name, it in found.members().items()})

    @cached_property
    def interventions(self) -> Dict[str, Intervention]:
        """The interventions by name, in the order of the file."""
        periods = self.periods

        def made(name: str, it: Mapping[str, Value]) -> Intervention:
            last = kept_whole(it["tmax"].parsed())
            durations = tuple(map(kept_whole, _list(it["Delta"].parsed())[:last]))
            return Intervention(name, last, durations, periods, it["workload"], it["risk"])

        return self._read("Interventions", lambda found: {
            name: made(name, it.members()) for name, it in found.members().items()})

    @cached_property
    def listed_seasons(self) -> Dict[str, Tuple[int, ...]]:
        """The periods that the file lists for each season, by name, each once and in ascending order."""
        return self._read("Seasons", lambda found: {
            name: tuple(sorted(set(map(kept_whole, _list(it))))) for name, it in found.parsed().items()})

    @cached_property
    def seasons(self) -> Dict[str, FrozenSet[int]]:
        """The periods of each season, by name; periods that the year hasn't are left out."""
        horizon = range(1, self.periods + 1)
        return {name: frozenset(t for t in those if t in horizon) for name, those in self.listed_seasons.items()}

    @cached_property
    def exclusions(self) -> Dict[str, Exclusion]:
        """The exclusions by name, in the order of the file."""
        return self._read("Exclusions", lambda found: {
            name: Exclusion(name, *_list(it)) for name, it in found.parsed().items()})

    def meeting(self, exclusion: str, starts: Mapping[str, int]) -> Tuple[int, ...]:
        """The periods of an exclusion's season in which a plan has both of its interventions in progress."""
        it = self.exclusions[exclusion]
        runs = [self.interventions[name].run(starts[name]) for name in (it.one, it.other)]
        return tuple(t for t in sorted(self.seasons[it.season]) if all(t in run for run in runs))


def _list(value: Any) -> List[Any]:
    """A list, and no number, which is kept as its digits here."""
    if not isinstance(value, list):
        raise TypeError(f"{value!r:.200} is no list")
    return value
