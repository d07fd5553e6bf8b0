"""What the page shows of an instance that no report says: its names, seasons and exclusions, `Alpha`, and the loads of
single works.

`gadvresa.model` reads the file, and passes over the risks. The program has taken the file before, so it is taken to
have no fault. `held_to` compares the loads and exclusions with the program's report on the plan, so nothing else of
them is trusted.
"""
from __future__ import annotations

from typing import List, Mapping, NamedTuple, Optional, Sequence, Tuple

from .. import model
from ..files import Plan
from ..model import COUNTS, Unreadable
from ..reports.tables import Periods

# The loads of a run: by place of the resource, a count of 10^-12 for each day.
Loads = Mapping[int, Sequence[int]]


class Exclusion(NamedTuple):
    """An exclusion: its name, the places of two works, and that of a season."""

    name: str
    one: int
    other: int
    season: int


class Unheld(Exception):
    """The instance doesn't fit what the program said of it."""


class Instance:
    """The names and tables of a file. Periods and starts count from 1, places of names from 0."""

    def __init__(self, path: str) -> None:
        self.path, read = path, model.Instance.mapped(path)
        self.alpha, self.quantile, self.periods = read.alpha, read.quantile, read.periods
        self.resources = list(read.resources)
        self.seasons = {name: list(periods) for name, periods in read.listed_seasons.items()}
        self.interventions = read.interventions
        self.works = list(self.interventions)
        places = {name: place for place, name in enumerate(self.works)}
        seasons = {name: place for place, name in enumerate(self.seasons)}
        self.exclusions = [Exclusion(it.name, places[it.one], places[it.other], seasons[it.season])
                           for it in read.exclusions.values()]

    def duration(self, work: str, start: int) -> Optional[int]:
        """How many periods a work takes from a start, or None where it has no such start."""
        it = self.interventions[work]
        return it.durations[start - 1] if 1 <= start <= it.last_start else None

    def durations(self, work: str) -> Optional[List[int]]:
        """The least and the most periods that a work takes from a start that is allowed, or None without one."""
        it = self.interventions[work]
        allowed = [it.durations[start - 1] for start in it.starts]
        return [min(allowed), max(allowed)] if allowed else None

    def loads(self, work: str, start: int, duration: int) -> Loads:
        """The loads of a run other than 0."""
        try:
            found = self.interventions[work].run_loads(start)
            rows = {self.resources.index(name): [int(load * COUNTS) for load in row] for name, row in found.items()}
        except ValueError:
            raise changed(self.path) from None
        # (the program says how long the run is)
        return {place: (row + [0] * duration)[:duration] for place, row in rows.items()}


def changed(path: str) -> Unheld:
    """What is said where a file isn't what the program read."""
    return Unheld(f"{path} can't be read as the program read it: was it changed meanwhile?")


def read_instance(path: str) -> Instance:
    """The instance of a file, or `Unheld` where it can't be read as one."""
    try:
        return Instance(path)
    except (Unreadable, LookupError):
        raise changed(path) from None


def read_starts(instance: Instance, path: str) -> List[Optional[int]]:
    """The starts that a plan file has, by place of the work; None where it has none."""
    try:
        plan = Plan.read(path)
    except ValueError:
        raise changed(path) from None
    return [plan.get(name) for name in instance.works]


def held_to(instance: Instance, table: Periods, runs: Sequence[Tuple[int, int]], loads: Sequence[Loads]) -> None:
    """Ends in `Unheld` unless the loads of single works and the exclusions come to what a table says."""
    for period in table.periods:
        running = [(place, period.number - start) for place, (start, duration) in enumerate(runs)
                   if 0 <= period.number - start < duration]
        sums: List[int] = [0] * len(instance.resources)
        for place, day in running:
            for resource, row in loads[place].items():
                sums[resource] += row[day]
        if [(name, total) for name, total in zip(instance.resources, sums)] != [
                (load.resource, int(load.load * COUNTS)) for load in period.loads]:
            raise Unheld(f"the loads of works in period {period.number} don't add up to those that `table` says")
        seasons = [period.number in those for those in instance.seasons.values()]
        at_work = {place for place, _ in running}
        met = tuple(it.name for it in instance.exclusions if seasons[it.season] and {it.one, it.other} <= at_work)
        if met != period.clashes:
            raise Unheld(f"the exclusions that are broken in period {period.number} aren't those that `table` says")
