"""The problem as a mixed-integer program.

One binary for each intervention and start that it may have. A limit that can be broken is a row. An exclusion is, in
each period of its season, "at most one of the two is in progress"; those of one season that form a clique share their
rows. The objective is the score over 10^18, which is the number of periods times the cost.

With `Alpha` below 1 the part of the quantile is one of these:

exact   over_t >= D_t,k - M_t,k y_t,k, where D is the scenario's sum less the mean of the sums, and y_t,k = 1 for at
        most n - rank scenarios of a period; M as `needed_slack` has it.
mean    left out: its bound holds for the problem, and its plan has the least mean.
cvar    over_t is at least the mean of the n - rank + 1 greatest D: the value is at least the plan's score, so it gives
        plans and no bound.

Columns and rows are named after what they are about: a number, which makes them unique, and what a format can have of
a name. So x12_north_line_s3 is intervention 12 of the file, as its name begins, started in 3; p is a period, k a
scenario.
"""
from __future__ import annotations

import re
from dataclasses import dataclass, field
from fractions import Fraction
from itertools import combinations
from typing import Dict, Iterable, Iterator, List, NamedTuple, Optional, Sequence, Set, Tuple

from ..model.exact import COUNTS
from ..model.instance import Band, Instance, Intervention

VARIANTS = ("exact", "mean", "cvar")
# How many terms a model may have, unless another number is given.
LARGEST = 8_000_000
# How many characters of a name stand in that of a column or a row.
NAME = 24
# `Alpha` is a multiple of one over this.
MILLION = 10 ** 6
# A column and its factor.
Term = Tuple[int, float]


class TooLarge(Exception):
    """The model has more terms than it may have."""


class Row(NamedTuple):
    """A condition: the sum of its terms is `=`, `<=` or `>=` its right side."""

    name: str
    terms: Sequence[Term]
    sense: str
    right: float


class InProgress(NamedTuple):
    """What may be in progress in a period: the number of an intervention, the column of its start, and its risks."""

    number: int
    column: int
    risks: List[int]


@dataclass
class Model:
    """What is minimized. Columns are at least 0 unless free; those that are binary are 0 or 1.

    `starts` has the column of an intervention, counted from 0, and a start. `hopeless` says why there is no plan, where
    that is seen at once.
    """

    largest: int = LARGEST
    columns: List[str] = field(default_factory=list)
    costs: List[float] = field(default_factory=list)
    binary: List[bool] = field(default_factory=list)
    free: List[bool] = field(default_factory=list)
    rows: List[Row] = field(default_factory=list)
    terms: int = 0
    starts: Dict[Tuple[int, int], int] = field(default_factory=dict)
    hopeless: Optional[str] = None

    def column(self, name: str, cost: float = 0.0, binary: bool = False, free: bool = False) -> int:
        """Adds a column, and answers its number."""
        self.columns.append(name)
        self.costs.append(cost)
        self.binary.append(binary)
        self.free.append(free)
        return len(self.columns) - 1

    def row(self, name: str, terms: Sequence[Term], sense: str, right: float) -> None:
        """Adds a row. Raises TooLarge where there is no room for its terms."""
        self.need(len(terms))
        self.terms += len(terms)
        self.rows.append(Row(name, terms, sense, right))

    def need(self, terms: int) -> None:
        """Raises TooLarge where there is no room for so many terms more."""
        if self.terms + terms > self.largest:
            raise TooLarge(f"more than {self.largest} terms")


def amount(count: float) -> float:
    """A count in its own unit."""
    return count / COUNTS


def millionths(number: Fraction) -> int:
    """How many millionths a number is."""
    return int(number * MILLION)


def safe(name: str) -> str:
    """What of a name a format can have: letters, digits and underscores of ASCII, and no more than a few of them."""
    return re.sub("[^A-Za-z0-9]+", "_", name)[:NAME].strip("_")


def start_name(number: int, name: str, start: int) -> str:
    """The name of the column of an intervention, counted from 0, and a start."""
    return f"x{number + 1}_{safe(name)}_s{start}"


def possible_starts(instance: Instance) -> Dict[str, List[int]]:
    """By intervention the starts that it may have: those that are allowed, and break no exclusion with itself."""
    never: Dict[str, Set[int]] = {}
    for exclusion in instance.exclusions.values():
        if exclusion.one == exclusion.other:
            never.setdefault(exclusion.one, set()).update(instance.seasons[exclusion.season])
    return {name: [start for start in work.starts if never.get(name, set()).isdisjoint(work.run(start))]
            for name, work in instance.interventions.items()}


def build(instance: Instance, variant: str = "exact", largest: int = LARGEST) -> Model:
    """The model of an instance."""
    model = Model(largest)
    has_quantile = variant != "mean" and instance.alpha < 1
    in_progress = add_starts(instance, model)
    if not model.hopeless:
        add_bands(instance, model)
        add_exclusions(instance, model)
    if has_quantile and not model.hopeless:
        add_excess = add_quantile if variant == "exact" else add_cvar
        for period in range(1, instance.periods + 1):
            add_excess(instance, model, period, in_progress[period])
    return model


def add_starts(instance: Instance, model: Model) -> List[List[InProgress]]:
    """Adds the columns of starts; answers what may be in progress, by period."""
    in_progress: List[List[InProgress]] = [[] for _ in range(instance.periods + 1)]
    for number, (name, starts) in enumerate(possible_starts(instance).items()):
        work = instance.interventions[name]
        own = [add_start(instance, model, number, work, start, in_progress) for start in starts]
        if not own:
            model.hopeless = f"{name} has no start"
        model.row(f"one{number + 1}_{safe(name)}", [(column, 1) for column in own], "=", 1)
    return in_progress


def add_start(instance: Instance, model: Model, number: int, work: Intervention, start: int,
              in_progress: List[List[InProgress]]) -> int:
    """Adds the column of a start, and answers it."""
    run = work.run(start)
    rows = [work.counted_risks(period, start) for period in run]
    weight = millionths(instance.alpha)
    cost = sum(weight * sum(row) / len(row) for row in rows)
    column = model.column(start_name(number, work.name, start), amount(cost) / MILLION, binary=True)
    model.starts[number, start] = column
    for period, row in zip(run, rows):
        in_progress[period].append(InProgress(number, column, row))
    return column


def add_bands(instance: Instance, model: Model) -> None:
    """Adds limits, but those that no choice of starts can break."""
    works = list(instance.interventions.values())
    for place, band in enumerate(instance.resources.values()):
        terms: Dict[int, List[Tuple[int, int, int]]] = {}
        for number, work in enumerate(works):
            for (period, start), count in work.counted_loads(band.name).items():
                if (number, start) in model.starts:
                    terms.setdefault(period, []).append((number, model.starts[number, start], count))
        for period in range(1, instance.periods + 1):
            add_band(model, place, band, period, sorted(terms.get(period, ()), key=lambda term: term[1]))
            if model.hopeless:
                return


def add_band(model: Model, place: int, band: Band, period: int, terms: Sequence[Tuple[int, int, int]]) -> None:
    """Adds the limits of a resource in a period, whose terms are an intervention, a column and a load in counts."""
    least: Dict[int, int] = {}
    greatest: Dict[int, int] = {}
    for number, _, count in terms:
        least[number] = min(least.get(number, 0), count)
        greatest[number] = max(greatest.get(number, 0), count)
    row = [(column, amount(count)) for _, column, count in terms]
    low, high = band.lower[period - 1], band.upper[period - 1]
    lowest, highest = (Fraction(sum(it.values()), COUNTS) for it in (least, greatest))
    if highest < low or lowest > high:
        model.hopeless = f"no load of {band.name} in period {period} is within its band"
    elif highest > high:
        model.row(f"up{place + 1}_{safe(band.name)}_p{period}", row, "<=", float(high))
    if not model.hopeless and lowest < low:
        model.row(f"lo{place + 1}_{safe(band.name)}_p{period}", row, ">=", float(low))


def cliques(pairs: Iterable[Tuple[int, int]]) -> Iterator[List[int]]:
    """Cliques that cover the pairs, each grown from a pair that none before covers as far as it goes."""
    near: Dict[int, Set[int]] = {}
    for one, other in pairs:
        near.setdefault(one, set()).add(other)
        near.setdefault(other, set()).add(one)
    covered: Set[Tuple[int, int]] = set()
    for one, other in sorted(pairs):
        if (one, other) in covered:
            continue
        clique, common = [one, other], near[one] & near[other]
        while common:
            clique.append(min(common))
            common = common & near[clique[-1]]
        covered.update((a, b) for a, b in combinations(sorted(clique), 2))
        yield sorted(clique)


def pairs_by_season(instance: Instance) -> Dict[Tuple[int, ...], Tuple[str, Set[Tuple[int, int]]]]:
    """By the periods of seasons: the name of the first one that has them, and the pairs that exclude one another."""
    places = {name: number for number, name in enumerate(instance.interventions)}
    found: Dict[Tuple[int, ...], Tuple[str, Set[Tuple[int, int]]]] = {}
    for exclusion in instance.exclusions.values():
        one, other = sorted((places[exclusion.one], places[exclusion.other]))
        if one != other:
            season = tuple(sorted(instance.seasons[exclusion.season]))
            found.setdefault(season, (exclusion.season, set()))[1].add((one, other))
    return found


def add_exclusions(instance: Instance, model: Model) -> None:
    """Adds a row for each clique of interventions and period of their season in which two of them may meet."""
    works = list(instance.interventions.values())
    # the columns of an intervention whose run holds a period
    holding: Dict[Tuple[int, int], List[int]] = {}
    for (number, start), column in model.starts.items():
        for period in works[number].run(start):
            holding.setdefault((number, period), []).append(column)
    count = 0
    for season, (name, pairs) in pairs_by_season(instance).items():
        for clique in cliques(pairs):
            count += 1
            for period in season:
                groups = [holding[number, period] for number in clique if (number, period) in holding]
                if len(groups) > 1:
                    terms = [(column, 1) for group in groups for column in group]
                    model.row(f"apart{count}_{safe(name)}_p{period}", terms, "<=", 1)


def deviations(scenarios: int, entries: Sequence[InProgress]) -> List[List[Term]]:
    """By scenario, the terms of its sum less the mean of the sums, in amounts."""
    rows: List[List[Term]] = [[] for _ in range(scenarios)]
    for _, column, risks in entries:
        total = sum(risks)
        for place, risk in enumerate(risks):
            if scenarios * risk != total:
                rows[place].append((column, (scenarios * risk - total) / scenarios / COUNTS))
    return rows


def needed_slack(scenarios: int, rank: int, entries: Sequence[InProgress]) -> List[float]:
    """By scenario k a number, in counts, by which no plan's sum of k is more above the quantile and above the mean.

    The sum of k is at most D(k, k2) above that of k2, where D adds up the greatest differences of the interventions. As
    many sums as the rank are at most the quantile, so one of these k2 has at most the (n - rank + 1)-th least D, where
    n is the number of scenarios.
    """
    # by intervention and scenario, the greatest r_k - r_k2 for each k2, and behind them the greatest r_k less the mean
    greatest: Dict[int, List[List[float]]] = {}
    for number, _, risks in entries:
        mean = sum(risks) / scenarios
        new = [[max(0, one - other) for other in risks] + [max(0, one - mean)] for one in risks]
        old = greatest.get(number)
        greatest[number] = new if old is None else [
            [max(pair) for pair in zip(*rows)] for rows in zip(old, new)]
    slack = []
    for place in range(scenarios):
        sums = [sum(column) for column in zip(*(table[place] for table in greatest.values()))]
        above_mean = sums.pop()
        slack.append(min(sorted(sums)[scenarios - rank], above_mean))
    return slack


def add_quantile(instance: Instance, model: Model, period: int, entries: Sequence[InProgress]) -> None:
    """Adds the excess of a period as it is, by a binary for each scenario that may be above the quantile."""
    scenarios, rank = instance.scenarios[period - 1], instance.rank(period)
    if scenarios == 1 or not entries:
        return
    model.need(scenarios * len(entries))
    over = model.column(f"over_p{period}", float(1 - instance.alpha))
    slack = needed_slack(scenarios, rank, entries) if rank < scenarios else [0.0] * scenarios
    given_up: List[Term] = []
    for place, row in enumerate(deviations(scenarios, entries)):
        terms = [(over, 1.0)] + [(column, -factor) for column, factor in row]
        if slack[place] > 0:
            chosen = model.column(f"y_p{period}_k{place + 1}", binary=True)
            given_up.append((chosen, 1))
            terms.append((chosen, amount(slack[place])))
        model.row(f"above_p{period}_k{place + 1}", terms, ">=", 0)
    if len(given_up) > scenarios - rank:
        model.row(f"given_p{period}", given_up, "<=", scenarios - rank)


def add_cvar(instance: Instance, model: Model, period: int, entries: Sequence[InProgress]) -> None:
    """Adds the mean of the scenarios from the quantile upwards in the place of the excess of a period."""
    scenarios, rank = instance.scenarios[period - 1], instance.rank(period)
    if scenarios == 1 or not entries:
        return
    over = model.column(f"over_p{period}", float(1 - instance.alpha))
    level = model.column(f"level_p{period}", free=True)
    tail: List[Term] = []
    for place, row in enumerate(deviations(scenarios, entries)):
        above = model.column(f"z_p{period}_k{place + 1}")
        tail.append((above, -1 / (scenarios - rank + 1)))
        terms = [(above, 1.0), (level, 1.0)] + [(column, -factor) for column, factor in row]
        model.row(f"tail_p{period}_k{place + 1}", terms, ">=", 0)
    model.row(f"mean_p{period}", [(over, 1), (level, -1), *tail], ">=", 0)
