"""What the page is told of one plan: the program's reports, by work and by period, and the loads of single works."""
from __future__ import annotations

import re
from fractions import Fraction
from typing import Any, Dict, List, Mapping, Optional, Sequence, Tuple, Union

from ..explain.page import Page
from ..model import COUNTS, Range, shown
from ..reports.tables import Periods
from ..reports.verdicts import Texts
from .instance import Instance, Unheld, held_to, read_starts

# A text of the page, in which a name is a list of its own.
Parts = List[Union[str, List[str]]]

# The words of a broken rule that stand for names.
NAMES = ("NAME", "RESOURCE", "EXCLUSION")


def judged_plan(instance: Instance, path: str, report: Texts, table: Optional[Periods]) -> Dict[str, Any]:
    """The data of a plan, by places of names. Without a table, as a start isn't allowed, works have starts alone."""
    found: Dict[str, Any] = {"report": report, "table": None}
    rule = report.get("rule")
    if isinstance(rule, dict):
        found["explained"] = explained(rule)
    if table is None:
        starts = read_starts(instance, path)
        found["runs"] = [[start, instance.duration(name, start) if start else None, [], {}]
                         for name, start in zip(instance.works, starts)]
        return found
    runs, risks = runs_of(instance, table, read_starts(instance, path))
    loads = [instance.loads(name, *run) for name, run in zip(instance.works, runs)]
    held_to(instance, table, runs, loads)
    found["runs"] = [[*run, risks[place], {resource: [plain(Fraction(count, COUNTS)) for count in row]
                                           for resource, row in loads[place].items()}]
                     for place, run in enumerate(runs)]
    found["table"] = table_data(instance, table)
    return found


def runs_of(instance: Instance, table: Periods,
            starts: Sequence[Optional[int]]) -> Tuple[List[Tuple[int, int]], List[List[Any]]]:
    """The start and duration of each work, and the mean risk of its own of each day."""
    places = {name: place for place, name in enumerate(instance.works)}
    # (a run of no period is in no line of the table)
    runs = [(start, 0) for start in starts if start is not None]
    if len(runs) < len(starts):
        raise Unheld("`table` takes the starts of the plan, and a work has none: was that changed meanwhile?")
    risks: List[List[Any]] = [[] for _ in starts]
    for period in table.periods:
        for run in period.runs:
            place = places.get(run.name)
            if place is None or run.day != len(risks[place]) + 1 or run.start + run.day - 1 != period.number:
                raise Unheld(f"`table` says of {run.name} in period {period.number} what fits no run")
            runs[place] = run.start, run.duration
            risks[place].append(pair(run.mean))
    if any(duration != len(days) for (_, duration), days in zip(runs, risks)):
        raise Unheld("`table` says of a run not each of its periods")
    return runs, risks


def table_data(instance: Instance, table: Periods) -> Dict[str, Any]:
    """A table by columns, with places in place of names."""
    places = {it.name: place for place, it in enumerate(instance.exclusions)}
    columns = {name: [plain(getattr(period, name)) for period in table.periods]
               for name in ("least", "quantile", "greatest")}
    pairs = {name: [pair(getattr(period, name)) for period in table.periods] for name in ("mean", "excess")}
    loads = [[[plain(load.load), plain(load.lower), plain(load.upper)] for load in rows]
             for rows in zip(*(period.loads for period in table.periods))]
    return {"scenarios": [period.scenarios for period in table.periods], "rank": [it.rank for it in table.periods],
            **columns, **pairs, "loads": loads,
            "clashes": [[places[name] for name in period.clashes] for period in table.periods]}


def plain(number: Fraction) -> str:
    """A number with as many decimals as it needs."""
    return shown(number).rstrip("0").rstrip(".")


def pair(both: Range) -> Union[str, List[str]]:
    """Two numbers, or one where they are the same."""
    return plain(both.low) if both.low == both.high else [plain(both.low), plain(both.high)]


def explained(rule: Mapping[str, str]) -> Dict[str, Any]:
    """A broken rule in the words of `explain`: what it means, and what to change."""
    line = " ".join(rule.values()).encode()
    known = Page().saying(line)
    if known is None:
        raise Unheld(f"no such rule: {line.decode()}")
    saying = known[0]
    texts = dict(zip(saying.words[1:], list(rule.values())[1:]))
    return {"line": line.decode(), "meaning": filled(saying.meaning, texts), "change": filled(saying.change, texts)}


def filled(text: str, values: Mapping[str, str]) -> Parts:
    """The parts of a text of the page without its marks, with values in the place of the words that stand for them. A
    name is a list of its own, so that the page can keep its direction of writing apart.
    """
    text = re.sub(r"[`*]", "", text)
    parts: Parts = []
    end = 0
    for found in re.finditer(r"(in |past )?\b([A-Z]+)\b", text):
        if found[2] in NAMES and found[2] in values:
            parts += [text[end:found.start(2)], [values[found[2]]]]
        else:
            parts.append(text[end:found.start(2)] + said(found, values))
        end = found.end()
    return joined([*parts, text[end:]])


def joined(parts: Parts) -> Parts:
    """The parts, of which no two in a row are texts, and none is empty."""
    found: Parts = []
    for part in parts:
        last = found[-1] if found else None
        if isinstance(part, str) and isinstance(last, str):
            found[-1] = last + part
        elif part:
            found.append(part)
    return found


def said(found: "re.Match[str]", values: Mapping[str, str]) -> str:
    """What stands in the place of a word in capital letters."""
    word = found[2]
    if word not in values:
        return word
    value = values[word] if "." not in values[word] or word not in ("LOAD", "LIMIT") else plain(Fraction(values[word]))
    return f"period {value}" if word == "PERIOD" and found[1] else value
