"""Reads what all commands but `table` say: verdicts and values, a broken rule, keys of a script, a refusal."""
from __future__ import annotations

import re
from dataclasses import dataclass
from fractions import Fraction
from typing import Dict, List, Optional, Tuple, Union

from ..model.exact import COUNTS, SCORES, Range, decimal_of, shown, whole_of
from .lines import Form, NoReport, Report
from .words import COUNT_WORDS, HEADS, VALUES

# What is read of a report without a form of its own: texts by name, and those of a broken rule below `rule`.
Texts = Dict[str, Union[str, Dict[str, str]]]

# Values that count things, and so are small; all other numbers may be larger than a float holds exactly.
COUNTED = {*COUNT_WORDS, "start", "period"}
NUMBER = re.compile(r"-?[0-9]+(\.[0-9]+)?")
# What of any text is taken for a number, where a script looks a single one up.
WHOLE, DECIMAL = re.compile(r"-?[0-9]{1,60}"), re.compile(r"-?[0-9]{1,60}\.[0-9]{12}")

# The words of each rule behind its code. The first one names what breaks it.
LIMITED: Tuple[Tuple[str, Form], ...] = (("resource", str), ("period", whole_of), ("load", decimal_of),
                                         ("limit", decimal_of))
RULES: Dict[str, Tuple[Tuple[str, Form], ...]] = {
    "S1": (("name", str),),
    "S2": (("name", str), ("start", whole_of)),
    "S3": (("name", str), ("start", whole_of)),
    "B1": LIMITED,
    "B2": LIMITED,
    "X1": (("exclusion", str), ("period", whole_of)),
}
MEANINGS = {
    "S1": "S1: {rule.name} has no start",
    "S2": "S2: the start {rule.start} of {rule.name} is 0 or above its last one",
    "S3": "S3: {rule.name}, started in {rule.start}, goes past the last period",
    "B1": "B1: the load of {rule.name} in period {rule.period} is {load}, above its limit of {limit}",
    "B2": "B2: the load of {rule.name} in period {rule.period} is {load}, below its limit of {limit}",
    "X1": "X1: both interventions of {rule.name} are in progress in period {rule.period}",
}


@dataclass(frozen=True)
class Rule:
    """A rule that a plan breaks, the first one, as the program says it in `line`.

    `code` is S1, S2 or S3 for a start that is missing or not allowed, B1 or B2 for a load above its upper or below its
    lower limit, and X1 for an exclusion. `name` is that of the intervention, the resource or the exclusion.
    """

    line: str
    code: str
    name: str
    start: Optional[int] = None
    period: Optional[int] = None
    load: Optional[Fraction] = None
    limit: Optional[Fraction] = None

    def __str__(self) -> str:
        return MEANINGS[self.code].format(rule=self, load=_brief(self.load), limit=_brief(self.limit))


@dataclass(frozen=True)
class Key:
    """How a plan of a script stands: behind line `line` of it, or as it was given, in line 0.

    `violation` is how far it is outside the rules on loads and exclusions, and `score` its score.
    """

    line: int
    violation: Fraction
    score: int

    @property
    def feasible(self) -> bool:
        """Whether it keeps every rule: the starts of a script's plans are allowed."""
        return self.violation == 0


def _brief(number: Optional[Fraction]) -> str:
    return "" if number is None else shown(number).rstrip("0").rstrip(".")


def costs(report: Report) -> Dict[str, Range]:
    """The lines `cost`, `mean` and `excess`."""
    return {name: report.range(name) for name in ("cost", "mean", "excess")}


def broken_rule(text: str) -> Tuple[Rule, int]:
    """The rule of a report on a plan that breaks one, and how many numbers were rounded."""
    report = Report(text)
    report.take("infeasible")
    code = report.next()
    if code not in RULES:
        raise NoReport(f"line 2 names no rule: {code!r}", 2)
    line = report.lines[report.at]
    name, *values = report.take(code, *(form for _, form in RULES[code]))
    rule = Rule(line, code, name, **dict(zip((it for it, _ in RULES[code][1:]), values)))
    rounded: int = report.one("rounded")
    report.end()
    return rule, rounded


def keys_of(lines: List[str]) -> Tuple[Key, ...]:
    """The keys of lines, which are numbered from 0."""
    keys = []
    for number, line in enumerate(lines):
        words = line.split(" ")
        try:
            line_number, violation, score = map(whole_of, words)
        except ValueError:
            raise NoReport(f"line {number + 1} is no key: {line!r}", number + 1, line) from None
        if line_number != number:
            raise NoReport(f"line {number + 1} is numbered {line_number}", number + 1, line)
        keys.append(Key(number, Fraction(violation, COUNTS), score))
    return tuple(keys)


def refusal(said: str) -> Optional[str]:
    """The last line of what a program says, where that is a refusal."""
    lines = said.split("\n")
    line = lines[-2] if len(lines) > 1 else ""
    return line if line.startswith("refused ") else None


def read_report(text: str) -> Texts:
    """The parts of a report of `evaluate`, `check`, `solve` or `repair` by name, as the texts that stand there:
    `verdict`, the values, and `rule` with the parts of a broken one; of a refusal only `refused`.
    """
    lines = text.split("\n")
    if len(lines) < 2 or lines[-1] != "":
        raise NoReport(f"a report of whole lines, and not {text[:80]!r}")
    if len(lines) == 2 and lines[0].startswith("refused "):
        return {"refused": lines[0][len("refused "):]}
    if lines[0] not in HEADS:
        raise NoReport(f"the first line of a report, and not {lines[0][:80]!r}")
    found: Texts = {"verdict": lines[0]}
    for line in lines[1:-1]:
        name, *given = line.split(" ")
        if lines[0] == "infeasible" and name in RULES and len(given) == len(RULES[name]):
            found["rule"] = {"rule": name, **dict(zip((it for it, _ in RULES[name]), given))}
        elif name in VALUES and len(given) == len(VALUES[name]) and all(map(_is_value, given)):
            found.update(zip(VALUES[name], given))
        else:
            raise NoReport(f"a line of a report, and not {line[:80]!r}")
    return found


def _is_value(word: str) -> bool:
    return word == "none" or NUMBER.fullmatch(word) is not None


def values_of(said: str) -> Dict[str, str]:
    """The lines of any text by their first words, for a script that looks single values up."""
    return dict(line.split(" ", 1) for line in said.split("\n") if " " in line)


def whole_in(said: str, name: str) -> Optional[int]:
    """A whole number of a report, or None where it isn't there, or `none`.

    >>> whole_in("bound 12\\nrounded 0\\n", "bound"), whole_in("bound none\\n", "bound")
    (12, None)
    """
    word = values_of(said).get(name, "")
    return int(word) if WHOLE.fullmatch(word) else None


def says_no_plan(said: str) -> bool:
    """Whether a report of `check` says that no plan keeps the rules."""
    return values_of(said).get("bound") == "none"


def first_line(said: str) -> str:
    """The beginning of what a program said, for a message."""
    return said.split("\n", 1)[0][:200]


def periods_of(said: str) -> Optional[int]:
    """How many periods there are, by the bound of `check` and the cost that it stands for, or by the score of
    `evaluate` and its cost; None where these are too small to tell.
    """
    values = values_of(said)
    for name, other in (("bound", "bound-cost"), ("score", "cost")):
        value, cost = whole_in(said, name), values.get(other, "").split(" ")[0]
        if value and DECIMAL.fullmatch(cost) and abs(Fraction(cost)) >= Fraction(1, 10 ** 6):
            return round(value / (Fraction(cost) * SCORES))
    return None
