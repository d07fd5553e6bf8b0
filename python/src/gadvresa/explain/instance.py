"""Finds what a line says of an instance in its JSON text."""
from __future__ import annotations

from decimal import ROUND_HALF_UP, Decimal, InvalidOperation
from typing import Dict, Iterator, List, Optional, Sequence, Set, Tuple

from ..model.json_text import Level
from .case import Case
from .finding import Finding, Step
from .lines import Finder
from .text import Unfit, counted, described, expect, shown

NAME_BYTES = 128
COUNT, MOST_SLACK = Decimal("0.000000000001"), Decimal("0.001")


# ---- lines with an offset

def at_offset(case: Case) -> Tuple[int, Finding, List[Level]]:
    """AT; the value, key or end there, with what leads to it; and what is open there."""
    at = case.number("AT")
    expect(at < len(case.text), past_end(case))
    levels, _ = case.json.open_at(at)
    return at, Finding(at, case.json.steps_at(levels, at)), levels


def past_end(case: Case) -> str:
    """What is said of an offset that the file hasn't."""
    size = counted(len(case.text), "byte")
    return f"{case.text.name} has {size}: byte {case.number('AT')} is past its end"


def innermost(case: Case, levels: Sequence[Level]) -> Level:
    """The list or object that is open at AT, and is in all others."""
    expect(levels, f"no list and no object is open at byte {case.number('AT')} of {case.text.name}")
    return levels[-1]


def begun(case: Case, level: Level) -> str:
    """An open object or list in words."""
    return f"{'a list' if level.is_list else 'an object'} that begins at {case.where(level.at)}"


def key_at(case: Case, at: int) -> bytes:
    """The key at a place."""
    expect(case.json.byte(at) == b'"', f"no text begins at byte {at} of {case.text.name}")
    return case.json.text(at)


def syntax(case: Case) -> Finding:
    at, size = case.number("AT"), len(case.text)
    expect(at <= size, past_end(case))
    levels, string = case.json.open_at(at)
    finding = Finding(at, case.json.steps_at(levels, at))
    if at == 0 and case.data[:3] == b"\xef\xbb\xbf":
        finding.say("found", "a byte order mark")
    else:
        finding.say("found", described(case.data[at]) if at < size else "the end of the file")
    if string is not None:
        finding.say("still open", f"a text that begins at {case.where(string)}")
    for level in levels[:-4:-1]:
        finding.say("still open", begun(case, level))
    return finding


def too_deep(case: Case) -> Finding:
    _, finding, levels = at_offset(case)
    return finding.say("found", f"{len(levels)} lists and objects round it")


def double(case: Case) -> Finding:
    place, finding, levels = at_offset(case)
    key = key_at(case, place)
    for at, earlier, _ in case.json.members(innermost(case, levels).at):
        if at >= place:
            break
        if is_same_key(key, earlier, has_numbers(finding.steps)):
            return finding.say("found", f"the key {shown(key)}, and {shown(earlier)} at {case.where(at)}")
    raise Unfit(f"no earlier key of this object equals {shown(key)}")


def has_numbers(steps: Sequence[Step]) -> bool:
    """Whether the keys of the object to which some steps lead are periods or starts."""
    if len(steps) < 3 or steps[0] != b"Interventions":
        return False
    return steps[2] == b"risk" or steps[2] == b"workload" and len(steps) > 3


def is_same_key(one: bytes, other: bytes, numbers: bool) -> bool:
    """Whether two keys are the same, which may be numbers that are written differently."""
    return one == other or (numbers and number_of(one) is not None and number_of(one) == number_of(other))


def number_of(key: bytes) -> Optional[int]:
    """The number that a key is, if it is one."""
    return int(key) if key.isdigit() and len(key) <= 9 else None


def bad_name(case: Case) -> Finding:
    at, finding, _ = at_offset(case)
    name = key_at(case, at)
    odd = next((place for place, byte in enumerate(name) if byte <= 32 or byte == 127), None)
    expect(not name or len(name) > NAME_BYTES or odd is not None, f"{shown(name)} is a name")
    if not name:
        return finding.say("found", "an empty text")
    if odd is None:
        return finding.say("found", f"a text of {len(name)} bytes")
    return finding.say("found", f"byte {odd + 1} of the text is {described(name[odd])}")


def missing(case: Case) -> Finding:
    at, finding, levels = at_offset(case)
    expect(case.json.byte(at) == b"}", f"no object ends at byte {at} of {case.text.name}")
    return finding.say("found", f"{begun(case, innermost(case, levels))}, without the key {shown(case.word('KEY'))}")


def shape(case: Case) -> Finding:
    at, finding, levels = at_offset(case)
    keys = [step for step in finding.steps if isinstance(step, bytes)]
    due = case.page.due_at(keys)
    if due is not None:
        finding.say("due here", due if keys == finding.steps else f"an element of {due}")
    finding.say("found", found_at(case, at, levels))
    return nearest_millionth(case, at, finding) if finding.steps in ([b"Alpha"], [b"Quantile"]) else finding


def nearest_millionth(case: Case, at: int, finding: Finding) -> Finding:
    """Says which number to write where one has more than 6 decimals."""
    try:
        number = Decimal(case.json.value(at).decode())
    except (InvalidOperation, ValueError):
        return finding
    near = number.quantize(Decimal("0.000001"), ROUND_HALF_UP) if 0 <= number <= 1 else None
    return finding if near is None else finding.say("nearest", f"{near}, of those with 6 decimals")


def found_at(case: Case, at: int, levels: Sequence[Level]) -> str:
    """The value, the key or the end at a place, in words."""
    first = case.json.byte(at)
    if first == b"]":
        return f"the end of a list of {counted(case.json.count(innermost(case, levels).at), 'element')}"
    if first == b'"':
        return f"the {'key' if levels and levels[-1].wants_key else 'text'} {shown(case.json.text(at))}"
    return {b"[": "a list", b"{": "an object"}.get(first) or shown(case.json.value(at))


def too_large(case: Case) -> Finding:
    at, finding, _ = at_offset(case)
    return finding.say("found", shown(case.json.value(at)))


def limit(case: Case) -> Finding:
    at, finding, levels = at_offset(case)
    word = shown(case.word("WORD"))
    expect(word in case.page.limits, f"there is no limit {word}")
    return finding.say("limit", case.page.limits[word]).say("found", found_at(case, at, levels))


# ---- lines across the file

class Instance:
    """The values of the root, and what is looked up below them. `steps` are the keys that lead to a value."""

    def __init__(self, case: Case) -> None:
        self.case, self.json = case, case.json
        self.root = {key: value for _, key, value in case.json.members(case.json.past_blanks(0))}

    def of_root(self, key: bytes) -> int:
        """Where the value under a key of the root begins."""
        expect(key in self.root, f"{self.case.text.name} has no {shown(key)}")
        return self.root[key]

    def at(self, steps: Sequence[bytes]) -> int:
        """Where the value that some keys lead to begins."""
        at = self.of_root(steps[0])
        for count, step in enumerate(steps[1:], 1):
            found = self.member(at, step, has_numbers(steps[:count]))
            if found is None:
                raise Unfit(f"{self.case.text.name} has no {path(steps[:count + 1])}")
            at = found
        return at

    def member(self, at: int, wanted: bytes, numbers: bool) -> Optional[int]:
        """Where the value under a key of the object at a place begins; None where there is no such key."""
        for _, key, value in self.json.members(at):
            if is_same_key(wanted, key, numbers):
                return value
        return None

    def keys(self, home: bytes) -> Set[bytes]:
        """The keys of the object under a key of the root."""
        return {key for _, key, _ in self.json.members(self.of_root(home))}

    def count(self, steps: Sequence[bytes]) -> int:
        """How many elements a list has."""
        return self.json.count(self.at(steps))

    def element(self, steps: Sequence[bytes], number: int) -> int:
        """Where an element of a list begins, counted from 1."""
        for count, at in enumerate(self.json.elements(self.at(steps)), 1):
            if count == number:
                return at
        raise Unfit(f"{path(steps)} of {self.case.text.name} has no element {number}")

    def whole(self, at: int) -> int:
        """The whole number at a place, which may be written as a text."""
        raw = self.json.text(at) if self.json.byte(at) == b'"' else self.json.value(at)
        try:
            number = Decimal(raw.decode())
            if number == 0 or number.adjusted() < 9 and number == int(number):
                return int(number) if number else 0
        except (InvalidOperation, ValueError, OverflowError):
            pass
        raise Unfit(f"{shown(raw)}, at {self.case.where(at)}, is no whole")

    def periods(self) -> int:
        """The number of periods."""
        return self.whole(self.of_root(b"T"))


def path(steps: Sequence[Step]) -> str:
    """The keys and numbers of elements that lead to a value, in words."""
    return " / ".join(f"element {step}" if isinstance(step, int) else shown(step) for step in steps)


def scenario_list(case: Case) -> Finding:
    instance, steps = Instance(case), [b"Scenarios_number"]
    count, periods = instance.count(steps), instance.periods()
    expect(count != periods, "`Scenarios_number` has T elements")
    return Finding(instance.at(steps), steps).say("found", f"{counted(count, 'element')}, and T is {periods}")


def band_length(case: Case) -> Finding:
    instance = Instance(case)
    periods = instance.periods()
    for key in (b"max", b"min"):
        steps = [b"Resources", case.word("NAME"), key]
        count = instance.count(steps)
        if count != periods:
            return Finding(instance.at(steps), steps).say("found", f"{counted(count, 'element')}, and T is {periods}")
    raise Unfit("its `max` and its `min` have T elements")


def bad_tmax(case: Case) -> Finding:
    instance, steps = Instance(case), [b"Interventions", case.word("NAME"), b"tmax"]
    tmax, periods = instance.whole(instance.at(steps)), instance.periods()
    expect(not 1 <= tmax <= periods, f"its `tmax`, {tmax}, is from 1 to T, which is {periods}")
    return Finding(instance.at(steps), steps).say("found", f"{tmax}, and T is {periods}")


def no_delta(case: Case) -> Finding:
    instance, name = Instance(case), case.word("NAME")
    steps = [b"Interventions", name, b"Delta"]
    count, tmax = instance.count(steps), instance.whole(instance.at([b"Interventions", name, b"tmax"]))
    expect(count < tmax, f"its `Delta` has {counted(count, 'element')}, and `tmax` is {tmax}")
    return Finding(instance.at(steps), steps).say("found", f"{counted(count, 'element')}, and `tmax` is {tmax}")


def unknown(case: Case) -> Finding:
    instance, name = Instance(case), case.word("NAME")
    for at, steps, home in named(instance):
        if case.json.text(at) == name and name not in instance.keys(home):
            return Finding(at, steps).say("found", f"{shown(name)}, which is no key of `{home.decode()}`")
    raise Unfit(f"{case.text.name} has no name {shown(name)} that it doesn't know")


def named(instance: Instance) -> Iterator[Tuple[int, List[Step], bytes]]:
    """Where each name stands that has to be known: its place, what leads to it, and where it has to be a key."""
    for _, intervention, value in instance.json.members(instance.of_root(b"Interventions")):
        steps: List[Step] = [b"Interventions", intervention, b"workload"]
        workload = instance.member(value, b"workload", False)
        if workload is None:
            raise Unfit(f"{instance.case.text.name} has no {path(steps)}")
        for at, _, _ in instance.json.members(workload):
            yield at, steps, b"Resources"
    for _, exclusion, value in instance.json.members(instance.of_root(b"Exclusions")):
        homes = [b"Interventions", b"Interventions", b"Seasons"]
        for number, (at, home) in enumerate(zip(instance.json.elements(value), homes), 1):
            yield at, [b"Exclusions", exclusion, number], home


def no_risk(case: Case) -> Finding:
    instance, steps = Instance(case), [b"Interventions", case.word("NAME"), b"risk"]
    for what, number in (("period", case.number("PERIOD")), ("start", case.number("START"))):
        at = instance.at(steps)
        if instance.member(at, b"%d" % number, True) is None:
            finding = Finding(case.json.end_of(at) - 1, steps)
            return finding.say("found", f"an object that begins at {case.where(at)}, without a key for {what} {number}")
        steps = steps + [b"%d" % number]
    raise Unfit(f"{case.text.name} has {path(steps)}")


def scenario_count(case: Case) -> Finding:
    instance, period = Instance(case), case.number("PERIOD")
    steps = [b"Interventions", case.word("NAME"), b"risk", b"%d" % period, b"%d" % case.number("START")]
    count, due = instance.count(steps), instance.whole(instance.element([b"Scenarios_number"], period))
    what = f"{counted(count, 'number')}, and `Scenarios_number` says {due}"
    expect(count != due, f"the list has {what}")
    return Finding(instance.at(steps), steps).say("found", what)


# ---- broken rules

def no_start(case: Case) -> Finding:
    instance, name = Instance(case), case.word("NAME")
    for at, key, _ in case.json.members(instance.of_root(b"Interventions")):
        if key == name:
            return Finding(at, [b"Interventions", name])
    raise Unfit(f"{case.text.name} has no intervention {shown(name)}")


def outside(case: Case) -> Finding:
    instance, start = Instance(case), case.number("START")
    steps = [b"Interventions", case.word("NAME"), b"tmax"]
    tmax = instance.whole(instance.at(steps))
    expect(not 1 <= start <= tmax, f"its `tmax` is {tmax}")
    return Finding(instance.at(steps), steps).say("found", f"`tmax` is {tmax}")


def past_horizon(case: Case) -> Finding:
    instance, start, name = Instance(case), case.number("START"), case.word("NAME")
    steps = [b"Interventions", name, b"Delta"]
    at, periods = instance.element(steps, start), instance.periods()
    duration = instance.whole(at)
    what = f"duration {duration}, so that the run ends in period {start + duration - 1}, and T is {periods}"
    expect(start + duration > periods + 1, what)
    finding = Finding(at, [*steps, start]).say("found", what)
    return finding if duration != periods + 1 else finding.say("rolled", left_text(instance, steps, name, start))


def left_text(instance: Instance, steps: Sequence[bytes], name: bytes, start: int) -> str:
    """What is left of an intervention where `roll` wrote its duration at a start, which is T + 1 then."""
    periods, last = instance.periods(), instance.whole(instance.at([b"Interventions", name, b"tmax"]))
    durations = [instance.whole(at) for at in instance.json.elements(instance.at(steps))][:last]
    left = [s for s, duration in enumerate(durations, 1) if s + duration <= periods + 1]
    text = "a duration of T + 1 is what `roll` writes for a start that isn't left"
    if len(left) == 1 and left[0] < start:
        return f"{text}: {shown(name)} has begun in period {left[0]}, and keeps that start"
    if left:
        return f"{text}: the first start that is left is {left[0]}, and earlier ones are past, or the work has begun"
    return text


def over(case: Case) -> Finding:
    return band(case, b"max")


def under(case: Case) -> Finding:
    return band(case, b"min")


def band(case: Case, key: bytes) -> Finding:
    """The limit that a load is outside of."""
    steps, period = [b"Resources", case.word("RESOURCE"), key], case.number("PERIOD")
    at = Instance(case).element(steps, period)
    written, load, limit = case.json.value(at), case.word("LOAD"), case.word("LIMIT")
    try:
        kept = Decimal(written.decode()).quantize(COUNT, ROUND_HALF_UP)
        slack, above = Decimal(limit.decode()) - kept, Decimal(load.decode()) - Decimal(limit.decode())
    except (InvalidOperation, ValueError):
        raise Unfit(f"{shown(written)}, {shown(load)} or {shown(limit)} is no number") from None
    if key == b"min":
        slack, above = -slack, -above
    what = f"{path([*steps, period])} of {case.text.name} is {shown(written)}, which no slack makes {shown(limit)}"
    expect(0 <= slack <= MOST_SLACK, f"{what}: the line is of another instance")
    expect(above > 0, f"a load of {shown(load)} keeps the limit of {shown(limit)}")
    widened = f", which slack={slack.normalize():f} makes {shown(limit)}" if slack else ""
    off = f"{above:f} {'above' if key == b'max' else 'below'} it"
    return Finding(at, [*steps, period]).say("found", f"{shown(written)}{widened}; the load is {shown(load)}, {off}")


def clash(case: Case) -> Finding:
    instance, exclusion, period = Instance(case), case.word("EXCLUSION"), case.number("PERIOD")
    steps = [b"Exclusions", exclusion]
    names = [case.json.text(place) for place in case.json.elements(instance.at(steps))]
    expect(len(names) == 3, f"{path(steps)} hasn't three texts")
    for place in case.json.elements(instance.at([b"Seasons", names[2]])):
        if instance.whole(place) == period:
            first, second, season = map(shown, names)
            finding = Finding(instance.at(steps), steps)
            finding.say("found", f"{first} and {second}, in season {season}")
            return finding.say("found", f"period {period} of the season, at {case.where(place)}")
    raise Unfit(f"season {shown(names[2])} hasn't period {period}")


FINDERS: Dict[str, Finder] = {
    "instance syntax": syntax,
    "instance too deep": too_deep,
    "instance double": double,
    "instance bad name": bad_name,
    "instance missing": missing,
    "instance shape": shape,
    "instance too large": too_large,
    "instance limit": limit,
    "instance scenario list": scenario_list,
    "instance band length": band_length,
    "instance bad tmax": bad_tmax,
    "instance no delta": no_delta,
    "instance unknown": unknown,
    "instance no risk": no_risk,
    "instance scenario count": scenario_count,
}
RULES: Dict[str, Finder] = {"S1": no_start, "S2": outside, "S3": past_horizon, "B1": over, "B2": under, "X1": clash}
