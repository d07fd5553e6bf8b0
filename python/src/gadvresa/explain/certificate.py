"""Finds what a line says of a certificate in its text."""
from __future__ import annotations

import re
from dataclasses import dataclass
from typing import Callable, Dict, List, Optional, Sequence, Tuple

from .case import Case, Interval, Leaf
from .finding import Finding
from .lines import BLANK, END, Finder, Line, Part, line_at, line_given
from .text import Unfit, counted, expect, shown

NUMBER = (rb"(?:0(?![0-9])|[1-9][0-9]{0,18})", "a number of 1 to 19 digits without a needless 0")
BOUND = (rb"(?:none|0(?![0-9])|-?[1-9][0-9]{0,36})", "`none`, or a number of 1 to 37 digits without a needless 0")
ONE_MORE = rb" (?:0(?![0-9])|[1-9][0-9]{0,18})(?= |\Z)"
MORE, PAIRS = (rb"(?:" + ONE_MORE + rb")*", "numbers"), (rb"(?:" + ONE_MORE + ONE_MORE + rb")*", "pairs of numbers")


def form(word: bytes, *parts: Part) -> List[Part]:
    """A form that begins with a word."""
    return [(word, f"`{word.decode()}`"), *parts, END]


def numbers(count: int) -> List[Part]:
    """So many numbers, each behind a blank."""
    return [BLANK, NUMBER] * count


def or_end(what: str) -> Part:
    """The end of a line in which more could stand."""
    return rb"\Z", f"{what}, or the end of the line"


# The forms by their names on the page, where the second one of a word is that of version 3.
LINES = {
    b"mpcert": form(b"mpcert", BLANK, (rb"[123]", "1, 2 or 3")),
    b"bound": form(b"bound", BLANK, BOUND),
    b"lists": form(b"lists", *numbers(1)),
    b"prices": form(b"prices"),
    b"tree": form(b"tree"),
    b"up": form(b"up", *numbers(3)),
    b"lo": form(b"lo", *numbers(3)),
    b"tail": form(b"tail", *numbers(2), MORE, or_end("a scenario behind one blank")),
    b"ex": form(b"ex", *numbers(3)),
    b"cap": form(b"cap"),
    b"tail 3": form(b"tail", *numbers(1), PAIRS, or_end("a scenario and its weight, each behind one blank")),
    b"off": form(b"off", *numbers(4)),
    b"clq": form(b"clq", *numbers(2), MORE, or_end("an intervention behind one blank")),
    b"split": form(b"split", *numbers(2)),
    b"cost": form(b"cost", *numbers(1)),
    b"point": form(b"point"),
    b"band": form(b"band", *numbers(2), BLANK, (rb"over|under", "`over` or `under`")),
    b"excl": form(b"excl", *numbers(1)),
    b"empty": form(b"empty", *numbers(1)),
}
FIRST_LINES = [[b"mpcert"], [b"bound"], [b"lists"]]
# The entries of a price list by the version, in their order.
ENTRIES = {1: [b"up", b"lo", b"tail"], 2: [b"up", b"lo", b"tail", b"ex"],
           3: [b"up", b"lo", b"ex", b"cap", b"tail", b"off", b"clq"]}
NODES = [b"split", b"cost", b"point", b"band", b"excl", b"empty"]
NODE = re.compile(rb"(?:split ([0-9]{1,19}) ([0-9]{1,19})|[^\n]*)\n")
SHOWN_SPLITS = 8


@dataclass
class Split:
    """A split above a node: its line, its intervention and start, and whether the node is in its left part."""

    number: int
    intervention: int
    start: int
    is_left: bool = True


class Walk:
    """A walk over the lines of a certificate: what may stand at the next one, and the splits above it."""

    def __init__(self, case: Case) -> None:
        self.case, self.number, self.at = case, 0, 0
        # (both are said by the first lines, before anything is asked of them)
        self.version, self.lists, self.begun = 0, 0, 0
        self.last: Optional[Tuple[int, ...]] = None
        self.groups: Tuple[Optional[bytes], int] = (None, 0)
        self.splits: List[Split] = []
        self.leaves, self.in_tree, self.has_ended = 0, False, False

    def awaited(self) -> List[bytes]:
        """The words that the next line may begin with."""
        if self.number < len(FIRST_LINES):
            return FIRST_LINES[self.number]
        if self.in_tree:
            return [] if self.has_ended else NODES
        entries = ENTRIES[self.version] if self.begun else []
        return entries + ([b"prices"] if self.begun < self.lists else [b"tree"])

    def name(self, line: Line) -> bytes:
        """The name of the form that a line has to have, by its word."""
        word = line.words()[0]
        return word + b" 3" if self.version == 3 and word + b" 3" in LINES else word

    def is_entry(self, line: Line) -> bool:
        """Whether a line is an entry of a price list."""
        return self.begun > 0 and not self.in_tree and line.words()[0] in ENTRIES[self.version]

    def fault(self, line: Line) -> Optional[Tuple[int, str]]:
        """Where a line leaves the forms that may stand there, and what is due at that place; None if it may stand."""
        word = line.words()[0]
        if word not in self.awaited():
            return line.at, words_text(self.awaited()) or "the end of the file"
        return line.off_form(LINES[self.name(line)]) or (self.order_fault(line) if self.is_entry(line) else None)

    def order_fault(self, line: Line) -> Optional[Tuple[int, str]]:
        """Where an entry isn't above the last one, or a place that it names isn't above the one before it."""
        if self.last is not None and self.key(line) <= self.last:
            return line.word_at(1), "an entry above the one before"
        first, step, what = LISTED.get(self.name(line), (0, 1, None))
        places = [int(word) for word in line.words()[first::step]] if what else []
        for number in range(1, len(places)):
            if places[number] <= places[number - 1]:
                return line.word_at(first + step * number), f"{what} above {places[number - 1]}"
        return None

    def key(self, line: Line) -> Tuple[int, ...]:
        """What entries are sorted by: their kind, and the numbers of their place."""
        name, numbers = self.name(line), [int(word) for word in line.words()[1:]]
        return (ENTRIES[self.version].index(line.words()[0]), *PLACES[name](numbers))

    def next_line(self) -> Optional[Line]:
        """The line that comes next; None where the text ends before its line feed."""
        end = self.case.data.find(b"\n", self.at)
        return None if end < 0 else Line(self.case, self.number + 1, self.at, end)

    def take(self, line: Line) -> None:
        """Goes past the next line, which is none of a node, and may stand there."""
        words = line.words()
        expect(self.fault(line) is None, f"{line}, can't stand there, and would be refused")
        self.number, self.at = line.number, line.at + len(line.bytes) + 1
        if words[0] == b"mpcert":
            self.version = int(words[1])
        elif words[0] == b"lists":
            self.lists = int(words[1])
        elif words[0] == b"prices":
            self.begun, self.last = self.begun + 1, None
        elif words[0] == b"tree":
            self.in_tree = True
        elif self.is_entry(line):
            self.last = self.key(line)
        self.groups = self.groups_to(line)

    def groups_to(self, line: Line) -> Tuple[Optional[bytes], int]:
        """The period of a line that is a group of scenarios, and how many of its lines there are in a row up to it."""
        if self.name(line) != b"tail 3":
            return None, 0
        period, count = self.groups
        return line.words()[1], 1 + (count if period == line.words()[1] else 0)

    def take_nodes(self, number: Optional[int], leaf: Optional[int]) -> None:
        """Goes past nodes up to a line or a leaf. Each is a split, or taken for a leaf: there may be millions."""
        splits, count = self.splits, self.number + 1
        for node in NODE.finditer(self.case.data, self.at):
            if count == number or self.has_ended or self.leaves + 1 == leaf and node[1] is None:
                break
            if node[1] is not None:
                splits.append(Split(count, int(node[1]), int(node[2])))
            else:
                self.end_leaf()
            count, self.at = count + 1, node.end()
        self.number = count - 1

    def end_leaf(self) -> None:
        """Goes on to the right part of the last split that has it still to come; without one the tree has ended."""
        self.leaves += 1
        while self.splits and not self.splits[-1].is_left:
            self.splits.pop()
        if self.splits:
            self.splits[-1].is_left = False
        self.has_ended = not self.splits

    def walk_to(self, number: Optional[int] = None, leaf: Optional[int] = None) -> Optional[Line]:
        """Goes on to a line, or to a leaf, and answers that line; None where the text ends before its line feed."""
        line = self.next_line()
        while line is not None and line.number != number and not self.in_tree:
            self.take(line)
            line = self.next_line()
        if self.in_tree:
            self.take_nodes(number, leaf)
        line = self.next_line()
        return line if line is not None and (line.number == number or leaf is not None) else None

    def interval(self, intervention: int) -> str:
        """The starts of an intervention that the splits above the next node leave, in words."""
        return interval_text(*self.box().get(intervention, (1, None)))

    def box(self) -> Dict[int, Interval]:
        """The first and the last start of each intervention that is split above the next node; None is `tmax`."""
        intervals: Dict[int, Interval] = {}
        for split in self.splits:
            first, last = intervals.get(split.intervention, (1, None))
            intervals[split.intervention] = (first, split.start) if split.is_left else (split.start + 1, last)
        return intervals

    def box_text(self) -> str:
        """The box of the next node in words."""
        parts = [f"intervention {one}: starts {interval_text(*starts)}" for one, starts in sorted(self.box().items())]
        return "; ".join(parts + [("every other" if parts else "every") + " intervention: all its starts"])

    def splits_text(self) -> str:
        """The splits above the next node in words."""
        parts = [
            f"line {split.number} (its {'left' if split.is_left else 'right'} part)"
            for split in self.splits[-SHOWN_SPLITS:]
        ]
        more = [f"{len(self.splits) - SHOWN_SPLITS} more"] if len(self.splits) > SHOWN_SPLITS else []
        return ", ".join(more + parts) or "none"


# The numbers of an entry that are its place; and what it lists, which has to ascend: from which word on, in steps of
# how many, and what each one is.
PLACES: Dict[bytes, Callable[[List[int]], List[int]]] = {
          b"up": lambda it: it[:2], b"lo": lambda it: it[:2], b"ex": lambda it: it[:2], b"tail": lambda it: it[:1],
          b"cap": lambda it: [], b"tail 3": lambda it: it[:2], b"off": lambda it: it[:3],
          b"clq": lambda it: [it[0], *it[2:]]}
LISTED: Dict[bytes, Tuple[int, int, str]] = {
          b"tail": (3, 1, "a scenario"), b"tail 3": (2, 2, "a scenario"), b"clq": (3, 1, "an intervention")}


def interval_text(first: int, last: Optional[int]) -> str:
    """An interval of starts in words."""
    return f"{first} to {'`tmax`' if last is None else last}"


def words_text(words: Sequence[bytes]) -> str:
    """Words of which one is due."""
    return " or ".join(f"`{word.decode()}`" for word in words)


def walk_to_line(case: Case) -> Tuple[Walk, Optional[Line]]:
    """A walk up to line N, and that line; None where the text ends before its line feed."""
    walk = Walk(case)
    return walk, walk.walk_to(number=case.number("N"))


def form_text(case: Case, walk: Walk, line: Line) -> str:
    """The form of a line, and what it says."""
    known = case.page.forms[walk.name(line).decode()]
    return f"{known.spelled}: {known.meaning}"


def cut(case: Case) -> Finding:
    walk, line = walk_to_line(case)
    number = case.number("N")
    expect(line is None and walk.number == number - 1, f"line {number} isn't where {case.text.name} ends")
    expect(walk.awaited(), f"the tree of {case.text.name} ends before line {number}")
    finding = Finding(len(case.text))
    finding.say("due here", f"line {number}, beginning with {words_text(walk.awaited())}, up to its line feed")
    if walk.in_tree:
        boxes = 1 + sum(split.is_left for split in walk.splits)
        finding.say("found", f"{counted(boxes, 'box', 'boxes')} without a node")
    return finding


def bad_line(case: Case) -> Finding:
    walk, line = walk_to_line(case)
    number = case.number("N")
    if line is None:
        line = line_given(case)
        expect(walk.has_ended and walk.number == number - 1, f"line {number} of {case.text.name} has no line feed")
    fault = walk.fault(line)
    if fault is None and line.bytes == b"mpcert 3":
        fault = line.word_at(1), "1 or 2, where `planner_cli` reads it: 3 is for `plan_refine`, as `planner` starts it"
    if fault is None:
        raise Unfit(f"{line}, may stand there")
    finding = Finding(fault[0]).say("due here", fault[1])
    return finding.say("the line", form_text(case, walk, line)) if line.words()[0] in LINES else finding


def bounds(case: Case) -> Finding:
    walk, line = walk_to_line(case)
    if line is None:
        raise Unfit(f"{case.text.name} has no whole line {case.number('N')}: that is past its end")
    expect(walk.fault(line) is None, f"{line}, can't stand there, which is another refusal")
    words = line.words()
    finding = Finding(line.word_at(1))
    finding.say("the line", form_text(case, walk, line)).say("ranges", case.page.forms[walk.name(line).decode()].ranges)
    period, count = walk.groups
    if period is not None and walk.groups_to(line)[0] != period:
        finding.say("before it", f"{counted(count, 'group')} of period {shown(period)}, all that it has: too few?")
    if words[0] == b"split":
        finding.say("found", f"S is {shown(words[2])}, and the interval of I is {walk.interval(int(words[1]))}")
    if words[0] == b"cost":
        finding.say("found", f"J is {shown(words[1])}, and M is {walk.lists}")
    return finding


def leaf(case: Case) -> Finding:
    walk, number = Walk(case), case.number("N")
    line = walk.walk_to(leaf=number)
    if line is None or walk.has_ended:
        leaves = counted(walk.leaves, "leaf", "leaves")
        raise Unfit(f"{case.text.name} has {leaves}: leaf {number} is past its end")
    expect(walk.fault(line) is None, f"{line}, can't stand there, which is another refusal")
    finding = Finding(line.at).say("the leaf", form_text(case, walk, line))
    finding.say("the claim", shown(line_at(case, 2).bytes))
    if case.question is None:
        return finding.say("its box", walk.box_text()).say("splits above", walk.splits_text())
    box, why = case.judge(case.question, leaf_of(case, walk, line))
    if why is None:
        about = "scores" if case.question.plan is None else "changes from this plan"
        raise Unfit(f"the leaf holds for {case.question.instance} and {about}: is it the instance of that call?")
    return finding.say("its box", box).say("splits above", walk.splits_text()).say("it fails", why)


def leaf_of(case: Case, walk: Walk, line: Line) -> Leaf:
    """The leaf of a line, to be judged for an instance."""
    bound, before = line_at(case, 2).words()[1], case.data[:].partition(b"\ntree\n")[0]
    return Leaf(line.words(), walk.box(), None if bound == b"none" else int(bound), before)


FINDERS: Dict[str, Finder] = {
    "certificate cut": cut,
    "certificate bad line": bad_line,
    "certificate bounds": bounds,
    "certificate leaf": leaf,
}
