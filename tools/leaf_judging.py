"""Says by how much a leaf of a certificate fails for an instance: read and computed anew, without the program.

The plain judge computes it, which is independent of the package `gadvresa`. So this stands apart, and tools/explain
hands it to `gadvresa.explain`.
"""
import json

import plain_faults
from gadvresa.explain.case import JudgedLeaf
from gadvresa.explain.text import Unfit, expect, shown

MILLION, CHANGE = plain_faults.MILLION, 10 ** 18


class Instance(plain_faults.Instance):
    """The tables of an instance file, which a program has read without a refusal."""

    def __init__(self, name, slack):
        with open(name, "rb") as file:
            text = file.read()
        try:
            self.take(node(json.loads(text, object_pairs_hook=Members, parse_int=Token, parse_float=Token)), slack)
        except (plain_faults.Fault, ValueError, AttributeError, TypeError, LookupError):
            raise Unfit(f"{name} isn't an instance that a program reads") from None

    def name(self, i):
        return shown(self.names[i])


class Members(list):
    """The members of an object."""


class Token(str):
    """A number as it is written."""


def node(value):
    """A value as `plain_faults` has it."""
    if isinstance(value, Members):
        return plain_faults.Node("object", 0, 0, [(0, key.encode(), node(item)) for key, item in value])
    if isinstance(value, list):
        return plain_faults.Node("list", 0, 0, [node(item) for item in value])
    if isinstance(value, Token):
        return plain_faults.Node("number", 0, 0, str(value))
    if isinstance(value, str):
        return plain_faults.Node("text", 0, 0, value.encode())
    return plain_faults.Node("word", 0, 0, value)


class Changed(plain_faults.Judged):
    """Leaves and prices for the number of changes from an old plan."""

    def __init__(self, inst, old):
        super().__init__(inst)
        self.old = old

    def base(self, prices, i, s):
        return CHANGE * (s != self.old[i])

    def score(self, starts):
        return sum(self.base(None, i, s) for i, s in enumerate(starts))


class Leaf:
    """A leaf of a certificate: its words, its box, the claim, and the price lists."""

    def __init__(self, inst, judged, words, box, bound, lists):
        self.inst, self.judged, self.words, self.box, self.bound, self.lists = inst, judged, words, box, bound, lists

    def starts(self, i):
        return self.judged.starts_in(self.box, i)

    def why(self):
        """Why it doesn't hold; None where it does."""
        kind = self.words[0].decode()
        empty = next((i for i in range(len(self.box)) if not self.starts(i)), None)
        if kind in ("cost", "band") and empty is not None:
            return f"{self.inst.name(empty)} has no allowed start there, so the leaf has to be an `empty`"
        numbers = [int(word) for word in self.words[1:3] if word.isdigit()]
        return getattr(self, kind)(*numbers)

    def below(self, what, worth):
        """By how much a worth is below the claim; None where it isn't."""
        if self.bound is None:
            return f"{what} {worth}, and the claim is that there is no plan"
        return None if worth >= self.bound else f"{what} {worth}, which is {self.bound - worth} below the claim"

    def cost(self, number):
        prices = self.lists[number - 1] if number else plain_faults.LIST_0
        return self.below(f"the worth of the box by list {number} is", self.judged.worth(prices, self.box))

    def point(self):
        wide = [i for i, (first, last) in enumerate(self.box) if first != last]
        if wide:
            return f"{self.inst.name(wide[0])} has more than one start there, so it is more than one plan"
        starts = [first for first, _ in self.box]
        if self.judged.broken(starts):
            return None
        what = "its changes count" if isinstance(self.judged, Changed) else "its score is"
        plan = ", ".join(f"{self.inst.name(i)} {s}" for i, s in enumerate(starts))
        return self.below(f"the plan {plan} keeps every rule, and {what}", self.judged.score(starts))

    def band(self, c, t):
        is_over = self.words[3] == b"over"
        name, limit = shown(self.inst.resources[c - 1]), (self.inst.upper if is_over else self.inst.lower)[c - 1][t - 1]
        loads = [[self.inst.load(i, s, t, c - 1) for s in self.starts(i)] for i in range(len(self.box))]
        total = sum(map(min if is_over else max, loads))
        if total > limit if is_over else total < limit:
            return None
        which, what = ("least", "above the upper") if is_over else ("greatest", "below the lower")
        total, limit, off = (plain_faults.decimal(count) for count in (total, limit, abs(total - limit)))
        return (f"the {which} loads of {name} in period {t} add up to {total}, which isn't {what} limit of {limit}: "
                f"{off} are lacking")

    def excl(self, number):
        name, one, two, season = self.inst.exclusions[number - 1]
        for s in self.starts(one):
            for u in self.starts(two):
                if not set(self.inst.run(one, s)) & set(self.inst.run(two, u)) & season:
                    both = f"{self.inst.name(one)} at start {s} and {self.inst.name(two)} at start {u}"
                    return f"{both} meet in no period of the season of {shown(name)}"
        return None

    def empty(self, number):
        starts = self.starts(number - 1)
        return f"{self.inst.name(number - 1)} may start in {starts[0]} there" if starts else None


def lists_of(inst, before):
    """The price lists of the text before a tree."""
    try:
        return plain_faults.Certificate(inst, before + b"\ntree\nempty 1\n", versions=(1, 2, 3)).lists
    except plain_faults.Fault as fault:
        raise Unfit(f"the price lists aren't those of such an instance: {fault} would be refused") from None


def judged_of(inst, plan):
    """What judges leaves: by scores, or by the changes from a plan, where that is given."""
    if plan is None:
        return plain_faults.Judged(inst)
    try:
        with open(plan, "rb") as file:
            return Changed(inst, plain_faults.read_plan(inst, file.read()))
    except plain_faults.Fault as fault:
        raise Unfit(f"{plan} isn't a plan that a program reads: {fault}") from None


def box_of(inst, splits):
    """A box by what splits leave; None stands for the last start."""
    box = [splits.get(i + 1, (1, None)) for i in range(len(inst.names))]
    expect(all(1 <= i <= len(box) for i in splits), "the instance has fewer interventions than the splits name")
    return [[first, inst.last(i) if last is None else last] for i, (first, last) in enumerate(box)]


def box_text(inst, box, splits):
    """The box of a leaf by names."""
    parts = [f"{inst.name(i - 1)}: starts {box[i - 1][0]} to {box[i - 1][1]}" for i in sorted(splits)]
    rest = ["every other intervention: all its starts" if parts else "all starts"][:len(box) - len(parts)]
    return "; ".join(parts + rest)


def judge(question, leaf):
    """Judges a leaf for an instance, and by the changes from a plan if one is given."""
    inst = Instance(question.instance, question.slack)
    box, lists = box_of(inst, leaf.splits), lists_of(inst, leaf.before)
    judged = judged_of(inst, question.plan)
    return JudgedLeaf(box_text(inst, box, leaf.splits), Leaf(inst, judged, leaf.words, box, leaf.claim, lists).why())
