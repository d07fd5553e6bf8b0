"""Makes a better plan and a better certificate of a case, by rounds of `improve`, `bound` and `solve` within a time.

The time is that of a processor, so that other work on the machine changes little. Whichever of the three has had least
of it comes next. Each `improve` has the next seed and twice the turns, and goes on from the best plan, or each second
time from none, as where limits are tight no way may lead from one plan to a better one. Each `bound` begins anew, with
four times the turns, so that one call makes its certificate again, until it has nothing left to split. `solve` has four
times the turns each time, too. What doesn't fit into the time isn't begun, as far as that of the call before tells.
"""
import math
from dataclasses import dataclass, field
from typing import Optional

import gadvresa
from beating.judging import OfPlan, file_of, made_again, score_of, spent
from beating.known import LONGEST_HOW, MOST_TURNS, gap_percent

# The turns of the first calls, and what those of the next one are multiplied by.
FIRST_IMPROVE, NEXT_IMPROVE = 10, 2
FIRST_BOUND, NEXT_BOUND = 100, 4
FIRST_SOLVE, NEXT_SOLVE = 100, 4
# The most processor seconds that a certificate may take which is made again.
LONGEST_AGAIN = 120


@dataclass
class Work:
    """One of the kinds of calls: its next turns, what these are multiplied by, how many calls there were, and what
    all of them took and the last one.
    """

    kind: str
    turns: int
    factor: int
    calls: int = 0
    total: float = 0.0
    last: float = 0.0

    def note(self, seconds, turns, first):
        self.calls, self.total, self.last = self.calls + 1, self.total + seconds, seconds
        self.turns = min(MOST_TURNS, max(first, turns * self.factor))


@dataclass
class Maker:
    """The best plan and the best certificate so far. `begun` says what the plan was made of, by the `steps` behind it;
    `whole` is the plan for which `bound` had nothing left to split, and `is_searched` that `solve` hadn't.
    """

    case: object
    words: object
    plan: OfPlan
    begun: str
    bound: Optional[int]
    certificate: object = None
    seed: int = 0
    steps: list = field(default_factory=list)
    improving: Work = field(default_factory=lambda: Work("improve", FIRST_IMPROVE, NEXT_IMPROVE))
    bounding: Work = field(default_factory=lambda: Work("bound", 0, NEXT_BOUND))
    solving: Work = field(default_factory=lambda: Work("solve", FIRST_SOLVE, NEXT_SOLVE))
    whole: Optional[bytes] = None
    is_searched: bool = False

    def made(self):
        """How the plan was made: the turns and the seed of each call of `improve` that bettered it."""
        if not self.steps:
            return self.begun
        text = f"{self.begun}, then improve by turns:seed {' '.join(self.steps)}"
        if len(text) > LONGEST_HOW:
            text = f"{self.begun}, then {len(self.steps)} calls of improve, the last by turns:seed {self.steps[-1]}"
        return text

    def note(self, answer, begun, steps):
        """Takes the plan of an answer, if it has a better one."""
        if answer.score is not None and answer.score < self.plan.score:
            self.begun, self.steps = begun, steps
            data = answer.plan.data()
            self.plan = OfPlan(data, score_of(self.case, data), self.words.take, self.made())

    def improve(self, turns):
        before, is_anew = spent(), self.improving.calls % 2 == 1
        given = None if is_anew else file_of(self.case, "improved", self.plan.data)
        answer = gadvresa.improve(self.case.instance, given, turns, self.seed)
        self.improving.note(spent() - before, turns, FIRST_IMPROVE)
        step = f"{turns}:{self.seed}"
        self.note(answer, *("none", [step]) if is_anew else (self.begun, [*self.steps, step]))
        self.tell(f"improve{' of none' if is_anew else ''}, {turns} turns, seed {self.seed}", self.improving)
        self.seed = (self.seed + 1) % 2 ** 64

    def solve(self, turns):
        before = spent()
        answer = gadvresa.solve(self.case.instance, turns)
        self.solving.note(spent() - before, turns, FIRST_SOLVE)
        self.is_searched = answer.splits < turns
        self.note(answer, f"solve, {turns} turns", [])
        self.tell(f"solve, {turns} turns", self.solving)

    def make_bound(self, turns):
        before = spent()
        made = made_again(self.case, self.plan.data, turns, self.words.take)
        self.bounding.note(spent() - before, turns, FIRST_BOUND)
        if self.bound is None or made.bound > self.bound or self.certificate is None and made.bound == self.bound:
            self.bound, self.certificate = made.bound, made
        if made.is_whole:
            self.whole = self.plan.data
        self.tell(f"bound, {turns} turns, {len(made.data):,} bytes", self.bounding)

    def tell(self, text, work):
        print(f"{text}, {work.last:.1f} s: score {self.plan.score}, bound {self.bound}, gap "
              f"{gap_percent(self.plan.score, self.bound)} %", flush=True)

    def left(self):
        return 60 * self.words.minutes - self.improving.total - self.bounding.total - self.solving.total

    def is_closed(self):
        return self.plan.score == self.bound

    def turns_that_fit(self, work):
        """The turns of the next call of a kind, as far as it is likely to fit into what is left; else none."""
        if work is self.bounding and self.whole == self.plan.data or work is self.solving and self.is_searched:
            return None
        room = min(self.left(), LONGEST_AGAIN if work is self.bounding else math.inf)
        if work.factor * work.last <= room:
            return work.turns
        # (a plan gets better by as many turns with another seed too)
        return max(1, work.turns // work.factor) if work is self.improving and work.last <= room else None

    def run(self):
        """Rounds until the time is over, or the gap is 0."""
        if self.bound is None:
            self.make_bound(0)
        while not self.is_closed():
            calls = [(work, call, self.turns_that_fit(work)) for work, call in (
                (self.improving, self.improve), (self.bounding, self.make_bound), (self.solving, self.solve))]
            calls = [it for it in calls if it[2] is not None]
            if not calls:
                break
            _, call, turns = min(calls, key=lambda it: (it[0].total, it[0].calls))
            call(turns)
        made = self.certificate
        if made and made.plan != self.plan.data and not self.is_closed():
            # (of the best plan, so that the case needs no other one)
            again = made_again(self.case, self.plan.data, made.turns, self.words.take)
            if again.bound >= self.bound:
                self.bound, self.certificate = again.bound, again
