"""How many turns a step gets: so many that it takes its time, by what the one before it took.

A round is to take as long as GROWTH of all that went before it, so that rounds grow as the time does, and so long that
reading the files again, and checking what came of it, is a small part of it; and no longer than what is left. Where
others go on like that, a round can take as long as LONG_GROWTH of it: one run that is twice as long gains more than
several side by side. Where a number of rounds is to be made, no clock decides: each round has twice the turns of the
one before it.
"""
from __future__ import annotations

import math
from typing import Optional

# The least seconds of a round, what part of the time that has passed it is to take, and how many readings.
LEAST, GROWTH, READINGS = 1.0, 0.5, 20
# The same where others end in between.
LONG_GROWTH = 2
# What part of the time that is left a round gets at most, as it may take longer than it is thought to.
MOST, LONG_MOST = 0.9, 0.8
# How much more than before a round gets at most.
STEP = 4
MOST_TURNS = 1_000_000


def round_seconds(passed: float, left: float, reading: float, share: float) -> float:
    """How long a round is to take, where so many seconds have passed, so many are left, and one reading takes so many;
    `share` is the part of the time that the step has, where another one takes turns with it.
    """
    return within(max(LEAST, GROWTH * passed * share, READINGS * reading), MOST * left * share - 2 * reading)


def long_round_seconds(passed: float, left: float, reading: float) -> float:
    """How long a long round is to take: until the next of the times that are apart by the growth, of which the last is
    the end, but for those that come too soon.
    """
    wanted, total = LONG_GROWTH * passed, passed + left
    if passed and left and math.isfinite(total):
        ends = math.floor(math.log(total / (passed + wanted / 2), 1 + LONG_GROWTH))
        wanted = total / (1 + LONG_GROWTH) ** max(0, ends) - passed
    return within(max(LEAST, wanted, READINGS * reading), LONG_MOST * left - 2 * reading)


def within(wanted: float, most: float) -> float:
    """The seconds that are wanted of a round, or the most that it may have, where too few would be left for another."""
    # (no round is left that is too short to be worth its reading)
    return max(0.0, most) if most < 1.5 * wanted else wanted


class Pace:
    """The turns of the rounds of one kind; `seconds` is how long the last one took, which had the turns `timed`."""

    def __init__(self, first: int, least: int) -> None:
        self.turns, self.least, self.timed = first, least, 0
        self.seconds: Optional[float] = None

    def took(self, seconds: float) -> None:
        """Notes how long the round took that had these turns."""
        self.seconds, self.timed = seconds, self.turns

    def expected(self) -> Optional[float]:
        """How many seconds the next round takes, as far as that is known."""
        return None if self.seconds is None else self.seconds * self.turns / max(self.timed, 1)

    def next(self, wanted: float, reading: float, step: int = STEP) -> int:
        """The turns of the next round, which is to take so many seconds."""
        if self.seconds is None:
            return self.turns
        # (the reading has no turns; and at the end a round gets as few as there is time for, however long the last was)
        ratio = max(wanted - reading, 0.05 * wanted) / max(self.seconds - reading, 0.05 * self.seconds, 1e-3)
        ratio = min(ratio, step)
        return self.set(max(self.least, int(max(self.timed, self.least) * ratio)))

    def times(self, count: int) -> int:
        """So many times the turns of the round before."""
        return self.turns if self.seconds is None else self.set(max(self.least, count * self.timed))

    def set(self, turns: int) -> int:
        """Sets the turns of the next round, as far as programs take them; answers them."""
        self.turns = min(turns, MOST_TURNS)
        return self.turns
