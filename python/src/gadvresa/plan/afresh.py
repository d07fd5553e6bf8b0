"""Which calls of a round of `improve` begin without a plan, so that each of them finds a first one of its own.

Changes of one start, or of two, don't lead from every plan that keeps tight limits to every other one, so what a plan
can become depends on the first one. As many processors as not look for plans from nothing at first, and as soon as that
brought a better one; where it didn't, half as many, but always some. Such a processor makes several short calls.
"""
from __future__ import annotations

from typing import Optional

# The part of the processors that make such calls, at most and at least.
MOST, LEAST = 0.5, 0.25
# How many calls such a processor makes in a round, and in a long one, for which they are about as long; the least turns
# of each, and how many readings it takes at least.
CALLS, LONG_CALLS, LEAST_TURNS, READINGS = 8, 20, 200, 20


class Afresh:
    """What part of the processors is to make such calls, and how many of them are due."""

    def __init__(self) -> None:
        self.part, self.due = MOST, 0.0

    def take(self, processors: int) -> int:
        """How many of so many processors make them in the next round."""
        self.due += self.part * processors
        count = int(self.due)
        self.due -= count
        return count

    def note(self, is_better: bool) -> None:
        """Notes whether what a round found from nothing is the best plan now."""
        self.part = MOST if is_better else max(LEAST, self.part / 2)


def calls_of(turns: int, seconds: Optional[float], reading: Optional[float], most: int = CALLS) -> int:
    """Into how many calls a processor parts its turns, at most. They are thought to take so many seconds, and reading
    the instance takes so many; None where that isn't known.
    """
    most = min(most, turns // LEAST_TURNS)
    if seconds is not None and reading is not None:
        most = min(most, int(seconds / (READINGS * reading)))
    return max(1, most)
