"""What was found of a line in the file that it is about."""
from __future__ import annotations

from typing import Iterable, List, Optional, Tuple, Union

# A key of an object, or the number of an element of a list, counted from 1.
Step = Union[int, bytes]


class Finding:
    """A place in the file, or None where there is none; the keys and elements that lead there; and remarks, each with
    its label."""

    def __init__(self, at: Optional[int] = None, steps: Iterable[Step] = ()) -> None:
        self.at, self.steps = at, list(steps)
        self.remarks: List[Tuple[str, str]] = []

    def say(self, label: str, text: str) -> Finding:
        """Adds a remark."""
        self.remarks.append((label, text))
        return self
