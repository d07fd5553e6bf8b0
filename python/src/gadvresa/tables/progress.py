"""Reads a file of progress: a line for each round, with seconds, score and bound as its first cells, parted by tabs."""
from __future__ import annotations

import re
from typing import List, NamedTuple, Optional

from ..reports import NoReport
from ..whole_files import read_named

SECONDS = re.compile(r"[0-9]+(\.[0-9]+)?")
WHOLE = re.compile(r"-?[0-9]{1,40}")


class Round(NamedTuple):
    """A round, as the texts that stand there; a score or a bound that isn't there is None."""

    seconds: str
    score: Optional[str]
    bound: Optional[str]


def read_progress(path: str) -> List[Round]:
    """The rounds of a file. A last line without an end isn't whole yet. Raises NoReport, and OSError."""
    lines = read_named(path).decode("utf-8", "replace").split("\n")[:-1]
    rounds: List[Round] = []
    for number, line in enumerate(lines, 1):
        cells = line.rstrip("\r").split("\t")
        if number == 1 and not SECONDS.fullmatch(cells[0]):
            continue
        if len(cells) < 3 or not SECONDS.fullmatch(cells[0]):
            raise NoReport(f"{path}, line {number}: seconds, score and bound parted by tabs, and not {line[:80]!r}")
        score, bound = (cell if WHOLE.fullmatch(cell) else None for cell in cells[1:3])
        rounds.append(Round(cells[0], score, bound))
    return rounds
