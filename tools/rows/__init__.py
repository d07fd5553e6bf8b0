"""The rows of tools/rows_test, by the command or the subject that they are about."""
from __future__ import annotations

from typing import Dict, List

from . import check, evaluate, instances, refine, repair, replay, table, words, writing
from .case import Case

SUBJECTS: Dict[str, List[Case]] = {
    "instances": instances.CASES,
    "evaluate": evaluate.CASES,
    "check": check.CASES,
    "replay": replay.CASES,
    "table": table.CASES,
    "writing": writing.CASES,
    "repair": repair.CASES,
    "refine": refine.CASES,
    "words": words.CASES,
}
