"""A folder of `plan`, to be looked at: which files it has, of which instance and slack, and copies of what a run might
replace while it is read.
"""
from __future__ import annotations

import contextlib
import os
import shutil
import tempfile
from dataclasses import dataclass
from typing import Dict, Iterator, Mapping, Optional

from ..plan.state import STATE, Refused, is_same_slack, read_state
from ..running.holding import undisturbed
from ..whole_files import sum_of

PLAN = "plan.txt"
# What may stand beside the plan.
BESIDE = {"progress": "progress.tsv", "certificate": "plan.cert"}


@dataclass
class Found:
    """What a folder has: its plan, what stands beside it, and the slack that it is of."""

    plan: str
    beside: Dict[str, str]
    slack: str


def files_of(folder: str, instance: str, slack: Optional[str]) -> Found:
    """What a folder has, once it is known to be of that instance, and of the slack if one is asked for."""
    if not os.path.exists(os.path.join(folder, STATE)):
        raise Refused(f"{folder} is no folder of `plan`, as it has no {STATE}: name a plan, or such a folder")
    state = read_state(folder)
    # (an instance that is no file is told of by whoever reads it)
    if os.path.isfile(instance) and state["instance"] != sum_of(instance):
        raise Refused(f"{folder} is of another instance than {instance}, or that was changed")
    if slack is not None and not is_same_slack(state["slack"], slack):
        raise Refused(f"{folder} is of slack={state['slack']}, and not {slack}")
    plan = os.path.join(folder, PLAN)
    if not os.path.exists(plan):
        raise Refused(f"{folder} has no {PLAN}, as no plan was found so far")
    beside = {name: os.path.join(folder, file) for name, file in BESIDE.items()}
    return Found(plan, {name: path for name, path in beside.items() if os.path.exists(path)}, state["slack"])


@contextlib.contextmanager
def copies(paths: Mapping[str, str]) -> Iterator[Dict[str, str]]:
    """Copies of files, by their names, which stay as they are, whatever takes the place of the files. Their folder is
    removed at the end, also by a signal that ends the script.
    """
    with undisturbed():
        room = tempfile.TemporaryDirectory(prefix="view-")
    try:
        for name, path in paths.items():
            shutil.copyfile(path, os.path.join(room.name, name))
        yield {name: os.path.join(room.name, name) for name in paths}
    finally:
        with undisturbed():
            room.cleanup()
