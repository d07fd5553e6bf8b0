"""The state of a folder of `plan`: of which instance and slack it is, and how far it came."""
from __future__ import annotations

import json
import os
import re
from fractions import Fraction
from typing import Any, Callable, Dict

from ..whole_files import open_regular

STATE = "state.json"
SLACK = re.compile(r"0(\.(0{1,3}|000[0-9]{1,9}|0010{0,9}))?")
# Of the calls of each kind: how many there were, their seconds of a processor, and those in which they read.
SUMS = ("calls", "processor_seconds", "reading_seconds")
# No number of a state is larger, of rounds as of seconds, and no text of one has more bytes.
MOST, LONGEST_STATE = 10 ** 12, 1 << 20


class Refused(Exception):
    """The folder can't be taken; the message says why."""


def read_state(folder: str) -> Dict[str, Any]:
    """Of which instance and slack a folder is, and how far it came."""
    path = os.path.join(folder, STATE)
    with open_regular(path, 0) as file:
        try:
            state = json.loads(file.read(LONGEST_STATE))
        except (ValueError, RecursionError):
            state = None
    if not isinstance(state, dict) or not is_state(state):
        raise Refused(f"{path} isn't as `plan` writes it: name another folder")
    return state


def is_state(state: Dict[str, Any]) -> bool:
    """Whether an object of JSON is a state: earlier ones have no tree, no calls and no seconds of them."""
    return (isinstance(state.get("instance"), str)
            and isinstance(state.get("slack"), str) and SLACK.fullmatch(state["slack"]) is not None
            and _is_seconds(state.get("seconds")) and _is_count(state.get("rounds"))
            and _has_values(state.get("turns"), _is_round) and _is_tree(state.get("tree", []))
            and all(_has_values(state.get(name, {}), _is_seconds) for name in SUMS))


def _is_count(value: Any) -> bool:
    return type(value) is int and 0 <= value <= MOST


def _is_seconds(value: Any) -> bool:
    return type(value) in (int, float) and 0 <= value <= MOST


def _is_round(value: Any) -> bool:
    return isinstance(value, list) and len(value) == 2 and _is_count(value[0]) and _is_seconds(value[1])


def _is_tree(value: Any) -> bool:
    return value == [] or (isinstance(value, list) and list(map(type, value)) == [int, int, bool]
                           and all(map(_is_count, value[:2])))


def _has_values(value: Any, form: Callable[[Any], bool]) -> bool:
    return isinstance(value, dict) and all(map(form, value.values()))


def is_same_slack(one: str, other: str) -> bool:
    """Whether two words stand for the same slack, as 0.001 and 0.0010 do."""
    return one == other or (all(map(SLACK.fullmatch, (one, other))) and Fraction(one) == Fraction(other))
