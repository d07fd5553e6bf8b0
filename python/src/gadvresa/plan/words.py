"""The words of a call of `plan`, and what each one has to be."""
from __future__ import annotations

import os
import re
from dataclasses import dataclass
from fractions import Fraction
from typing import Mapping, Optional, Sequence, Union

from .state import SLACK

NUMBER = re.compile(r"(0|[1-9][0-9]{0,8})(\.[0-9]{1,9})?")
WHOLE = re.compile(r"0|[1-9][0-9]{0,19}")
# What is taken where nothing is said.
MINUTES, SEED = 10, 1
MOST_MINUTES, MOST_JOBS, MOST_ROUNDS = 10 ** 6, 1024, 10 ** 6


class Fault(Exception):
    """A word isn't as it should be; the message says how."""


@dataclass
class Words:
    """A call. `seconds` is None where a number of rounds ends it."""

    instance: str
    folder: str
    seconds: Optional[float]
    jobs: int
    gap: Fraction
    seed: int
    slack: Optional[str]
    hosts: Optional[str]
    rounds: Optional[int]
    is_dry: bool


def processors() -> int:
    """How many processors this process may use."""
    return len(os.sched_getaffinity(0))


def read_words(given: Sequence[str]) -> Words:
    """The call that the words stand for."""
    is_dry = "--dry-run" in given
    given = [word for word in given if word != "--dry-run"]
    files = [word for word in given if not is_option(word)]
    if len(files) != 2 or given[:2] != files or not all(files):
        raise Fault("INSTANCE and FOLDER come first, and then options as minutes=10")
    options = dict(word.split("=", 1) for word in given[2:])
    if len(options) < len(given) - 2:
        raise Fault("an option is given twice")
    if "minutes" in options and "rounds" in options:
        raise Fault("minutes and rounds are two ways to end: give one of them")
    if options.get("hosts") == "":
        raise Fault("hosts is '', and not the name of a file")
    minutes = between("minutes", options, MINUTES, 0, MOST_MINUTES)
    if not minutes:
        raise Fault("minutes is above 0")
    # (of several words that are wrong the first one in this order is told)
    jobs, gap = whole("jobs", options, 1, MOST_JOBS), between("gap", options, 0, 0, 100)
    seed = whole("seed", options, 0, 2 ** 64 - 1)
    return Words(
        instance=files[0], folder=files[1], seconds=None if "rounds" in options else 60 * float(minutes),
        jobs=processors() if jobs is None else jobs, gap=gap,
        seed=SEED if seed is None else seed, slack=slack(options), hosts=options.get("hosts"),
        rounds=whole("rounds", options, 0, MOST_ROUNDS), is_dry=is_dry)


def is_option(word: str) -> bool:
    """Whether a word is an option."""
    return re.match("(minutes|jobs|gap|seed|slack|hosts|rounds)=", word) is not None


def between(name: str, options: Mapping[str, str], usual: Union[int, Fraction], least: int, most: int) -> Fraction:
    """The number that an option gives, or the usual one."""
    word = options.get(name)
    if word is None:
        return Fraction(usual)
    if not NUMBER.fullmatch(word) or not least <= Fraction(word) <= most:
        raise Fault(f"{name} is {word!r}, and not a number from {least} to {most} in digits, as {name}=2.5")
    return Fraction(word)


def whole(name: str, options: Mapping[str, str], least: int, most: int) -> Optional[int]:
    """The whole number that an option gives, if it is given."""
    word = options.get(name)
    if word is None:
        return None
    if not WHOLE.fullmatch(word) or not least <= int(word) <= most:
        raise Fault(f"{name} is {word!r}, and not a number from {least} to {most}")
    return int(word)


def slack(options: Mapping[str, str]) -> Optional[str]:
    """The slack that is given."""
    word = options.get("slack")
    if word is not None and not SLACK.fullmatch(word):
        raise Fault(f"slack is {word!r}, and not from 0 to 0.001 with at most 12 decimals, as slack=0.00001")
    return word
