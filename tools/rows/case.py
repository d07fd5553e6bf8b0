"""What a row is: calls of the built programs in a folder of a few files, and all that each has to say and to write.

A file that a call isn't said to write has to stay as it was, and no other one may come. Nothing may be said on standard
error.
"""
from __future__ import annotations

from dataclasses import dataclass, field
from typing import Dict, Tuple, Union

PLANNER, REPAIR, REFINE = "planner_cli", "plan_repair", "plan_refine"
REFUSED_WORDS = b"refused words\n"


@dataclass(frozen=True)
class Around:
    """A text of which only parts are known: how it begins, what it has behind that, in this order, and how it ends."""

    begin: bytes
    middle: Tuple[bytes, ...]
    end: bytes


@dataclass(frozen=True)
class OneOf:
    """One of these texts."""

    texts: Tuple[bytes, ...]


Text = Union[bytes, Around, OneOf]
ANY = Around(b"", (), b"")


@dataclass(frozen=True)
class Call:
    """A call of a program: its words as a shell takes them, its status, what it says, and what each file holds that it
    writes. With `is_full` standard output is a device on which nothing can be written.
    """

    program: str
    words: str
    status: int
    said: Text
    files: Dict[str, Text] = field(default_factory=dict)
    is_full: bool = False


@dataclass(frozen=True)
class Case:
    """What is shown, the files that are there before, and the calls, one after another in the same folder."""

    what: str
    files: Dict[str, bytes]
    calls: Tuple[Call, ...]


def case(what: str, files: Dict[str, bytes], *calls: Call) -> Case:
    return Case(what, files, calls)


def lines(*texts: str) -> bytes:
    """A text of these lines."""
    return "".join(f"{text}\n" for text in texts).encode()


def around(begin: bytes, *more: bytes) -> Around:
    """A text that begins so, has what follows, and ends with the last of that."""
    return Around(begin, more[:-1], more[-1] if more else b"")


def fits(wanted: Text, found: bytes) -> bool:
    """Whether a text is the one that is wanted."""
    if isinstance(wanted, bytes):
        return found == wanted
    if isinstance(wanted, OneOf):
        return found in wanted.texts
    if not found.startswith(wanted.begin):
        return False
    rest = found[len(wanted.begin):]
    for part in wanted.middle:
        before, is_there, rest = rest.partition(part)
        if not is_there:
            return False
    return rest.endswith(wanted.end)


def is_whole(case_: Case) -> bool:
    """Whether all texts of a case are known whole."""
    return all(isinstance(text, bytes) for call in case_.calls for text in (call.said, *call.files.values()))


def refused(program: str, words: str) -> Call:
    """A call whose words are in no command's grammar."""
    return Call(program, words, 2, REFUSED_WORDS)
