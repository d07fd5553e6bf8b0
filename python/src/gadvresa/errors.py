"""What ends a call that has no answer. Each is a `GadvresaError`, and the error of Python that is nearest to it.

A plan that breaks a rule is an answer of `evaluate`, which asks for just that, and a `BrokenRule` elsewhere. That no
plan was found in so many turns, or that none exists, are answers too: see `Outcome`.
"""
from __future__ import annotations

from dataclasses import dataclass
from typing import Any, Optional, Tuple

from .explaining import Source, explain
from .running import Called


@dataclass(frozen=True)
class Place:
    """A place in a file: lines and columns count from 1, the offset from 0. A column counts characters.

    An offset or a column is None where a line alone is told.
    """

    path: Optional[str]
    line: int
    column: Optional[int] = None
    offset: Optional[int] = None

    def __str__(self) -> str:
        column = "" if self.column is None else f", column {self.column}"
        return f"{self.path or 'the text that was given'}, line {self.line}{column}"


class GadvresaError(Exception):
    """The base of all errors here. `called` says which program was called and how it ended, where one was."""

    called: Optional[Called] = None

    def __init__(self, message: str = "", **facts: Any) -> None:
        super().__init__(message)
        # (kept in the dictionary of the object, so that copies in other processes have it too)
        self.__dict__.update(facts)


class ProgramMissing(GadvresaError, FileNotFoundError):
    """A program isn't there, or can't be started. The message says where it was looked for."""


class ProgramFailed(GadvresaError, RuntimeError):
    """A program was ended by a signal, or said what it never says. `called` has all that it said."""


class Cancelled(GadvresaError):
    """The event that was given to the call was set, and the program was ended. Nothing of its search is kept."""


class TimedOut(GadvresaError, TimeoutError):
    """The time that was given to the call is over, and the program was ended. Nothing of its search is kept."""


class Refused(GadvresaError, ValueError):
    """A file, or the words of the call, are refused.

    `line` is what the program said, as `refused plan bad line 2`; `kind` its words without numbers and names; `place`
    the place in the file, where the line tells one; and `explanation` what `explain` says of it.
    """

    line: str = ""
    kind: str = ""
    place: Optional[Place] = None
    # the file that the line is about, and behind it an instance and a plan that explain it further
    sources: Tuple[Source, ...] = ()
    slack: Optional[str] = None

    @property
    def explanation(self) -> Optional[str]:
        """What `explain` says: the place, what is meant and what to change; None where it isn't there or can't tell."""
        return explain(self.line, self.sources, self.slack, self.called)


class WordsRefused(Refused):
    """The words of the call are in no grammar: a number out of its range, or two equal names (status 2)."""


class InstanceRefused(Refused):
    """The instance is refused (status 3)."""


class PlanRefused(Refused):
    """The text of the plan is refused (status 4)."""


class CertificateRefused(Refused):
    """The text of the certificate is refused, or `leaf`, the number of a leaf, doesn't hold (status 5)."""

    leaf: Optional[int] = None


class ScriptRefused(Refused):
    """The text of the script is refused, or a line of it fails (status 6). `keys` has the keys said up to there."""

    keys: Tuple[Any, ...] = ()


class Unread(Refused, OSError):
    """A file can't be opened or read (status 7)."""


class Unwritten(Refused, OSError):
    """A file can't be opened or written (status 8)."""


class TooLong(Refused):
    """What would be written is too long for such a file (status 12)."""


class OutOfMemory(GadvresaError, MemoryError):
    """Memory ran out, and no file was opened for writing (status 11)."""


class BrokenRule(GadvresaError, ValueError):
    """The plan breaks a rule, so there is no answer to the call (status 1). `rule` is the first that is broken."""

    rule: Any = None
