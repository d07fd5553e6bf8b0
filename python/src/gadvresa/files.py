"""Plans, certificates and lines of scripts: what calls take and give beside instances."""
from __future__ import annotations

import os
import re
from dataclasses import dataclass, field
from typing import Dict, Iterable, Iterator, Mapping, Tuple, Union

from .running import Path, tidied
from .whole_files import permissions, read_named, replacing

# The line of a plan: a name without blanks, one blank or more, and the start. Only a line feed ends a line.
LINE = re.compile(r"([^ ]+) +([0-9]{1,9}) *")
# What a name can't hold, as it has a meaning in texts.
UNFIT = re.compile("[\x00-\x20\x7f]")
LARGEST_START = 999_999_999


class Plan(Mapping[str, int]):
    """A plan: the start of each intervention by its name. It isn't changed; `moved` makes another one.

    Starts are periods from 1 on. Which names and starts are right the programs say: a plan may leave interventions out,
    and start others where they mayn't.

    >>> plan = Plan({"north-line": 1, "south-line": 3})
    >>> plan["south-line"]
    3
    >>> print(plan.moved(**{"south-line": 2}).text(), end="")
    north-line 1
    south-line 2
    >>> Plan.read("examples/summer/plan.txt") == plan
    True

    Raises ValueError for a name that no instance can have, and for a start that isn't from 0 to 999,999,999.
    """

    __slots__ = ("_starts",)

    def __init__(self, starts: Union[Mapping[str, int], Iterable[Tuple[str, int]]] = ()) -> None:
        self._starts: Dict[str, int] = dict(starts)
        for name, start in self._starts.items():
            check_name(name)
            if isinstance(start, bool) or not hasattr(start, "__index__"):
                raise TypeError(f"the start of {name!r} is a whole number, and not {start!r}")
            if not 0 <= start <= LARGEST_START:
                raise ValueError(f"the start of {name!r} is from 0 to {LARGEST_START}, and not {start!r}")
            self._starts[name] = start.__index__()

    @classmethod
    def read(cls, path: Path) -> Plan:
        """The plan of a file. Raises ValueError, with the line, where it has a fault, and OSError."""
        return cls.of_text(read_named(path).decode("utf-8", "surrogateescape"))

    @classmethod
    def of_text(cls, text: str) -> Plan:
        """The plan of a text. Raises ValueError, with the line, where it has a fault."""
        starts: Dict[str, int] = {}
        for number, line in enumerate(text.split("\n"), 1):
            line = line[:-1] if line.endswith("\r") else line
            if line.strip(" "):
                found = LINE.fullmatch(line)
                if not found:
                    raise ValueError(f"line {number} of the plan isn't NAME START: {line[:200]!r}")
                if found[1] in starts:
                    raise ValueError(f"line {number} of the plan names {found[1]!r} a second time")
                starts[found[1]] = int(found[2])
        return cls(starts)

    def text(self) -> str:
        """The text of the plan: a line for each intervention."""
        return "".join(f"{name} {start}\n" for name, start in self._starts.items())

    def data(self) -> bytes:
        """The bytes of the text."""
        return self.text().encode("utf-8", "surrogateescape")

    def write(self, path: Path) -> None:
        """Writes the plan whole, or not at all: beside the file first, which then takes its place."""
        write_whole(path, self.data())

    def moved(self, starts: Mapping[str, int] = {}, **more: int) -> Plan:
        """A plan with other starts for some interventions."""
        return Plan({**self._starts, **starts, **more})

    def without(self, *names: str) -> Plan:
        """A plan that has no starts for some interventions. Raises KeyError for one that has none here."""
        starts = dict(self._starts)
        for name in names:
            del starts[name]
        return Plan(starts)

    def changes(self, other: Mapping[str, int]) -> Dict[str, Tuple[Union[int, None], Union[int, None]]]:
        """The interventions whose starts differ, each with its start here and there, None where there is none."""
        names = dict.fromkeys([*self, *other])
        both = {name: (self._starts.get(name), other.get(name)) for name in names}
        return {name: pair for name, pair in both.items() if pair[0] != pair[1]}

    def __getitem__(self, name: str) -> int:
        return self._starts[name]

    def __iter__(self) -> Iterator[str]:
        return iter(self._starts)

    def __len__(self) -> int:
        return len(self._starts)

    def __hash__(self) -> int:
        return hash(frozenset(self._starts.items()))

    def __repr__(self) -> str:
        shown = repr(self._starts) if len(self) <= 6 else f"<{len(self)} starts>"
        return f"Plan({shown})"


@dataclass(frozen=True)
class Certificate:
    """A certificate: the text that proves a bound, as it stands in a file."""

    data: bytes = field(repr=False)

    @classmethod
    def read(cls, path: Path) -> Certificate:
        """The certificate of a file. Raises OSError where it can't be read."""
        return cls(read_named(path))

    def write(self, path: Path) -> None:
        """Writes the certificate whole, or not at all."""
        write_whole(path, self.data)

    @property
    def is_refined(self) -> bool:
        """Whether it is of version 3, which `plan_refine` reads."""
        return is_refined(self.data[:8])


def is_refined(head: bytes) -> bool:
    """Whether a certificate that begins so is of version 3."""
    return head == b"mpcert 3"


def check_name(name: str) -> None:
    """Raises ValueError where no instance can have the name: it would break the lines that it stands in."""
    if not isinstance(name, str):
        raise TypeError(f"a name is a text, and not {name!r}")
    size = len(name.encode("utf-8", "surrogatepass"))
    if UNFIT.search(name) or not 1 <= size <= 128:
        raise ValueError(f"a name has 1 to 128 bytes, and no blank or control character: {name[:200]!r}")


def move(name: str, start: int) -> str:
    """The line of a script by which an intervention starts at another time.

    >>> move("south-line", 2)
    'move south-line 2'
    """
    check_name(name)
    return f"move {name} {start:d}"


def swap(one: str, other: str) -> str:
    """The line of a script that exchanges the starts of two interventions."""
    check_name(one)
    check_name(other)
    return f"swap {one} {other}"


UNDO = "undo"


def script_data(lines: Iterable[str]) -> bytes:
    """The bytes of a script of these lines. Raises ValueError where one of them holds a line feed."""
    lines = list(lines)
    for number, line in enumerate(lines, 1):
        if "\n" in line:
            raise ValueError(f"line {number} of the script is more than one: {line[:200]!r}")
    return "".join(line + "\n" for line in lines).encode("utf-8", "surrogateescape")


def write_whole(path: Path, data: bytes) -> None:
    """Puts a file in the place of what stands there, with its permissions, once all of it is written beside it."""
    place = os.path.realpath(os.fspath(path))
    with tidied(), replacing(place) as file:
        os.fchmod(file.fileno(), permissions(place))
        file.write(data)
