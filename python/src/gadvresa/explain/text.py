"""The bytes of a file as lines: what a place in them is called, and what stands around it."""
from __future__ import annotations

import unicodedata
from typing import Iterator, List, Optional, Tuple, Union

from ..model.json_text import mapped

PIECE = 1 << 20
CONTINUATIONS = bytes(range(0x80, 0xC0))
BEFORE, BEHIND = 60, 40


class Unfit(Exception):
    """The line that was given doesn't fit the file that was given."""


def expect(holds: object, what: str) -> None:
    """Ends in `Unfit` where something doesn't hold that the given line says; `what` says what the file has."""
    if not holds:
        raise Unfit(what)


class Text:
    """A file's bytes, without a copy where the file can be mapped."""

    def __init__(self, name: str) -> None:
        self.name, self.data = name, mapped(name)

    def __len__(self) -> int:
        return len(self.data)

    def pieces(self, start: int, end: int) -> Iterator[bytes]:
        """The bytes between two places, piece by piece."""
        for at in range(start, end, PIECE):
            yield self.data[at:min(at + PIECE, end)]

    def line_start(self, at: int) -> int:
        """Where the line of a place begins."""
        return self.data.rfind(b"\n", 0, at) + 1

    def line_end(self, at: int) -> int:
        """Where the line of a place ends, before its line feed."""
        end = self.data.find(b"\n", at)
        return len(self) if end < 0 else end

    def line_number(self, at: int) -> int:
        """The number of the line of a place, from 1."""
        return 1 + sum(piece.count(b"\n") for piece in self.pieces(0, at))

    def line(self, number: int) -> Tuple[int, int]:
        """Where a line begins and ends, without its line feed. The last one may be the empty rest behind the last line
        feed."""
        left, at = number - 1, 0
        for piece in self.pieces(0, len(self)):
            count = piece.count(b"\n")
            if left <= count:
                at += place_behind(piece, left)
                return at, self.line_end(at)
            left, at = left - count, at + len(piece)
        expect(number == 1, f"{self.name} has no line {number}: that is past its end")
        return 0, 0

    def column(self, at: int) -> Tuple[int, int]:
        """The column of a place in characters and in bytes, from 1."""
        start = self.line_start(at)
        return 1 + sum(len(piece.translate(None, CONTINUATIONS)) for piece in self.pieces(start, at)), at - start + 1

    def around(self, at: int) -> List[str]:
        """The line of a place with a mark under it, between the line before and the line after."""
        number, start, end = self.line_number(at), self.line_start(at), self.line_end(at)
        first = self.front(start, at)
        before = (".." if first > start else "") + shown(self.data[first:at])
        rows: List[Tuple[Union[int, str], str]] = [(number, before + self.cut(at, end, BEHIND))]
        rows.append(("", " " * columns(before) + "^"))
        if start > 0:
            rows.insert(0, (number - 1, self.cut(self.line_start(start - 1), start - 1)))
        if end + 1 < len(self):
            rows.append((number + 1, self.cut(end + 1, self.line_end(end + 1))))
        width = len(str(number + 1))
        return [f"{label:>{width}} | {row}" for label, row in rows]

    def front(self, start: int, at: int) -> int:
        """Where the shown part before a place begins: at the line's start, or not far before, and at a character."""
        first = max(start, at - BEFORE)
        while start < first < at and self.data[first] in CONTINUATIONS:
            first += 1
        return first

    def cut(self, start: int, end: int, most: int = BEFORE + BEHIND) -> str:
        """The text of some bytes, or its first part where it is long."""
        whole = shown(self.data[start:min(end, start + 4 * most)])
        return whole if len(whole) <= most and end - start <= 4 * most else whole[:most] + ".."


def place_behind(piece: bytes, count: int) -> int:
    """The place behind so many line feeds."""
    at = 0
    for _ in range(count):
        at = piece.find(b"\n", at) + 1
    return at


def shown(some: bytes) -> str:
    """Bytes as text to be read: what can't be printed is escaped."""
    text = bytes(some).decode("utf-8", "backslashreplace")
    return "".join(one if one.isprintable() else one.encode("unicode_escape").decode() for one in text)


def columns(text: str) -> int:
    """How wide a text is on a screen."""
    return sum(
        0 if unicodedata.category(one) in ("Mn", "Me") else 2 if unicodedata.east_asian_width(one) in "WF" else 1
        for one in text
    )


def described(byte: int) -> str:
    """A byte, with its character where it has one."""
    return f"the byte 0x{byte:02x}" + (f", {chr(byte)!r}" if 32 < byte < 127 else "")


def counted(number: int, one: str, more: Optional[str] = None) -> str:
    """A number with its word, as '1 line' and '2 lines'."""
    return f"{number} {one if number == 1 else more or one + 's'}"
