"""Walks over a JSON text without making anything of it: where values end, members, what is open where.

A list of numbers is passed over in one step, so a walk takes a step for each list, key and bracket. The end of each
other list or object is kept once it was found, so that no part is passed over twice. Where the bytes aren't JSON, a
walk ends in `Broken`. `Value` is a part of a text that is made into Python's values only when it is asked for.
"""
from __future__ import annotations

import json
import mmap
import os
import re
import stat
from typing import Any, Dict, Iterator, List, Optional, Tuple, Union

from ..whole_files import open_named, read_bounded

# The bytes of a text: those in memory, or a file that is mapped.
Data = Union[bytes, mmap.mmap]

STRING = rb'"[^"\\]*(?:\\.[^"\\]*)*"'
FLAT_LIST = rb'\[[^\[\]{}"]*\]'
FLAT_OBJECT = rb'\{[^\[\]{}"]*(?:' + STRING + rb'[^\[\]{}"]*)*\}'
TOKEN = re.compile(
    rb'(?P<flat>' + FLAT_LIST + rb'|' + FLAT_OBJECT + rb')|(?P<string>' + STRING + rb')|(?P<run>[^\[\]{}"]+)|[\[\]{}]',
    re.DOTALL,
)
WHOLE_STRING = re.compile(STRING, re.DOTALL)
WHOLE_FLAT_LIST = re.compile(FLAT_LIST)
SCALAR = re.compile(rb'[^ \t\n\r\[\]{}",:]+')
BLANKS = re.compile(rb'[ \t\n\r]*')


def mapped(path: str) -> Data:
    """The bytes of a file, without a copy if it can be mapped; it mustn't be changed while they are used."""
    with open_named(path) as file:
        status = os.fstat(file.fileno())
        if stat.S_ISREG(status.st_mode) and status.st_size > 0:
            return mmap.mmap(file.fileno(), 0, access=mmap.ACCESS_READ)
        return read_bounded(file, path)


class Broken(Exception):
    """The bytes at an offset aren't what JSON has there."""


class Level:
    """An object or list that is open: where it begins, and its key or the number of its element at hand."""

    def __init__(self, at: int, is_list: bool) -> None:
        self.at, self.is_list, self.element, self.wants_key = at, is_list, 1, not is_list
        self.key_at: Optional[int] = None

    def pass_run(self, run: bytes) -> None:
        """What lies between strings, lists and objects: commas, colons, blanks and scalars."""
        if self.is_list:
            self.element += run.count(b",")
        elif b"," in run or b":" in run:
            self.wants_key = run.rfind(b",") > run.rfind(b":")


class Json:
    """The bytes of a text, with the ends of values that were found."""

    def __init__(self, data: Data) -> None:
        self.data = data
        self.ends: Dict[int, int] = {}

    def byte(self, at: int) -> bytes:
        return self.data[at:at + 1]

    def past_blanks(self, at: int) -> int:
        """The place behind the blanks at a place, which may be none."""
        found = BLANKS.match(self.data, at)
        return found.end() if found else at

    def past(self, byte: bytes, at: int) -> int:
        """The place behind a byte and the blanks round it."""
        at = self.past_blanks(at)
        if self.byte(at) != byte:
            raise Broken(at)
        return self.past_blanks(at + 1)

    def needed(self, pattern: "re.Pattern[bytes]", at: int) -> int:
        """Where what a pattern wants at a place ends."""
        found = pattern.match(self.data, at)
        if found is None:
            raise Broken(at)
        return found.end()

    def end_of(self, at: int) -> int:
        """Where the value at a place ends."""
        if self.byte(at) == b'"':
            return self.needed(WHOLE_STRING, at)
        if self.byte(at) not in (b"[", b"{"):
            return self.needed(SCALAR, at)
        if at not in self.ends:
            self.find_ends(at)
        return self.ends[at]

    def find_ends(self, at: int) -> None:
        """Keeps where the list or object at a place ends, and those in it that have lists or objects in them."""
        start = at
        opened: List[int] = []
        while True:
            token = TOKEN.match(self.data, at)
            if token is None:
                raise Broken(at)
            if token.lastgroup is None and self.byte(at) in (b"[", b"{"):
                opened.append(at)
            elif token.lastgroup is None:
                self.ends[opened.pop()] = token.end()
            elif not opened:
                self.ends[start] = token.end()
            at = token.end()
            if not opened:
                return

    def value(self, at: int) -> bytes:
        """The bytes of the value at a place."""
        return self.data[at:self.end_of(at)]

    def text(self, at: int) -> bytes:
        """The text of the string at a place, in UTF-8; of one that isn't JSON its bytes as they are."""
        raw = self.data[at:self.needed(WHOLE_STRING, at)]
        try:
            return str(json.loads(raw.decode("utf-8"))).encode("utf-8")
        except ValueError:
            return raw[1:-1]

    def members(self, at: int) -> Iterator[Tuple[int, bytes, int]]:
        """The members of the object at a place: where the key begins, its text, and where its value begins."""
        at = self.past(b"{", at)
        while self.byte(at) != b"}":
            value = self.past(b":", self.needed(WHOLE_STRING, at))
            yield at, self.text(at), value
            at = self.past_blanks(self.end_of(value))
            if self.byte(at) != b"}":
                at = self.past(b",", at)

    def elements(self, at: int) -> Iterator[int]:
        """Where the elements of the list at a place begin."""
        at = self.past(b"[", at)
        while self.byte(at) != b"]":
            yield at
            at = self.past_blanks(self.end_of(at))
            if self.byte(at) != b"]":
                at = self.past(b",", at)

    def count(self, at: int) -> int:
        """The number of elements of the list at a place."""
        flat = WHOLE_FLAT_LIST.match(self.data, at)
        if flat is None:
            return sum(1 for _ in self.elements(at))
        return 0 if self.past_blanks(at + 1) == flat.end() - 1 else flat.group().count(b",") + 1

    def open_at(self, at: int) -> Tuple[List[Level], Optional[int]]:
        """The objects and lists that are open before a place, outermost first; and where a string begins that is open
        there, or None."""
        levels: List[Level] = []
        place = 0
        while place < at:
            token = TOKEN.match(self.data, place, at)
            if token is None:
                return levels, place
            if token.lastgroup is None and self.byte(place) in (b"[", b"{"):
                levels.append(Level(place, self.byte(place) == b"["))
            elif token.lastgroup is None and levels:
                levels.pop()
            elif token.lastgroup == "run" and levels:
                levels[-1].pass_run(token.group())
            elif token.lastgroup == "string" and levels and levels[-1].wants_key:
                levels[-1].key_at = place
            place = token.end()
        return levels, None

    def steps_at(self, levels: List[Level], at: int) -> List[Union[int, bytes]]:
        """The keys and numbers of elements that lead to the value at a place; to the object where a key stands there,
        and to the object or list where it ends there."""
        ends = self.byte(at) in (b"]", b"}")
        return [self.step(level) for level in levels if level is not levels[-1] or not (ends or level.wants_key)]

    def step(self, level: Level) -> Union[int, bytes]:
        """The number of the element, or the key, that an open list or object is at."""
        if level.is_list:
            return level.element
        if level.key_at is None:
            raise Broken(level.at)
        return self.text(level.key_at)


class Value:
    """A value of a text at a place. It is read each time that something of it is asked for, and nothing is kept."""

    def __init__(self, text: Json, at: int = 0) -> None:
        self._text, self._at = text, text.past_blanks(at)

    @classmethod
    def of(cls, data: Data) -> Value:
        """The value that a text has."""
        return cls(Json(data))

    def members(self) -> Dict[str, Value]:
        """The members of an object by key; the last one of a key that comes again. Raises Broken for what is none."""
        return {key.decode("utf-8", "replace"): Value(self._text, at)
                for _, key, at in self._text.members(self._at)}

    def parsed(self) -> Any:
        """The value as Python has it, but each number as the digits that stand there. Raises Broken or ValueError."""
        return json.loads(self._text.value(self._at).decode("utf-8"), parse_float=str, parse_int=str)

    def __reduce__(self) -> Tuple[Any, Tuple[bytes]]:
        # (a copy in another process has the bytes of this value, and not the whole text)
        return Value.of, (bytes(self._text.value(self._at)),)
