"""Reads docs/FORMATS.md: the lines that the program says, the forms of lines of certificates, places and limits."""
from __future__ import annotations

import os
import re
from typing import Dict, Iterable, Iterator, List, Mapping, Optional, Sequence, Tuple, Union

from ..cli import TOP

# The page of the clone, or of the Debian package, that this stands in.
FORMATS = os.path.join(TOP, "docs", "FORMATS.md")
# The cells of a row; a block of the page, which is an item or a table; and what a word in capital letters stands for.
Cells = List[str]
Block = Union[str, List[Cells]]
Values = Mapping[str, Union[int, bytes]]


ITEM = re.compile(r"- ((?:`[^`]+`(?: or )?)+): (.*)")
SPAN = re.compile(r"`([^`]+)`")
SAID = re.compile(r"refused |[SBX][0-9] ")
PARAMETER = re.compile(r"[A-Z]+")
NUMBERS = {"AT", "N", "W", "PERIOD", "START"}
NUMBER = re.compile(rb"0|[1-9][0-9]*")
CHANGE, RANGES = "*To change:*", "*Ranges:*"


class PageFault(Exception):
    """The page isn't written as this file reads it."""


class Saying:
    """A line that the program says: its words, of which those in capital letters stand for others, what it means, and
    what to change."""

    def __init__(self, words: Sequence[str], meaning: str, change: str) -> None:
        self.words, self.meaning, self.change = words, meaning, change
        self.is_rule = words[0] != "refused"
        own = [word for word in words if not PARAMETER.fullmatch(word)]
        self.name = " ".join(own if self.is_rule else own[1:])

    def values(self, line: bytes) -> Optional[Values]:
        """What the words in capital letters stand for in a line, or None where the line is no such saying."""
        given = line.split(b" ")
        values: Dict[str, Union[int, bytes]] = {}
        if len(given) != len(self.words):
            return None
        for word, value in zip(self.words, given):
            if not PARAMETER.fullmatch(word):
                if value != word.encode():
                    return None
            elif not value or word in NUMBERS and not NUMBER.fullmatch(value):
                return None
            else:
                values[word] = int(value) if word in NUMBERS else value
        return values


class Form:
    """A line of a certificate: how it is written, what it says, and the ranges of its numbers."""

    def __init__(self, spans: Sequence[str], meaning: str, ranges: str) -> None:
        self.spelled = " or ".join(f"`{span}`" for span in spans)
        self.meaning, self.ranges = meaning, ranges


class Page:
    """What the page says, by name."""

    def __init__(self, path: str = FORMATS) -> None:
        self.sayings: Dict[str, Saying] = {}
        self.forms: Dict[str, Form] = {}
        self.places: Dict[str, str] = {}
        self.limits: Dict[str, str] = {}
        with open(path, encoding="utf-8") as page:
            for number, block in blocks(page):
                try:
                    self.take(block)
                except PageFault as fault:
                    raise PageFault(f"{path}, line {number}: {fault}") from None
        for what in ("sayings", "forms", "places", "limits"):
            if not getattr(self, what):
                raise PageFault(f"{path} has no {what}")

    def take(self, block: Block) -> None:
        """Takes what a block says, where that is of use here."""
        if isinstance(block, list):
            self.take_table(block)
            return
        item = ITEM.match(block)
        if item is not None and CHANGE in item[2]:
            self.take_saying(SPAN.findall(item[1]), *parted(item[2], CHANGE))
        elif item is not None and RANGES in item[2]:
            self.take_form(SPAN.findall(item[1]), *parted(item[2], RANGES))
        elif SAID.match(block[3:]):
            raise PageFault(f"a line of the program without a part {CHANGE}")

    def take_saying(self, spans: Sequence[str], meaning: str, change: str) -> None:
        """Takes a line of the program."""
        saying = Saying(spans[0].split(" "), meaning, change)
        if len(spans) > 1 or not SAID.match(spans[0]) or saying.name in self.sayings:
            raise PageFault(f"`{spans[0]}` is no line of the program, or stands twice")
        self.sayings[saying.name] = saying

    def take_form(self, spans: Sequence[str], meaning: str, ranges: str) -> None:
        """Takes the form of a line. The second one of a word is that of version 3."""
        name = spans[0].split(" ")[0]
        name = f"{name} 3" if name in self.forms else name
        if name in self.forms:
            raise PageFault(f"`{spans[0]}` is a third form of its word")
        self.forms[name] = Form(spans, meaning, ranges)

    def take_table(self, rows: Sequence[Cells]) -> None:
        """Takes a table, where it is that of places or of limits."""
        table = {"place": self.places, "word": self.limits}.get(rows[0][0])
        if table is None:
            return
        for row in rows[2:]:
            if len(row) != 2 or not SPAN.fullmatch(row[0]):
                raise PageFault(f"a row that isn't a code span and a text: {row}")
            table[row[0].strip("`")] = row[1]

    def saying(self, line: bytes) -> Optional[Tuple[Saying, Values]]:
        """The saying of a line, with what its words in capital letters stand for; None where there is none."""
        for saying in self.sayings.values():
            values = saying.values(line)
            if values is not None:
                return saying, values
        return None

    def due_at(self, keys: Iterable[bytes]) -> Optional[str]:
        """What stands at a place of an instance, to which some keys lead; None where the page doesn't say."""
        given = [key.decode("utf-8", "replace") for key in keys]
        for place, text in self.places.items():
            steps = [] if place == "root" else place.split("/")
            if len(steps) == len(given) and all(map(is_step, steps, given)):
                return text
        return None


def is_step(step: str, key: str) -> bool:
    """Whether a key is what a step of a place stands for."""
    return step in ("NAME", "RESOURCE", "PERIOD", "START") or step == key


def parted(text: str, mark: str) -> Tuple[str, str]:
    """What stands before and behind a mark."""
    meaning, _, rest = text.partition(mark)
    if not meaning.strip() or not rest.strip():
        raise PageFault(f"nothing before or behind {mark}")
    return meaning.strip(), rest.strip()


def blocks(page: Iterable[str]) -> Iterator[Tuple[int, Block]]:
    """The items of lists and the tables of a page, each with the number of its first line: an item as one line of text,
    a table as rows of cells."""
    block: Optional[Block] = None
    began, in_code = 0, False
    for number, line in enumerate(page, 1):
        line = line.rstrip("\n")
        is_fence = line.startswith("```")
        in_code ^= is_fence
        if not in_code and isinstance(block, str) and line.startswith("  "):
            block += " " + line.strip()
        elif not in_code and isinstance(block, list) and line.startswith("|"):
            block.append(cells(line))
        else:
            if block is not None:
                yield began, block
            block, began = None if in_code or is_fence else begin(line), number
    if block is not None:
        yield began, block


def begin(line: str) -> Optional[Block]:
    """What begins with a line: an item, a table, or None."""
    if line.startswith("- "):
        return line
    return [cells(line)] if line.startswith("|") else None


def cells(line: str) -> Cells:
    """The cells of a row."""
    return [cell.strip() for cell in line.strip().strip("|").split("|")]
