"""A line that a program says, and the file that it is about."""
from __future__ import annotations

from functools import cached_property
from typing import Callable, List, Mapping, NamedTuple, Optional, Tuple

from ..model.json_text import Data, Json
from .page import Page, Saying, Values
from .text import Text


# The first and the last start of an intervention in a box; None stands for `tmax`.
Interval = Tuple[int, Optional[int]]


class Leaf(NamedTuple):
    """A leaf of a certificate: its words, its box by the interventions that are split above it, which count from 1, the
    claim, where None is that there is no plan, and the text before the tree.
    """

    words: List[bytes]
    splits: Mapping[int, Interval]
    claim: Optional[int]
    before: bytes


class JudgedLeaf(NamedTuple):
    """What is said of a leaf: its box by names, and why it doesn't hold; None where it does."""

    box: str
    why: Optional[str]


class Question(NamedTuple):
    """For what a leaf is judged: the files of an instance and of a plan that changes are counted from, and a slack."""

    instance: str
    plan: Optional[str]
    slack: int


# Judges a leaf anew, without the programs. It raises Unfit where a file isn't one that a program reads.
Judge = Callable[[Question, Leaf], JudgedLeaf]


class Case:
    """A line that a program says, by the page, and the file that it is about, which is opened when it is looked into.

    A leaf is judged by `judge` where a question is given.
    """

    def __init__(self, page: Page, saying: Saying, values: Values, name: str, judge: Judge,
                 question: Optional[Question] = None) -> None:
        self.page, self.saying, self.values, self.name = page, saying, values, name
        self.judge, self.question = judge, question

    @cached_property
    def text(self) -> Text:
        """The text of the file."""
        return Text(self.name)

    @property
    def data(self) -> Data:
        """The bytes of the file."""
        return self.text.data

    @cached_property
    def json(self) -> Json:
        """The file as JSON."""
        return Json(self.data)

    def number(self, word: str) -> int:
        """The number that a word in capital letters stands for."""
        return int(self.values[word])

    def word(self, word: str) -> bytes:
        """The text that a word in capital letters stands for."""
        value = self.values[word]
        assert isinstance(value, bytes), word
        return value

    def where(self, at: int) -> str:
        """A place in words."""
        return f"line {self.text.line_number(at)}, column {self.text.column(at)[0]}"
