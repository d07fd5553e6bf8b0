"""Takes a report apart, line by line: a line is a word or two and what belongs to them, parted by blanks."""
from __future__ import annotations

from fractions import Fraction
from typing import Any, Callable, List, Optional

from ..model.exact import COUNTS, Range, decimal_of, whole_of

# What makes a value of a word, and raises ValueError for a word of another form.
Form = Callable[[str], Any]


class NoReport(Exception):
    """A text is no report. `number` is the line that doesn't fit, counted from 1, and `line` its text."""

    def __init__(self, message: str, number: Optional[int] = None, line: str = "") -> None:
        super().__init__(message)
        self.number, self.line = number, line


class Report:
    """The lines of a report, from which the next one is taken each time."""

    def __init__(self, text: str) -> None:
        # (a name may hold other characters that Python takes for ends of lines)
        self.lines = text.split("\n")
        self.at = 0
        last = self.lines.pop()
        if last != "":
            raise NoReport("its last line has no end", len(self.lines) + 1, last)

    @property
    def left(self) -> int:
        """How many lines are left."""
        return len(self.lines) - self.at

    def next(self) -> str:
        """The first word of the next line, or nothing behind the last one."""
        return self.lines[self.at].split(" ")[0] if self.left else ""

    def take(self, first: str, *forms: Form) -> List[Any]:
        """What the words of the next line behind its first ones stand for."""
        line = self.lines[self.at] if self.left else ""
        words = line.split(" ")
        count = len(first.split(" "))
        if " ".join(words[:count]) != first or len(words) != count + len(forms):
            raise self.fault(f"is {line if self.left else None!r}, and `{first}` is due")
        try:
            values = [form(word) for form, word in zip(forms, words[count:])]
        except ValueError as fault:
            raise self.fault(str(fault), ":") from None
        self.at += 1
        return values

    def fault(self, what: str, behind: str = "") -> NoReport:
        """What is wrong with the next line."""
        return NoReport(f"line {self.at + 1}{behind} {what}", self.at + 1, self.lines[self.at] if self.left else "")

    def one(self, first: str, form: Form = whole_of) -> Any:
        """What the one word of the next line stands for."""
        return self.take(first, form)[0]

    def may(self, first: str, form: Form = whole_of) -> Any:
        """The same, or None where the next line is another."""
        return self.one(first, form) if self.next() == first else None

    def range(self, first: str) -> Range:
        """The two numbers of the next line."""
        return Range(*self.take(first, decimal_of, decimal_of))

    def end(self) -> None:
        """Nothing is left."""
        if self.left:
            raise self.fault(f"is one too many: {self.lines[self.at]!r}")


def or_none(form: Form) -> Form:
    """The form of a word that may be `none`."""
    return lambda word: None if word == "none" else form(word)


def one_of(*words: str) -> Form:
    """The form of a word that is one of these."""

    def form(word: str) -> str:
        if word not in words:
            raise ValueError(f"{word!r} is none of {', '.join(words)}")
        return word

    return form


def natural_of(word: str) -> int:
    """The form of a whole number from 0 on."""
    number = whole_of(word)
    if number < 0:
        raise ValueError(f"{word!r} is below 0")
    return number


def count_of(word: str) -> Fraction:
    """The number of a word that counts 10^-12."""
    return Fraction(whole_of(word), COUNTS)
