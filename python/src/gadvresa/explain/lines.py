"""Finds what a line says of a plan or a script in its text: the forms of their lines."""
from __future__ import annotations

import re
from typing import Callable, Dict, Iterator, List, Optional, Sequence, Tuple

from .case import Case
from .finding import Finding
from .text import Unfit, counted, expect, shown

# A part of a form: what it looks like, and what it is called. What finds a line in its file.
Part = Tuple[bytes, str]
Finder = Callable[[Case], Finding]
NAME = (rb"[^ ]+", "a name")
BLANK = (rb" ", "one blank")
END = (rb"\Z", "the end of the line")
NUMERAL = (rb"(?:0(?![0-9])|[1-9][0-9]{0,8})", "a number of 1 to 9 digits without a needless 0")

PLAN_LINE = [NAME, (rb" +", "a blank"), (rb"[0-9]{1,9}", "a start of 1 to 9 digits"), (rb" *", "blanks"), END]
SCRIPT_LINES = {
    b"move": [(rb"move", "`move`"), BLANK, NAME, BLANK, NUMERAL, END],
    b"swap": [(rb"swap", "`swap`"), BLANK, NAME, BLANK, NAME, END],
    b"undo": [(rb"undo", "`undo`"), END],
}
NO_VERB = [(rb"(?!)", "`move`, `swap` or `undo`")]


class Line:
    """A line of a text: its number, where it begins, and its bytes without the line feed."""

    def __init__(self, case: Case, number: int, at: int, end: int) -> None:
        self.number, self.at, self.bytes = number, at, case.data[at:end]

    def words(self) -> List[bytes]:
        """Its words, which are parted by one blank."""
        return self.bytes.split(b" ")

    def word_at(self, number: int) -> int:
        """Where a word begins, counted from 0; where the line begins, if it has fewer."""
        before = self.words()[:number]
        return self.at + (sum(len(word) + 1 for word in before) if number < len(self.words()) else 0)

    def off_form(self, parts: Sequence[Part]) -> Optional[Tuple[int, str]]:
        """Where the line leaves a form, and what is due there; None where it has the form."""
        at = 0
        for pattern, due in parts:
            found = re.compile(pattern).match(self.bytes, at)
            if found is None:
                return self.at + at, due
            at = found.end()
        return None

    def __str__(self) -> str:
        return f"line {self.number}, {shown(self.bytes)}"


def line_at(case: Case, number: int) -> Line:
    """The line of a number."""
    return Line(case, number, *case.text.line(number))


def line_given(case: Case) -> Line:
    """Line N; the empty rest behind the last line feed is none."""
    line = line_at(case, case.number("N"))
    expect(line.at < len(case.text), f"{case.text.name} has no line {line.number}: that is past its end")
    return line


def finding_off(line: Line, parts: Sequence[Part]) -> Finding:
    """Where a line leaves a form."""
    fault = line.off_form(parts)
    if fault is None:
        raise Unfit(f"{line}, has the form")
    return Finding(fault[0]).say("due here", fault[1])


# ---- plans

def plan_line(case: Case) -> Line:
    """Line N of a plan."""
    line = line_given(case)
    line.bytes = line.bytes[:-1] if line.bytes.endswith(b"\r") else line.bytes
    return line


def bad_plan_line(case: Case) -> Finding:
    line = plan_line(case)
    expect(line.bytes.strip(b" "), f"line {line.number} is blank, and skipped")
    return finding_off(line, PLAN_LINE)


def unknown_in_plan(case: Case) -> Finding:
    line = plan_line(case)
    expect(line.off_form(PLAN_LINE) is None, f"{line}, hasn't the form `NAME START`")
    return Finding(line.at).say("found", f"the name {shown(line.words()[0])}")


def twice(case: Case) -> Finding:
    line = plan_line(case)
    name = line.words()[0]
    earlier = next(plan_lines(case, name, line.at), None)
    if earlier is None:
        raise Unfit(f"no line before line {line.number} has the name {shown(name)}")
    return Finding(line.at).say("found", f"the name {shown(name)}, as in line {case.text.line_number(earlier.start())}")


def plan_lines(case: Case, name: bytes, end: int) -> "Iterator[re.Match[bytes]]":
    """The lines of a name before a place, each with its start."""
    pattern = rb"^" + re.escape(name) + rb" +([0-9]{1,9}) *\r?$"
    return re.compile(pattern, re.MULTILINE).finditer(case.data, 0, end)


def no_line(case: Case) -> Finding:
    name = case.word("NAME")
    expect(next(plan_lines(case, name, len(case.text)), None) is None, f"{case.text.name} has a line of {shown(name)}")
    return Finding().say("found", f"no line of {shown(name)}")


def planned(case: Case) -> Finding:
    name, start = case.word("NAME"), case.number("START")
    for line in plan_lines(case, name, len(case.text)):
        if int(line[1]) == start:
            return Finding(line.start(1))
    raise Unfit(f"{case.text.name} has no line of {shown(name)} with start {start}")


# ---- scripts

def script_form(line: Line) -> List[Part]:
    """The form that a line of a script has to have, by its verb."""
    return SCRIPT_LINES.get(line.bytes[:4], NO_VERB)


def bad_script_line(case: Case) -> Finding:
    line = line_given(case)
    return finding_off(line, script_form(line))


def script_line(case: Case, *verbs: bytes) -> Line:
    """Line N, which has one of these verbs, and its form."""
    line = line_given(case)
    has_form = line.bytes[:4] in verbs and line.off_form(script_form(line)) is None
    expect(has_form, f"{line}, is no {' or '.join(verb.decode() for verb in verbs)}")
    return line


def unknown_in_script(case: Case) -> Finding:
    line = script_line(case, b"move", b"swap")
    names = line.words()[1:2] if line.words()[0] == b"move" else line.words()[1:]
    return Finding(line.word_at(1)).say("found", " and ".join(f"the name {shown(name)}" for name in names))


def not_allowed(case: Case) -> Finding:
    line = script_line(case, b"move", b"swap")
    verb, first, second = line.words()
    if verb == b"move":
        return Finding(line.word_at(2)).say("found", f"start {shown(second)} for {shown(first)}")
    what = f"for {shown(first)} the start of {shown(second)}, and the other way round"
    return Finding(line.word_at(1)).say("found", what)


def nothing_to_undo(case: Case) -> Finding:
    line = script_line(case, b"undo")
    verbs = re.compile(rb"^(?:move|swap|(undo))", re.MULTILINE).finditer(case.data, 0, line.at)
    undone = made = 0
    for verb in verbs:
        undone, made = undone + (verb[1] is not None), made + (verb[1] is None)
    what = f"{counted(made, 'change')} made before it, and {undone} undone"
    expect(undone == made, f"line {line.number} has {what}")
    return Finding(line.at).say("found", what)


FINDERS: Dict[str, Finder] = {
    "plan bad line": bad_plan_line,
    "plan unknown name": unknown_in_plan,
    "plan twice": twice,
    "script bad line": bad_script_line,
    "script unknown name": unknown_in_script,
    "script not allowed": not_allowed,
    "script nothing to undo": nothing_to_undo,
}
RULES: Dict[str, Finder] = {"S1": no_line, "S2": planned, "S3": planned}
