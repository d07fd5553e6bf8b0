"""Explains a refusal of a program, or a broken rule: its place in the file, what is meant, and what to change.

    tools/explain FILE LINE                             the line as the program says it
    tools/explain FILE                                  the line, or all that the program says, on standard input
    tools/explain FILE LINE INSTANCE [PLAN] [slack=D]   of a leaf of a certificate: by how much it fails, with names

PLAN is that of `audit`, which counts changes from it; without it scores are meant. LINE may be -, for standard input.

FILE is the instance, the plan, the script or the certificate that the line is about; for a broken rule the instance,
or for an S rule the plan as well. Places are found in FILE alone. The words are those of docs/FORMATS.md, which is
read each time. It ends with one of these statuses, and for each above 63 with a line on standard error:

    0   the line is explained
    64  the words aren't those above
    65  there is no such line, or FILE hasn't what it says: a place past its end, another kind of file, no such fault
    66  FILE can't be read
    70  docs/FORMATS.md is missing, or isn't written as this program reads it; something unforeseen
    74  the explanation can't be written
"""
from __future__ import annotations

import os
import re
import sys
import textwrap
from decimal import Decimal
from typing import Collection, Dict, List, Optional, Sequence

from ..cli import say, stop
from ..model.exact import COUNTS
from ..model.json_text import Broken, Data
from ..running.statuses import Status
from ..whole_files import open_regular, read_bounded
from . import certificate, instance, lines
from .case import Case, Judge, Question
from .finding import Finding
from .lines import Finder
from .page import FORMATS, Page, PageFault, Saying
from .text import Unfit, counted, expect, shown

USAGE = ("use: explain FILE LINE, the line as the program says it; or explain FILE, with the line on standard input; "
         "or explain FILE LINE INSTANCE [PLAN] [slack=D], where LINE is about a leaf")
SLACK = re.compile(r"slack=(0(?:\.[0-9]{1,12})?)")
SAID = re.compile(rb"refused |[SBX][0-9] ")
WIDTH, LABELS, HEAD = 100, 14, 1 << 16
KINDS = {
    "instance": re.compile(rb"[ \t\r\n]*\{[ \t\r\n]*[\"}]"),
    "certificate": re.compile(rb"mpcert [123]\r?(?:\n|\Z)"),
    "script": re.compile(rb"(?:move [^ \n]+ [0-9]+|swap [^ \n]+ [^ \n]+|undo)\r?(?:\n|\Z)"),
    "plan": re.compile(rb"(?!mpcert [123]\r?\nbound )[^ \n]+ +[0-9]{1,9} *\r?(?:\n|\Z)"),
}


# ---- lines that are about no place

def too_long(case: Case) -> Finding:
    said = re.search(r"more than 2\^([0-9]+)( - 1)? bytes", case.saying.meaning)
    if said is None:
        raise PageFault(f"`{case.saying.name}` says no number of bytes")
    size = os.stat(case.name).st_size
    is_long = size > 2 ** int(said[1]) - (said[2] is not None)
    expect(is_long or not os.path.isfile(case.name), f"{case.name} has {counted(size, 'byte')}, which isn't too long")
    return Finding().say("found", counted(size, "byte")) if is_long else Finding()


def unread(case: Case) -> Finding:
    try:
        with open_regular(case.name, 0) as file:
            file.read(1)
    except OSError as error:
        return Finding().say("found", f"{case.name}: {error.strerror}")
    return Finding().say("found", f"{case.name} can be read now")


def no_place(case: Case) -> Finding:
    return Finding()


WITHOUT_PLACE: Dict[str, Finder] = {it: no_place for it in ("words", "write", "memory", "output too long")}
WITHOUT_PLACE["read"] = unread
WITHOUT_PLACE.update({f"{kind} too long": too_long for kind in KINDS})


# ---- lines about a place

def finders_of(saying: Saying) -> Dict[str, Finder]:
    """The finders of a line, by the kind of file in which each one looks."""
    if saying.is_rule:
        finders = {"instance": instance.RULES, "plan": lines.RULES}
    else:
        finders = {saying.name.split(" ")[0]: {**instance.FINDERS, **lines.FINDERS, **certificate.FINDERS}}
    return {kind: those[saying.name] for kind, those in finders.items() if saying.name in those}


def kind_of(data: Data, about: Collection[str]) -> Optional[str]:
    """What a file looks like at its beginning: one of the kinds that a line is about, if it can be; None if unclear."""
    head = bytes(data[:HEAD])
    head = head[3:] if head.startswith(b"\xef\xbb\xbf") else head
    kinds = [kind for kind, pattern in KINDS.items() if pattern.match(head)]
    return next((kind for kind in kinds if kind in about), kinds[0] if kinds else None)


def a(kind: str) -> str:
    """A kind of file with its article."""
    return f"{'an' if kind == 'instance' else 'a'} {kind}"


def find(case: Case) -> Finding:
    """The place of a line in its file. That may be of another kind than the line is about only where a call that took
    it for the other would have refused it at its first line."""
    finders = finders_of(case.saying)
    kind = kind_of(case.data, finders)
    if kind is None or kind in finders:
        return found(case, finders[kind or next(iter(finders))])
    other = f"the line is about {' or '.join(map(a, finders))}, and {case.name} looks like {a(kind)}"
    try:
        finding = next(iter(finders.values()))(case)
    except (Broken, Unfit):
        raise Unfit(other) from None
    expect(not case.saying.is_rule and finding.at is not None and case.text.line_number(finding.at) == 1, other)
    finding.remarks.insert(0, ("beware", f"{other}: is it the wrong file, or were two words of the call exchanged?"))
    return finding


def found(case: Case, finder: Finder) -> Finding:
    """What a finder finds; Unfit where the file isn't JSON before the place."""
    try:
        return finder(case)
    except Broken as broken:
        where = case.where(broken.args[0])
        raise Unfit(f"{case.name} isn't JSON at {where}, so the refusal would be another") from None


def check_page(page: Page) -> None:
    """Each line of the page has a finder, and each finder a line of the page; and so for the lines of certificates."""
    known = [WITHOUT_PLACE, instance.FINDERS, instance.RULES, lines.FINDERS, lines.RULES, certificate.FINDERS]
    names = {name for finders in known for name in finders}
    apart = names ^ page.sayings.keys() or {word.decode() for word in certificate.LINES} ^ page.forms.keys()
    if apart:
        raise PageFault(f"`{min(apart)}` stands only on one of {FORMATS} and {os.path.realpath(__file__)}")


# ---- what is said

def line_said(some: bytes) -> bytes:
    """The first line of a text that is a refusal or a broken rule."""
    for line in some.split(b"\n"):
        if SAID.match(line):
            return line.rstrip(b"\r")
    stop(Status.NO_REPORT, f"no refusal and no broken rule: {shown(some[:200])}")


def explained(page: Page, name: str, line: bytes, judge: Judge, question: Optional[Question]) -> List[str]:
    """The explanation of a line, row by row."""
    saying = page.saying(line)
    if saying is None:
        stop(Status.NO_REPORT, f"no such refusal or rule: {shown(line)}")
    case = Case(page, *saying, name, judge, question)
    if question is not None and case.saying.name != "certificate leaf":
        stop(Status.SCRIPT_WORDS, f"an instance is looked into for a leaf alone, and the line is {shown(line)}")
    rows = [shown(line), ""]
    if case.saying.name in WITHOUT_PLACE:
        finding = WITHOUT_PLACE[case.saying.name](case)
    else:
        finding = find(case)
        rows += place_rows(case, finding)
    rows += labelled("meant", f"`{' '.join(case.saying.words)}`: {case.saying.meaning}")
    for label, text in finding.remarks:
        rows += labelled(label, text)
    return rows + labelled("to change", case.saying.change)


def place_rows(case: Case, finding: Finding) -> List[str]:
    """The rows about the place in the file."""
    rows, at = labelled("file", case.name), finding.at
    if at is None:
        return rows + [""]
    characters, in_bytes = case.text.column(at)
    place = f"line {case.text.line_number(at)}, column {characters} in characters, {in_bytes} in bytes"
    rows += labelled("place", f"{place}; byte {at} of the file")
    if finding.steps:
        rows += labelled("inside", instance.path(finding.steps))
    return rows + [""] + case.text.around(at) + [""]


def labelled(label: str, text: str) -> List[str]:
    """A text behind a label, in lines of at most `WIDTH` columns, without the page's marks of emphasis."""
    text = re.sub(r"\*+([^*]+)\*+", r"\1", text)
    return textwrap.wrap(text, WIDTH, break_long_words=False, break_on_hyphens=False,
                         initial_indent=f"{label:{LABELS}}", subsequent_indent=" " * LABELS)


def standard_input() -> bytes:
    """All of standard input."""
    with open(0, "rb", closefd=False) as file:
        return read_bounded(file, "standard input")


def known_page() -> Page:
    """The page, whose lines are those that are known here. Ends the script where it is another one."""
    try:
        page = Page()
        check_page(page)
    except (OSError, UnicodeDecodeError, PageFault) as fault:
        stop(Status.UNFORESEEN, str(fault))
    return page


def question_of(files: Sequence[str], slack: Optional[str]) -> Optional[Question]:
    """For what a leaf is to be judged, if files are given: an instance, and a plan if there is one."""
    if not files:
        return None
    return Question(files[0], files[1] if len(files) > 1 else None, int(Decimal(slack or "0") * COUNTS))


def main(judge: Judge) -> None:
    """Runs the script, with what judges a leaf of a certificate anew."""
    words = sys.argv[1:]
    if words in (["--help"], ["-h"]):
        say(str(__doc__))
        return
    slack = SLACK.fullmatch(words[-1]) if len(words) > 3 else None
    words = words[:-1] if slack else words
    if not 1 <= len(words) <= 4 or not all(words):
        stop(Status.SCRIPT_WORDS, USAGE)
    page, is_given = known_page(), len(words) > 1 and words[1] != "-"
    line = line_said(os.fsencode(words[1]) if is_given else standard_input())
    try:
        rows = explained(page, words[0], line, judge, question_of(words[2:], slack[1] if slack else None))
    except Unfit as unfit:
        stop(Status.NO_REPORT, f"{shown(line)}: {unfit}")
    except OSError as error:
        stop(Status.SCRIPT_UNREAD, f"{error.filename or words[0]} can't be read: {error.strerror}")
    say(("\n".join(rows) + "\n").encode("utf-8", "replace").decode("utf-8"))
