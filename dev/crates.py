"""The crates of the repository, as crates.txt lists them, and what the heads of files say, for the scripts beside."""

import difflib
import re
import textwrap
from pathlib import Path

TOP = Path(__file__).resolve().parent.parent
CRATES = TOP / "crates"
WIDTH = 120


class Fault(Exception):
    """What a script makes cannot be made."""


def listed():
    """The lines of crates.txt that say something: a crate and what it stands on, or a heading and what belongs there.

    A heading is a comment `# HEADING: what belongs here`; the one of the line `# NAME: ..`, which says what a line of a
    crate has, is none.
    """
    for line in (TOP / "crates.txt").read_text(encoding="utf-8").splitlines():
        heading = re.fullmatch(r"# ([^:]+): (.+)", line)
        if heading and heading[1] != "NAME":
            yield "heading", heading[1], heading[2]
        elif not line.startswith("#") and ":" in line:
            name, _, deps = line.split("#")[0].partition(":")
            yield "crate", name.split()[0], deps.split()


def crate_lines():
    """For each crate, in the order of crates.txt, what it names."""
    return {name: deps for kind, name, deps in listed() if kind == "crate"}


def lowest_first(names, below):
    """The names, each behind those that it leads to, and else as they come."""
    found = {}

    def visit(name):
        if name not in found:
            found[name] = None
            for other in below(name):
                visit(other)
            found[name] = found.pop(name)

    for name in names:
        visit(name)
    return list(found)


def first_sentence(lines):
    """The first sentence of the comment that lines begin with; empty where they begin with none."""
    words = []
    for line in lines:
        comment = re.match(r"^\s*(?:--|//[/!]?)(?:\s+(.*))?$", line)
        if not comment or not comment[1]:
            break
        words.append(comment[1])
    return re.split(r"(?<=[^.])\.(?:\s|$)", " ".join(words) + " ")[0].strip()


def cut(text, room):
    """A text, or its first clauses that have room, or its first words, and two points."""
    if len(text) <= room:
        return text
    ends = [m.end() for m in re.finditer(r"[:;,](?= )", text) if m.end() + 3 <= room]
    return f"{text[:ends[-1]] if ends else text[:room - 3].rsplit(' ', 1)[0]} .."


def paragraph(text, indent=""):
    return textwrap.wrap(text, WIDTH, subsequent_indent=indent, break_long_words=False, break_on_hyphens=False)


class Page:
    """A page of docs/ with a part between two marks, which a script writes and checks."""

    def __init__(self, name, begin, end, script):
        self.path = TOP / "docs" / name
        self.begin = begin
        self.end = end
        self.script = script

    def parts(self):
        lines = self.path.read_text(encoding="utf-8").splitlines()
        marks = [lines.index(mark) if lines.count(mark) == 1 else None for mark in (self.begin, self.end)]
        if None in marks or marks[1] < marks[0]:
            raise Fault(f"{self.name()} lacks one of the two marks, or has it twice: {self.begin} .. {self.end}")
        return lines[:marks[0] + 1], lines[marks[0] + 1:marks[1]], lines[marks[1]:]

    def name(self):
        return self.path.relative_to(TOP)

    def write(self, part):
        before, _, behind = self.parts()
        self.path.write_text("\n".join(before + part + behind) + "\n", encoding="utf-8")
        return 0

    def check(self, part):
        """Prints what differs, and answers the status."""
        _, have, _ = self.parts()
        for line in difflib.unified_diff(have, part, str(self.name()), self.script, n=0, lineterm=""):
            print(line)
        print(f"{self.name()} {'is as it should be' if have == part else f'differs: {self.script} --write'}")
        return 0 if have == part else 1
