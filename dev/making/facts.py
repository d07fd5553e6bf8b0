"""Compares with the table what people write by hand, because its readers want more than a table says.

Each function below yields a line for each text that differs from the table, with the file in front.
"""
from __future__ import annotations

import re
from typing import Iterator, List

from crates import TOP

from .table import PATH, Command, Table

NAMED = re.compile(r'bytes_eq name \(codes "(\w+)"\)')
COMPLETE = re.compile(r"Asks words \((\w+) [^)]*\)(?:(?!Asks words).)*?Completes \(((?:\d+ ∷ )+)\[\]\)", re.DOTALL)
# The status that refuses a file, by the word that names it; any file that can't be read gives 7.
REFUSED = {"INSTANCE": 3, "PLAN": 4, "CERTIFICATE": 5, "SCRIPT": 6}
UNREAD = 7
NUMBERS = "python/src/gadvresa/tables/numbers.py"
CALLS = "python/src/gadvresa/commands.py"


def text_of(path: str) -> str:
    place = TOP / path
    return place.read_text(encoding="utf-8") if place.is_file() else ""


def programs_of(command: Command) -> List[str]:
    return [command.program] + ([command.refined_by] if command.refined_by else [])


def grammars(table: Table) -> Iterator[str]:
    """The grammar of each program has the commands of the table, and names the words of each in a comment."""
    for program in table.programs:
        path = f"crates/{program}/specs/Words.antt"
        text = text_of(path)
        due = {it.name: it for it in table.commands if program in programs_of(it)}
        for name in sorted(set(NAMED.findall(text)) ^ set(due)):
            yield f"{path}: the command `{name}` is in {PATH if name in due else 'the grammar'} alone"
        for command in due.values():
            calls = re.findall(r"`(\w+(?: \w+)+)`", re.sub(r"\n-- ", " ", text))
            if not any(is_call(call.split(), command.plain_form.split()) for call in calls):
                yield f"{path}: no comment has the words `{command.plain_form}`"


def is_call(have: List[str], due: List[str]) -> bool:
    """Whether words are those that are due. A comment may shorten a word, as `CERT`."""
    return have[0] == due[0] and len(have) == len(due) and all(map(str.startswith, due, have))


def ends(table: Table) -> Iterator[str]:
    """The statuses of a command are those that its program is proved to end with, and those of its files."""
    for program in table.programs:
        path = f"crates/{program}/specs/Complete.antt"
        proved: dict[str, set[int]] = {}
        for name, row in COMPLETE.findall(text_of(path)):
            proved.setdefault(name, set()).update(map(int, re.findall(r"\d+", row)))
        for command in (it for it in table.commands if program in programs_of(it)):
            due = proved.get(command.name, set()) | refusals(command, table)
            if due != set(command.statuses):
                yield f"{path}: `{command.name}` ends with {sorted(due)}, and not {sorted(command.statuses)}"


def refusals(command: Command, table: Table) -> set[int]:
    reads = command.reads(table.number_words)
    return {REFUSED[word] for word in reads if word in REFUSED} | ({UNREAD} if reads else set())


def readme(table: Table) -> Iterator[str]:
    """README has an item for each command, and each status of a program."""
    text = text_of("README.md")
    for command in table.commands:
        if not re.search(rf"^- `{re.escape(command.plain_form)}` ", text, re.MULTILINE):
            yield f"README.md: no item begins with `{command.plain_form}`"
    told: set[int] = set()
    for first, last in re.findall(r"\*\*(\d+)\*\*(?: to \*\*(\d+)\*\*)?", text.partition("\n## Statuses\n")[2]):
        told.update(range(int(first), int(last or first) + 1))
    due = {int(it["code"]) for it in table.statuses if it["code"].isdigit() and int(it["code"]) < 64}
    for status in sorted(told ^ due):
        yield f"README.md: status {status} is in {PATH if status in due else 'README'} alone"


def formats(table: Table) -> Iterator[str]:
    """docs/FORMATS.md has the words of each command and each of its reports, line by line."""
    text = text_of("docs/FORMATS.md")
    blocks = [block.split("\n") for block in re.findall(r"^```text\n(.*?)\n```$", text, re.MULTILINE | re.DOTALL)]
    for command in table.commands:
        if not any(command.plain_form in block for block in blocks):
            yield f"docs/FORMATS.md: no block has the line `{command.plain_form}`"
        for report in command.report:
            if report["lines"] not in blocks:
                yield f"docs/FORMATS.md: no block is the report of `{command.name}` behind {report['statuses']}"


def lines(table: Table) -> Iterator[str]:
    """Each line of a report that has a value alone is a [[line]]; those of `--json` say so."""
    known = {it["word"]: it for it in table.lines}
    for command in table.commands:
        for line in [line for report in command.report for line in report["lines"]]:
            word, *values = line.split(" ")
            if word in known and len(values) != len(known[word]["values"]):
                yield f"{PATH}: `{line}` of {command.name} has other values than [[line]] {word}"
            if len(values) == 1 and values[0] in ("COUNT", "SCORE", "BOUND", "GAP", "COST") and word not in known:
                yield f"{PATH}: `{line}` of {command.name} is no [[line]]"
            if command.json and command.name != "table" and word in known and "json" not in known[word]:
                yield f"{PATH}: [[line]] {word} lacks json, as `{command.name} --json` prints it"


def python(table: Table) -> Iterator[str]:
    """The package for Python calls each command of the table by its program, and prints the same ones as JSON."""
    text = text_of(CALLS)
    for command in table.commands:
        if command.name == "rehearse":
            continue
        program = "reader_of(certificate)" if command.refined_by else f'"{command.program}"'
        if f'Call("{command.name}", {program}, ' not in text:
            yield f"{CALLS}: no Call of {command.name} by {program}"
    due = ", ".join(f'"{it.name}"' for it in table.commands if it.json and it.name != "table")
    if f"REPORTS = ({due})" not in text_of(NUMBERS):
        yield f"{NUMBERS}: REPORTS isn't ({due})"


def examples(table: Table) -> Iterator[str]:
    """Each example has the words that its command takes, and files that are there."""
    for command in table.commands:
        for example in command.examples:
            name, *words = example.split()
            if name != command.name or len(words) != len(command.plain_form.split()) - 1:
                yield f"{PATH}: `{example}` hasn't the words of {command.name}"
            for word in words:
                if word.startswith("examples/") and not (TOP / word).is_file():
                    yield f"{PATH}: `{example}` names {word}, which isn't there"


def scripts(table: Table) -> Iterator[str]:
    """Each script is there, and the text at its head has the calls of the table."""
    for own in (it for it in table.own if "script" in it):
        if not (TOP / own["script"]).is_file():
            yield f"{PATH}: {own['script']} isn't there"
    for script in table.scripts:
        if not (TOP / script["path"]).is_file():
            yield f"{PATH}: {script['path']} isn't there"
        text = text_of(script["said"])
        for call in script["calls"]:
            if not re.search(rf"^    {re.escape(script['path'])} {re.escape(call)}$", text, re.MULTILINE):
                yield f"{script['said']}: no line `{script['path']} {call}`"


COMPARED = (grammars, ends, readme, formats, lines, python, examples, scripts)


def faults(table: Table) -> List[str]:
    return [fault for compare in COMPARED for fault in compare(table)]
