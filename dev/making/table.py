"""Reads the table of commands, and refuses one that lacks a field or says what can't be."""
from __future__ import annotations

import re
from dataclasses import dataclass
from typing import Any, Dict, List, Optional, Tuple

from crates import TOP, Fault

PATH = "dev/commands.toml"
# For each kind of entry the fields that it has to have, and those that it may have.
FIELDS: Dict[str, Tuple[List[str], List[str]]] = {
    "command": (["name", "program", "words", "statuses", "help", "page", "examples", "report"],
                ["refined_by", "json", "summed_up"]),
    "report": (["statuses", "lines"], []),
    "line": (["word", "values", "unit", "meaning"], ["json"]),
    "number": (["words", "form", "range"], ["form_name"]),
    "option": (["word", "form", "help"], []),
    "own": (["words", "help"], ["completes", "script"]),
    "script": (["path", "said", "calls"], []),
    "status": (["code", "help"], ["name", "meaning"]),
}
UNITS = ("score", "risk", "load", "count")


@dataclass(frozen=True)
class Command:
    """A command of a program, as its entry has it."""

    name: str
    program: str
    words: str
    statuses: List[int]
    help: str
    page: str
    examples: List[str]
    report: List[Dict[str, Any]]
    refined_by: Optional[str] = None
    json: bool = False
    summed_up: bool = False

    @property
    def form(self) -> str:
        return f"{self.name} {self.words}"

    @property
    def plain_form(self) -> str:
        """The words as pages have them: without options, and without the signs of the launcher."""
        return re.sub(r" \[.*", "", self.form).replace(">", "").replace("|-", "")

    def reads(self, numbers: List[str]) -> List[str]:
        """The words that name files which the command reads."""
        parts = [part.replace("|-", "") for part in self.words.split() if part[0] not in ">["]
        return [part for part in parts if part not in numbers]


@dataclass(frozen=True)
class Table:
    """The whole table. What has no type of its own is a dictionary of the fields."""

    programs: List[str]
    always: List[int]
    refined: str
    commands: List[Command]
    lines: List[Dict[str, Any]]
    numbers: List[Dict[str, Any]]
    options: List[Dict[str, Any]]
    own: List[Dict[str, Any]]
    scripts: List[Dict[str, Any]]
    statuses: List[Dict[str, Any]]

    @property
    def number_words(self) -> List[str]:
        return [word for number in self.numbers for word in number["words"]]


def read_table() -> Table:
    """The table, whose fields are all there."""
    import tomllib

    try:
        given = tomllib.loads((TOP / PATH).read_text(encoding="utf-8"))
    except (OSError, tomllib.TOMLDecodeError) as fault:
        raise Fault(f"{PATH}: {fault}") from None
    for kind in ("programs", "always", "refined", "command", "line", "number", "option", "own", "script", "status"):
        if kind not in given:
            raise Fault(f"{PATH}: {kind} is missing")
    for kind in FIELDS:
        for at, entry in enumerate(given.get(kind, []), 1):
            check_fields(kind, entry, f"[[{kind}]] {entry.get('name', at)}")
    for entry in given["command"]:
        for report in entry["report"]:
            check_fields("report", report, f"[[command.report]] of {entry['name']}")
    table = Table(given["programs"], given["always"], given["refined"], [Command(**it) for it in given["command"]],
                  given["line"], given["number"], given["option"], given["own"], given["script"], given["status"])
    check_sense(table)
    return table


def check_fields(kind: str, entry: Dict[str, Any], place: str) -> None:
    """Refuses an entry that lacks a field, has an empty one, or has one too many."""
    due, further = FIELDS[kind]
    for name in due:
        if entry.get(name) in (None, "", []):
            raise Fault(f"{PATH}: {place} lacks {name}")
    for name in entry:
        if name not in due + further:
            raise Fault(f"{PATH}: {place} has {name}, which no {kind} has")


def check_sense(table: Table) -> None:
    """Refuses an entry that names what the table doesn't have, or one that stands twice."""
    codes = [int(it["code"]) for it in table.statuses if it["code"].isdigit()]
    names = [it.name for it in table.commands]
    options = [f"[{it['word']}]" for it in table.options]
    for name in names + [it["word"] for it in table.lines]:
        if (names + [it["word"] for it in table.lines]).count(name) > 1 and names.count(name) != 1:
            raise Fault(f"{PATH}: {name} stands twice")
    for command in table.commands:
        wrong = [part for part in re.findall(r"\[.*?\]", command.words) if part not in options]
        if command.program not in table.programs or command.refined_by not in [None, *table.programs]:
            raise Fault(f"{PATH}: {command.name} is of a program that isn't one of {', '.join(table.programs)}")
        if wrong:
            raise Fault(f"{PATH}: {command.name} takes {wrong[0]}, which no [[option]] has")
        for status in command.statuses:
            if status not in codes:
                raise Fault(f"{PATH}: {command.name} ends with {status}, which no [[status]] has")
        check_report(command)
    for line in table.lines:
        if line["unit"] not in UNITS:
            raise Fault(f"{PATH}: the unit of {line['word']} is none of {', '.join(UNITS)}")


def check_report(command: Command) -> None:
    """Refuses a report behind a status that the command doesn't end with."""
    for status in [status for report in command.report for status in report["statuses"]]:
        if status not in command.statuses:
            raise Fault(f"{PATH}: {command.name} has a report of {status}, but doesn't end with that")
