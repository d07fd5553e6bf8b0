"""Makes the words of the launcher, tools/front/words.bash."""
from __future__ import annotations

from typing import Any, Dict, Iterable, List

from .table import Table

PATH = "tools/front/words.bash"


def text(table: Table) -> str:
    """The file, from its second line on."""
    forms = {it["form_name"]: it["form"] for it in table.numbers if "form_name" in it}
    return "\n".join([
        "# The words that `planner` takes, and how its runs end: the one table from which words are checked and help is"
        " printed.",
        "",
        "# The programs, first the one that is meant where none is named.",
        f"programs=({' '.join(table.programs)})",
        "# A row for each command: the program that takes it, its words, what it does. A word in brackets may be left"
        " out. A word",
        "# behind > names a file that is written, and the names of files of such a command must all differ.",
        *array("commands=", command_rows(table)),
        "# The commands that another program takes where their certificate begins with this text, and that program.",
        f"refined={quoted(table.refined)}",
        *array("declare -gA refining=", (f"[{it.name}]={it.refined_by}" for it in table.commands if it.refined_by)),
        "# The commands behind which a line for people is said where standard error is a terminal, by summary.bash.",
        f"summed_up=({' '.join(it.name for it in table.commands if it.summed_up)})",
        "# What those in brackets are: the word, its form, what it does.",
        *array("options=", (quoted(it[name]) for it in table.options for name in ("word", "form", "help"))),
        "# The words that are numbers: their forms, and what each one has to be.",
        *(f"{name}={quoted(form)}" for name, form in forms.items()),
        *array("declare -gA forms=", (f"[{word}]={form_of(it)}" for it in table.numbers for word in it["words"])),
        *array("declare -gA ranges=", (f"[{word}]={quoted(it['range'])}"
                                       for it in table.numbers for word in it["words"])),
        "# What this script takes for itself.",
        *array("own=", (quoted(it[name]) for it in table.own for name in ("words", "help"))),
        "# How a run ends: up to 13 with a status of the program, above 63 with one of this script.",
        *array("statuses=", (f"{it['code']} {quoted(it['help'])}" for it in table.statuses)),
        "",
    ])


def command_rows(table: Table) -> Iterable[str]:
    for command in table.commands:
        yield f"{command.program} {quoted(command.form)}"
        yield quoted(command.help)


def array(head: str, rows: Iterable[str]) -> List[str]:
    return [f"{head}(", *(f"    {row}" for row in rows), ")"]


def form_of(number: Dict[str, Any]) -> str:
    return f"${number['form_name']}" if "form_name" in number else quoted(number["form"])


def quoted(text: str) -> str:
    """A text as one word of bash."""
    return "'" + text.replace("'", r"'\''") + "'"
