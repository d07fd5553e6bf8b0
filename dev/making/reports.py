"""Makes the words of the reports that `--json` prints, python/src/gadvresa/reports/words.py."""
from __future__ import annotations

from typing import Any, Iterable, List

from .table import Table

PATH = "python/src/gadvresa/reports/words.py"
WIDTH = 120
HEAD = '''"""The reports of `evaluate`, `check`, `solve` and `repair`: first lines, then words and values."""

'''


def text(table: Table) -> str:
    """The file, from its second line on."""
    reports = [report["lines"] for it in table.commands if it.json and it.name != "table" for report in it.report]
    lines = [it for it in table.lines if it.get("json")]
    counted = [it["word"] for it in lines if it["unit"] == "count"]
    return HEAD + "\n".join([
        "# The first line of a report on a plan or a certificate.",
        *listing("HEADS = (", unique(quoted(report[0]) for report in reports), ")"),
        "# The words of each other line, by its first one: what each value behind it is called.",
        *listing("VALUES = {", [f"{quoted(it['word'])}: {values(it)}" for it in lines], "}"),
        "# The values that count things.",
        *listing("COUNT_WORDS = (", map(quoted, counted), ")"),
        "",
    ])


def quoted(word: str) -> str:
    return f'"{word}"'


def unique(words: Iterable[str]) -> List[str]:
    return list(dict.fromkeys(words))


def values(line: Any) -> str:
    return f"[{', '.join(map(quoted, line['values']))}]"


def listing(head: str, items: Iterable[str], end: str) -> List[str]:
    """A display of Python, with as many items in a line as there is room for."""
    lines = [head, "   "]
    for item in items:
        if len(lines[-1]) + len(item) + 2 > WIDTH:
            lines.append("   ")
        lines[-1] += f" {item},"
    return [*lines, end]
