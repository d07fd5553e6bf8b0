"""The tables of a comparison: runs.csv, table.md and table.html, from its records."""
from __future__ import annotations

import html
import math
import re
import statistics
from fractions import Fraction
from typing import Any, Dict, Iterable, Iterator, List, Mapping, Optional, Sequence, Tuple

from ..model.exact import SCORES
from ..model.scores import percent_of
from ..tables.cells import plain_text, rows_text
from .tasks import Record, Task

# A row by columns, and the head and the lines of a table.
Row = Dict[str, Any]
Table = Tuple[List[str], List[List[str]]]
COLUMNS = ["instance", "method", "seed", "ended", "status", "state", "detail", "score", "cost", "bound", "gap_percent",
           "above_best_percent", "left_processes", "plan_sha256", "first_feasible_s", "plans", "seconds", "processor_s",
           "peak_mb", "host"]
# The columns that are words, of files, methods and machines.
WORDS = ["instance", "method", "ended", "state", "detail", "host"]
# The columns that are measured, and so differ from run to run.
MEASURED = ["first_feasible_s", "plans", "seconds", "processor_s", "peak_mb", "host"]


def whole(text: Optional[str]) -> Optional[int]:
    """A whole number of a record, if there is one."""
    return None if text is None or text in ("", "none") else int(text)


def percent(part: Optional[int], of: Optional[int]) -> Optional[Fraction]:
    """A part in percent, rounded up at the fourth decimal; none where the whole isn't above 0."""
    found = None if part is None or of is None or part < 0 else percent_of(part, of)
    return None if found is None else Fraction(math.ceil(found * 10 ** 4), 10 ** 4)


def shown(value: Optional[Fraction], digits: int = 4) -> str:
    """A percent, if there is one."""
    return "" if value is None else f"{float(value):.{digits}f}"


def rows_of(tasks: Mapping[str, Task], records: Mapping[str, Record]) -> Iterator[Row]:
    """A row for each run that has a record, by columns; numbers are exact texts, or fractions for percents."""
    bounds = {task["instance"]: records[key].get("bound") or "" for key, task in tasks.items()
              if task["kind"] == "bound" and key in records}
    scores: Dict[str, List[int]] = {}
    for key, task in tasks.items():
        if task["kind"] == "run" and records.get(key, {}).get("state") == "feasible":
            scores.setdefault(task["instance"], []).append(int(records[key]["score"]))
    for key, task in tasks.items():
        record = records.get(key)
        if task["kind"] != "run" or record is None:
            continue
        score, said = whole(record.get("score")), bounds.get(task["instance"], "")
        bound = whole(said)
        best = min(scores.get(task["instance"], [0]))
        progress = record.get("progress") or []
        yield {"instance": task["instance"], "method": task["method"], "seed": task["seed"], "ended": record["ended"],
               "status": record["status"], "state": record["state"], "detail": record.get("detail", ""),
               "score": "" if score is None else score, "cost": record.get("cost", ""),
               "left_processes": record.get("left"),
               "bound": said,
               "gap_percent": percent(score - bound, score) if score is not None and bound is not None else None,
               "above_best_percent": percent(score - best, best) if score is not None else None,
               "plan_sha256": record.get("plan_sha256", ""),
               "first_feasible_s": progress[0][0] if progress else "", "plans": record.get("plans", ""),
               "seconds": record.get("seconds", ""), "processor_s": record.get("processor", ""),
               "peak_mb": record.get("peak_mb", ""), "host": record.get("host", ""), "progress": progress}


def cell(column: str, it: Any) -> Any:
    """What stands in a cell of runs.csv."""
    if column in WORDS:
        return plain_text(it)
    return shown(it) if isinstance(it, Fraction) else "" if it is None else it


def csv_text(rows: Iterable[Row]) -> str:
    """The text of runs.csv."""
    return rows_text(COLUMNS, ([cell(name, row[name]) for name in COLUMNS] for row in rows))


def best_scores(rows: Iterable[Row]) -> Dict[Tuple[str, str], int]:
    """By instance and method the least score of its feasible runs."""
    best: Dict[Tuple[str, str], int] = {}
    for row in rows:
        if row["score"] != "":
            key = row["instance"], row["method"]
            best[key] = min(best.get(key, row["score"]), row["score"])
    return best


def method_table(rows: Sequence[Row], methods: Sequence[str]) -> Table:
    """The head and the lines of the table of methods."""
    measure = "gap_percent" if any(row["gap_percent"] is not None for row in rows) else "above_best_percent"
    name = "gap" if measure == "gap_percent" else "above the best"
    head = ["method", "runs", "feasible", f"best {name} %", f"median {name} %", f"worst {name} %",
            "first feasible s (median)", "best on"]
    best = best_scores(rows)
    lines: List[List[str]] = []
    instances = list(dict.fromkeys(row["instance"] for row in rows))
    least = {it: min((score for (where, _), score in best.items() if where == it), default=None) for it in instances}
    for method in methods:
        own = [row for row in rows if row["method"] == method]
        feasible = [row for row in own if row["state"] == "feasible"]
        # (a run without a plan is worse than each with one)
        values = sorted([row[measure] for row in feasible if row[measure] is not None])
        values += [None] * (len(own) - len(values))
        times = [row["first_feasible_s"] for row in feasible if row["first_feasible_s"] != ""]
        wins = sum(1 for it in instances if least[it] is not None and best.get((it, method)) == least[it])
        middle = values[len(values) // 2] if values else None
        lines.append([method, str(len(own)), str(len(feasible)), *(none_or(it) for it in (
            values[0] if values else None, middle, values[-1] if values else None)),
            f"{statistics.median(times):.1f}" if times else "-", f"{wins} of {len(instances)}"])
    return head, lines


def none_or(value: Optional[Fraction]) -> str:
    """A percent as it is shown in a table."""
    return "-" if value is None else shown(value, 2)


def instance_table(rows: Sequence[Row], methods: Sequence[str]) -> Table:
    """The head and the lines of the table of instances: the best score of each method, and who is best."""
    best = best_scores(rows)
    head = ["instance", "bound", *methods, "best"]
    lines: List[List[str]] = []
    for name in dict.fromkeys(row["instance"] for row in rows):
        bound = next((row["bound"] for row in rows if row["instance"] == name), "")
        scores = [best.get((name, method)) for method in methods]
        least = min((it for it in scores if it is not None), default=None)
        who = [method for method, score in zip(methods, scores) if score is not None and score == least]
        lines.append([name, bound or "-" if bound in ("", "none") else f"{int(bound) / SCORES:.3f}",
                      *("-" if it is None else f"{it / SCORES:.3f}" for it in scores), ", ".join(who) or "-"])
    return head, lines


def marked(text: object) -> str:
    """A text in a cell of a table in Markdown, in which no character has a meaning of its own."""
    return "".join(it if it.isprintable() else "\ufffd" for it in re.sub(r"([\\`*_\[\]|<>~&])", r"\\\1", str(text)))


NOTES = [
    "A gap is that of the plan's score above the bound that `check` accepts for the instance, in percent of the score. "
    "A run without a plan that keeps every rule is worse than each with one, and shown as -; where the bound is none, "
    "no plan keeps the rules. Of an even number of runs the median is the worse of the two in the middle.",
    "Scores and bounds are in multiples of 10^18: the cost times the number of periods; the best of all seeds. Each "
    "plan was judged by `evaluate`.",
]


def tables(rows: Sequence[Row], methods: Sequence[str]) -> List[Tuple[str, Table]]:
    """The tables with their titles."""
    return [("Methods", method_table(rows, methods)), ("Instances", instance_table(rows, methods))]


def markdown(rows: Sequence[Row], methods: Sequence[str], about: str) -> str:
    """The text of table.md."""
    parts = ["# Methods compared", about]
    for title, (head, lines) in tables(rows, methods):
        table = ["| " + " | ".join(map(marked, head)) + " |", "|---" + "|--:" * (len(head) - 1) + "|"]
        table += ["| " + " | ".join(map(marked, line)) + " |" for line in lines]
        parts += [f"## {title}", "\n".join(table)]
    return "\n\n".join([*parts, *NOTES]) + "\n"


STYLE = """body { font: 16px/1.5 system-ui, sans-serif; margin: 2rem auto; max-width: 70rem; padding: 0 1rem }
table { border-collapse: collapse; margin: 1rem 0; font-variant-numeric: tabular-nums }
th, td { padding: .3rem .8rem; text-align: right; border-bottom: 1px solid #8884 }
th:first-child, td:first-child { text-align: left; unicode-bidi: isolate }
img { max-width: 100% }
@media (prefers-color-scheme: dark) { body { background: #16181b; color: #e6e6e6 } img { background: #fff } }"""


def cells(line: Iterable[object], tag: str) -> str:
    """The cells of a row of a table in HTML."""
    return "".join(f"<{tag}>{html.escape(str(it))}</{tag}>" for it in line)


def page(rows: Sequence[Row], methods: Sequence[str], about: str, pictures: Mapping[str, str]) -> str:
    """The text of table.html."""
    parts = []
    for title, (head, lines) in tables(rows, methods):
        body = "\n".join(f"<tr>{cells(line, 'td')}</tr>" for line in lines)
        parts.append(f"<h2>{title}</h2>\n<table>\n<tr>{cells(head, 'th')}</tr>\n{body}\n</table>")
    parts += [f"<p>{html.escape(note)}</p>" for note in NOTES]
    parts += [f'<h2>{html.escape(title)}</h2>\n<img src="{name}" alt="{html.escape(title)}">'
              for name, title in pictures.items()]
    return (f'<!doctype html>\n<html lang="en"><meta charset="utf-8">\n<meta http-equiv="Content-Security-Policy" '
            f'content="default-src \'none\'; style-src \'unsafe-inline\'; img-src \'self\' file: data:">\n'
            f'<title>Methods compared</title>\n<style>{STYLE}</style>\n<h1>Methods compared</h1>\n'
            f'<p>{html.escape(about)}</p>\n' + "\n".join(parts) + "\n</html>\n")
