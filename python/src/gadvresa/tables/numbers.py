"""Says the report of a command as JSON or CSV, for programs that read those.

    tools/numbers COMMAND WORD .. --json
    tools/numbers table WORD .. --csv
    tools/numbers table WORD .. --csv=RUNS

The command is run by `./planner`, and the status is its own. `--json` takes evaluate, check, solve, repair and table,
and says one object. A number with decimals, and each score, stands in it twice: under its name as a number, which is
rounded where a float can't hold it, and with `_exact` behind the name as the text that the command said. `--csv` says a
row for each period and resource; with RUNS a file is written as well, with a row for each run and period.
docs/FORMATS.md has all keys and columns.

Where a file is refused, the object has `status` and `refused`, and of `--csv` the refusal goes to standard error. A
status above 63 is one of `planner`, or one of this script: 64 its words, 65 a report that isn't as it should be, 67
RUNS is another file of the call, 69 the program isn't there, 70 something unforeseen, 74 what is due can't be said or
written.
"""
from __future__ import annotations

import json
import os
import signal
import subprocess
import sys
from typing import Any, Dict, List, Mapping, Optional, Sequence, Tuple

from ..cli import PLANNER, complain, say, status_of, stop
from ..model.exact import shown
from ..reports import COUNTED, NoReport, read_report, read_table
from ..reports.tables import Period, Periods
from ..running.statuses import Status
from ..whole_files import write_named
from .asking import no_table
from .cells import plain_text, rows_text

REPORTS = ("evaluate", "check", "solve", "repair")
TEXTS = ("verdict", "rule", "name", "resource", "exclusion")
# Statuses above these are of `planner`, which says nothing on standard output then.
LAST = 63
PERIODS = ["period", "scenarios", "rank", "least", "quantile", "greatest", "mean_low", "mean_high", "excess_low",
           "excess_high", "clashes"]
LOADS = ["resource", "load", "lower", "upper", "state"]
RUNS = ["period", "name", "start", "day", "duration", "risk_low", "risk_high"]
PASSED_ON = (signal.SIGHUP, signal.SIGINT, signal.SIGQUIT, signal.SIGTERM, signal.SIGUSR1, signal.SIGUSR2)


def main() -> None:
    """Runs the script."""
    words, program = sys.argv[1:], PLANNER
    if words[:1] == ["--cmd"] and len(words) > 1:
        words, program = words[2:], words[1]
    command, form = words[0] if words else "", words[-1] if words else ""
    if form == "--json" and command in (*REPORTS, "table"):
        status, said = asked([program, *words[:-1]])
        say_json(command, status, said)
    elif (form == "--csv" or form.startswith("--csv=") and form != "--csv=") and command == "table":
        runs = form.partition("=")[2]
        if any(os.path.exists(it) and os.path.exists(runs) and os.path.samefile(it, runs) for it in words[1:-1]):
            stop(Status.SAME_FILE, f"{runs} is another file of the call, and would be overwritten: name another one")
        status, said = asked([program, *words[:-1]])
        say_csv(status, said, runs)
    else:
        stop(Status.SCRIPT_WORDS, f"--json is of {', '.join(REPORTS)} and table, and --csv of table, as the last word")
    sys.exit(status)


def asked(call: Sequence[str]) -> Tuple[int, str]:
    """The status of a call, and what it says; a signal is passed on to it."""
    process: "Optional[subprocess.Popen[bytes]]" = None
    pending: List[int] = []

    def pass_on(number: int, _: object) -> None:
        if process:
            process.send_signal(number)
        else:
            pending.append(number)

    for each in PASSED_ON:
        signal.signal(each, pass_on)
    try:
        process = subprocess.Popen(call, stdout=subprocess.PIPE, close_fds=False)
    except OSError as error:
        stop(Status.TOOL_MISSING, f"{call[0]}: {error.strerror}")
    for number in pending:
        process.send_signal(number)
    said = process.communicate()[0].decode("utf-8", "replace")
    status = status_of(process.returncode)
    if status > LAST:
        complain(said)
        sys.exit(status)
    return status, said


def say_json(command: str, status: int, said: str) -> None:
    """Says a report as an object."""
    is_table = command == "table" and status == 0
    try:
        found = table_object(read_table(said)) if is_table else report_object(read_report(said))
    except NoReport as fault:
        # (where nothing can be said, the program says nothing, and its status tells)
        stop(status or Status.NO_REPORT, f"{command}: {no_table(fault) if is_table else fault}")
    say(json.dumps({"command": command, "status": status, **found}, ensure_ascii=False, indent=1) + "\n")


def report_object(report: Mapping[str, Any]) -> Dict[str, Any]:
    """The object of a report of any command but `table`."""
    found: Dict[str, Any] = {}
    for key, value in report.items():
        if key == "refused" or key in TEXTS and isinstance(value, str):
            found[key] = value
        elif isinstance(value, dict):
            found[key] = report_object(value)
        elif value == "none":
            found[key] = None
        elif key in COUNTED:
            found[key] = int(value)
        else:
            found.update(twice(key, value))
    return found


def twice(key: str, text: str) -> Dict[str, Any]:
    """A number, and its text."""
    return {key: float(text), f"{key}_exact": text}


def table_object(table: Periods) -> Dict[str, Any]:
    """The object of a table."""
    return {"periods": [period_object(period) for period in table.periods], "rounded": table.rounded}


def period_object(period: Period) -> Dict[str, Any]:
    """The object of a period."""
    found: Dict[str, Any] = {"period": period.number, "scenarios": period.scenarios, "rank": period.rank}
    for key, text in zip(PERIODS[3:10], values_of(period)):
        found.update(twice(key, text))
    loads = [{"resource": it.resource, **twice("load", shown(it.load)), **twice("lower", shown(it.lower)),
              **twice("upper", shown(it.upper)), "state": it.state} for it in period.loads]
    runs = [{"name": it.name, "start": it.start, "day": it.day, "duration": it.duration,
             **twice("risk_low", shown(it.mean.low)), **twice("risk_high", shown(it.mean.high))} for it in period.runs]
    return {**found, "loads": loads, "runs": runs, "clashes": period.clashes}


def values_of(period: Period) -> List[str]:
    """The risks of a period, in the order of their columns."""
    ranges = (it for both in (period.mean, period.excess) for it in (both.low, both.high))
    return [shown(it) for it in (period.least, period.quantile, period.greatest, *ranges)]


def say_csv(status: int, said: str, path: str) -> None:
    """Says a table as rows, and writes its runs where a path is given."""
    if status:
        complain(said)
        return
    try:
        table = read_table(said)
    except NoReport as fault:
        stop(Status.NO_REPORT, f"table: {no_table(fault)}")
    if path:
        runs = [[period.number, plain_text(run.name), run.start, run.day, run.duration, shown(run.mean.low),
                 shown(run.mean.high)] for period in table.periods for run in period.runs]
        try:
            write_named(path, rows_text(RUNS, runs).encode("utf-8"))
        except OSError as error:
            stop(Status.SCRIPT_UNWRITTEN, f"{path}: {error.strerror}")
    say(rows_text([*PERIODS, *LOADS], [row for period in table.periods for row in load_rows(period)]))


def load_rows(period: Period) -> List[List[Any]]:
    """A row for each resource; one without a resource where there is none, so that each period has a row."""
    clashes = plain_text(" ".join(period.clashes))
    begin = [period.number, period.scenarios, period.rank, *values_of(period), clashes]
    loads = [[plain_text(it.resource), shown(it.load), shown(it.lower), shown(it.upper), it.state]
             for it in period.loads]
    return [[*begin, *load] for load in loads or [[""] * len(LOADS)]]
