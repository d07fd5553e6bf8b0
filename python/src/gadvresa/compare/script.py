"""Compares methods that make plans: each one on each instance of a folder, within its time, judged by `evaluate`.

    tools/compare --methods FILE --instances FOLDER --seconds S [--seeds N] [--jobs J] [--hosts FILE]
                  [--processes P] [--bound-turns T] [--bound-seconds S] OUT

FILE has a method in each line: a name, and a command that makes a plan, in which {instance} stands for the instance,
{plan} for the plan that it is to write, {seconds} for its time, {seed} for a number, and {folder} for a folder of its
own. It is started without a shell, in the folder that this is called in. A line that begins with # is none. See
examples/methods/methods.txt.

Each run has S seconds of the clock; then it is killed, with all that it started, and so it is where it comes to have
more than P processes (256). Its plan is what stands in {plan} when it ends, and it may write that as often as it likes,
best beside it and renamed. A run that crashes, writes half a plan or none is a row too. Methods are kept from harm that
is done by mistake; one that isn't trusted belongs into a container.

Each instance gets a bound by `bound` with T turns (1000), in S seconds (600) of its own, or by `solve` where
plan_refine isn't there; 0 turns leave bounds out.

OUT is a folder that gets runs.csv, whose columns docs/FORMATS.md has, table.md, table.html, and pictures where
matplotlib is there. Killed and called again this goes on with what is missing. More than one job (1), and HOSTS, need
GNU parallel: a line of HOSTS is one of its --sshlogin, and hosts have the repository, FOLDER and OUT at the same paths.

It ends with 0 once each run has its row; 64 where its words or FILE are wrong, 66 where a file can't be read, 69 where
a program or GNU parallel isn't there, 74 where OUT can't be written, 75 where runs have no row: call again. A second
comparison in one OUT is refused with 75 while the first one goes on.
"""
from __future__ import annotations

import argparse
import fcntl
import json
import math
import os
import shlex
import signal
import socket
import subprocess
import sys
from typing import Any, Dict, List, Mapping, Optional, Sequence

from ..cli import Parser, complain, remark, say, stop, words_of
from ..model.exact import SCORES
from ..over_parallel import parallel_words, read_logins
from ..running import NotFound, find, programs
from ..running.holding import ended_with_this
from ..running.processes import started
from ..running.statuses import SIGNALLED, Status
from ..whole_files import write_whole
from . import pictures, results
from .tasks import Fault, Task, read_instances, read_methods, record_of, tasks_of

PICTURES = {"profile.png": "How often a method comes how near to the best score", "gaps.png": "Gaps by instance",
            "progress.png": "Scores over time"}


def read_words() -> argparse.Namespace:
    """The words of the script."""
    parser = Parser.of_head(str(__doc__))
    parser.add_argument("--methods", metavar="FILE", required=True)
    parser.add_argument("--instances", metavar="FOLDER", required=True)
    parser.add_argument("--seconds", metavar="S", type=float, required=True)
    parser.add_argument("--seeds", metavar="N", type=int, default=1)
    parser.add_argument("--jobs", metavar="J", type=int, default=1)
    parser.add_argument("--hosts", metavar="FILE")
    parser.add_argument("--processes", metavar="P", type=int, default=256)
    parser.add_argument("--bound-turns", metavar="T", type=int, default=1000)
    parser.add_argument("--bound-seconds", metavar="S", type=float, default=600)
    parser.add_argument("out", metavar="OUT")
    words = parser.parse_args()
    if not (all(0 < it < math.inf for it in (words.seconds, words.bound_seconds))
            and min(words.seeds, words.jobs, words.processes) > 0 and 0 <= words.bound_turns <= 1_000_000):
        parser.error("seconds, seeds, jobs and processes are above 0, and turns from 0 to 1000000")
    return words


def found_programs() -> Dict[str, str]:
    """The programs that the runs are to call, by name, as they are found here."""
    found = {name: it.path for name, it in programs().items() if it}
    if "planner_cli" not in found:
        try:
            find("planner_cli")
        except NotFound as fault:
            stop(Status.TOOL_MISSING, str(fault))
    return found


def command(out: str, key: str) -> List[str]:
    """The call that does a task."""
    return [*words_of("gadvresa.compare.one_run"), out, key]


def run_here(out: str, keys: Sequence[str]) -> None:
    """Does the tasks one behind another."""
    for key in keys:
        # (a run that is told to end has all that it started ended too)
        process = subprocess.Popen(command(out, key), stdin=subprocess.DEVNULL,
                                   preexec_fn=ended_with_this(signal.SIGTERM))
        try:
            process.wait()
        except BaseException:
            process.terminate()
            process.wait()
            raise


def run_over_parallel(words: argparse.Namespace, out: str, keys: Sequence[str]) -> None:
    """Does the tasks by GNU parallel, here or on the hosts."""
    # (parallel looks for its marks, as {}, in words of the call, but not in a call that is one of its inputs)
    place = f"cd {shlex.quote(os.getcwd())} && " if words.hosts else ""
    calls = [place + shlex.join(command(out, key)) for key in keys]
    given = "\0".join([*calls, ""]).encode("utf-8", "surrogateescape")
    hosts = os.path.abspath(words.hosts) if words.hosts else None
    subprocess.run([*parallel_words(words.jobs, hosts), "--null"], input=given,
                   preexec_fn=ended_with_this(signal.SIGKILL))


def do_tasks(words: argparse.Namespace, out: str, tasks: Mapping[str, Task]) -> None:
    """Does what has no record yet, bounds first, and says how much that is."""
    for kind in ("bound", "run"):
        keys = [key for key, task in tasks.items() if task["kind"] == kind and record_of(out, key, task) is None]
        total = sum(task["kind"] == kind for task in tasks.values())
        if total:
            complain(f"{kind}s: {total - len(keys)} of {total} stand, {len(keys)} to do\n")
        if keys and words.jobs == 1 and not words.hosts:
            run_here(out, keys)
        elif keys:
            run_over_parallel(words, out, keys)


def drawn(row: results.Row) -> Dict[str, Any]:
    """What is drawn of a row."""

    def number(name: str) -> Optional[float]:
        return None if row[name] is None else float(row[name])

    return {"instance": row["instance"], "method": row["method"], "gap": number("gap_percent"),
            "above": number("above_best_percent"),
            "progress": [[at, int(score) / SCORES] for at, score in row["progress"]]}


def draw(out: str, rows: Sequence[results.Row], methods: Sequence[str], seconds: float) -> Dict[str, str]:
    """Has the pictures drawn by a Python that has matplotlib, and answers which there are."""
    given = {"methods": methods, "seconds": seconds, "rows": list(map(drawn, rows))}
    for python in dict.fromkeys((sys.executable, "/usr/bin/python3")):
        words = [python, "-I", os.path.abspath(pictures.__file__), out]
        try:
            ran = subprocess.run(words, input=json.dumps(given), stdout=subprocess.PIPE, stderr=subprocess.PIPE,
                                 text=True)
        except OSError:
            continue
        if ran.returncode == 0:
            return {name: PICTURES[name] for name in ran.stdout.split()}
        if "No module named" not in ran.stderr:
            remark(f"no pictures: {ran.stderr.strip()[-500:]}")
            return {}
    remark("no pictures: matplotlib isn't there: apt-get install python3-matplotlib")
    return {}


def hold(out: str) -> None:
    """Makes the folder, and holds it as long as this runs; ends the script where another comparison holds it."""
    os.makedirs(out, exist_ok=True)
    held = os.open(out, os.O_RDONLY)
    try:
        fcntl.flock(held, fcntl.LOCK_EX | fcntl.LOCK_NB)
    except BlockingIOError:
        stop(Status.BUSY, f"another comparison is at work in {out}: let it end first, or take another folder")


def write_results(words: argparse.Namespace, out: str, tasks: Mapping[str, Task], methods: Sequence[str]) -> int:
    """Writes the tables and the pictures; answers how many runs have no row."""
    found = {key: record_of(out, key, task) for key, task in tasks.items()}
    records = {key: record for key, record in found.items() if record is not None}
    rows = list(results.rows_of(tasks, records))
    about = (f"{len(rows)} runs of {len(methods)} methods, {words.seconds:g} seconds of the clock each, "
             f"seeds 1 to {words.seeds}, {words.jobs} at a time.")
    for name in PICTURES:
        if os.path.exists(os.path.join(out, name)):
            os.remove(os.path.join(out, name))
    there = draw(out, rows, methods, words.seconds) if rows else {}
    write_whole(os.path.join(out, "runs.csv"), results.csv_text(rows))
    write_whole(os.path.join(out, "table.md"), results.markdown(rows, methods, about))
    write_whole(os.path.join(out, "table.html"), results.page(rows, methods, about, there))
    for key, record in records.items():
        if tasks[key]["kind"] == "bound" and record["bound"] is None:
            remark(f"{tasks[key]['instance']} has no bound: {record['detail']}")
    return len([task for task in tasks.values() if task["kind"] == "run"]) - len(rows)


def main() -> None:
    """Runs the script."""
    # (so that runs end with this, where it is told to end)
    signal.signal(signal.SIGTERM, lambda *_: sys.exit(SIGNALLED + signal.SIGTERM))
    words = read_words()
    if words.hosts:
        read_logins(words.hosts)
    try:
        methods, instances = read_methods(words.methods), read_instances(words.instances)
        called = found_programs()
        bound = {"by": "bound" if "plan_refine" in called else "solve", "turns": words.bound_turns or None,
                 "seconds": words.bound_seconds}
        tasks = tasks_of(instances, methods, words.seeds, words.seconds, words.processes, bound)
    except Fault as fault:
        stop(Status.SCRIPT_WORDS, str(fault))
    except (OSError, UnicodeDecodeError) as error:
        stop(Status.SCRIPT_UNREAD, str(error))
    out = os.path.abspath(words.out)
    owner = {"host": socket.gethostname(), "pid": os.getpid(), "started": started(os.getpid())}
    shared = {"programs": called, "folder": os.getcwd(), "owner": owner, "tasks": tasks}
    try:
        hold(out)
        for name in ("records", "plans", "bounds", "locks"):
            os.makedirs(os.path.join(out, name), exist_ok=True)
        write_whole(os.path.join(out, "tasks.json"), json.dumps(shared))
        do_tasks(words, out, tasks)
        missing = write_results(words, out, tasks, list(methods))
    except OSError as error:
        stop(Status.SCRIPT_UNWRITTEN, f"{error.filename or out}: {error.strerror}")
    say(os.path.join(out, "table.md") + "\n")
    if missing:
        stop(Status.BUSY, f"{missing} runs have no row: call again, which goes on with them")
