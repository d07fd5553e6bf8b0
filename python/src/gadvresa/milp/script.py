"""Writes an instance as a mixed-integer program for a solver, or turns the solver's solution into a plan.

    tools/model INSTANCE MODEL [--variant exact|mean|cvar] [--largest TERMS] [--cmd PROGRAM]
    tools/model INSTANCE PLAN --plan SOLUTION [--cmd PROGRAM]

MODEL is in the LP format, or MPS in its free form, by its suffix, .lp or .mps. What is minimized is the number of
periods times the cost. The variants differ where `Alpha` is below 1, in what stands for the excess of the quantile:

    exact   the problem itself, with a binary for each period and scenario; for small instances. A bound of the solver
            holds for the problem.
    mean    the excess is left out. A bound holds for the problem, as the excess is never below 0, and is far below
            what plans cost; the plan has the least mean risk.
    cvar    the mean of the scenarios from the quantile upwards stands for the quantile. A plan's value is at least its
            cost, and plans are good ones; a bound of the solver says nothing about the problem.

Such a bound is the solver's word in floating point, with its tolerances: it proves nothing, as a certificate does. The
numbers are those that `evaluate` keeps, of 12 decimals, rounded to floats. A column x12_north_line_s3 is 1 where
intervention 12 of the file, whose name begins so, starts in 3; rows and other columns are named by resource, season,
period (p) and scenario (k).

SOLUTION is what a solver wrote: `cbc MODEL -solve -solution FILE`, `highs MODEL --solution_file FILE`, `glpsol --lp
MODEL -o FILE`, SCIP's `write solution FILE`, or Gurobi's `.sol`. PLAN may break a rule by a solver's tolerance, a
millionth or so: `./planner evaluate INSTANCE PLAN` judges it.

`./planner evaluate` reads INSTANCE first. If it refuses the file, its line goes to standard error, and its status is
that of the call. INSTANCE is read more than once, so it can't be a pipe.

The status is 0 where the file was written, and 10 where it is seen at once that no plan keeps every rule. Otherwise a
line says why: 64 its words are wrong, 65 SOLUTION has no plan or the model more than TERMS terms, 66 a file can't be
read, 69 the program isn't there, 70 something unforeseen, 74 a file can't be written.
"""
from __future__ import annotations

import argparse
import os
import sys
import tempfile
from typing import Callable

from ..cli import Parser, asked, held, say, stop
from ..model.instance import Instance, Unreadable
from ..running.holding import end_by_signals
from ..running.statuses import Status
from ..whole_files import BESIDE, put_whole
from .program import LARGEST, VARIANTS, TooLarge, build
from .solutions import NoPlan, plan_of
from .writing import write_lp, write_mps

# The statuses of `evaluate` with an instance that it takes.
TAKEN = (Status.DONE, Status.BROKEN_RULE)
MEANINGS = {
    "exact": "the problem itself: a bound of the solver holds for it, by the solver's word",
    "mean": "without the excess of the quantile: a bound holds for the problem, and its plan has the least mean",
    "cvar": "with the mean of the scenarios from the quantile upwards: plans alone, no bound of the problem"}


def read_words() -> argparse.Namespace:
    """The words of the script."""
    parser = Parser.of_head(str(__doc__))
    parser.add_argument("instance", metavar="INSTANCE")
    parser.add_argument("out", metavar="OUT", help="MODEL, or PLAN with --plan")
    parser.add_argument("--variant", choices=VARIANTS, default="exact")
    parser.add_argument("--largest", metavar="TERMS", type=int, default=LARGEST)
    parser.add_argument("--plan", metavar="SOLUTION")
    parser.add_program("what is asked, not ./planner")
    words = parser.parse_args()
    if not words.plan and not words.out.endswith((".lp", ".mps")):
        parser.error("MODEL ends with .lp or .mps")
    return words


def ask(program: str, path: str) -> None:
    """Ends the script as `evaluate` does, unless that takes the instance."""
    if os.path.exists(path) and not os.path.isfile(path):
        stop(Status.SCRIPT_UNREAD, f"{path} is no file that can be read more than once")
    try:
        with open(path, "rb"):
            pass
    except OSError as error:
        stop(Status.SCRIPT_UNREAD, f"{path}: {error.strerror}")
    # (a plan without a start, of which a rule on starts is all that it judges)
    asked([program, "evaluate", path, os.devnull], TAKEN)


def write_beside(path: str, write: Callable[[str], None]) -> None:
    """Has a file written beside its place, which it then takes."""
    beside = None
    try:
        number, beside = tempfile.mkstemp(prefix=BESIDE, dir=os.path.dirname(os.path.abspath(path)))
        os.close(number)
        write(beside)
        put_whole(beside, os.path.abspath(path))
        beside = None
    except OSError as error:
        stop(Status.SCRIPT_UNWRITTEN, f"{path}: {error.strerror}")
    finally:
        if beside:
            os.remove(beside)


def write_plan(instance: Instance, words: argparse.Namespace) -> None:
    """Writes the plan that a solver's solution has."""
    try:
        plan = plan_of(instance, held(words.plan).decode("utf-8", "replace"))
    except NoPlan as fault:
        stop(Status.NO_REPORT, f"{words.plan}: {fault}")

    def write(path: str) -> None:
        with open(path, "wb") as out:
            out.write(plan.data())

    write_beside(words.out, write)


def write_model(instance: Instance, words: argparse.Namespace) -> None:
    """Writes the model of an instance, and says how large it is."""
    try:
        model = build(instance, words.variant, words.largest)
    except TooLarge as fault:
        stop(Status.NO_REPORT,
             f"the model {words.variant} has {fault}: take --variant mean or cvar, or a higher --largest")
    if model.hopeless:
        say(f"no plan keeps every rule: {model.hopeless}\n")
        sys.exit(Status.NO_PLAN_EXISTS)
    alike = " (with Alpha 1 all variants are the same)" if instance.alpha == 1 else ""
    remarks = [f"variant {words.variant}: {MEANINGS[words.variant]}{alike}",
               f"minimized: {instance.periods} periods times the cost"]

    def write(path: str) -> None:
        if words.out.endswith(".lp"):
            write_lp(model, path, remarks)
        else:
            write_mps(model, path, remarks)

    write_beside(words.out, write)
    say(f"columns {len(model.columns)} rows {len(model.rows)} terms {model.terms}\n")


def main() -> None:
    """Runs the script."""
    end_by_signals()
    words = read_words()
    ask(words.cmd, words.instance)
    try:
        instance = Instance.read(words.instance)
        if words.plan:
            write_plan(instance, words)
        else:
            write_model(instance, words)
    except OSError as error:
        stop(Status.SCRIPT_UNREAD, f"{words.instance}: {error.strerror}")
    except (Unreadable, LookupError):
        stop(Status.SCRIPT_UNREAD,
             f"{words.instance} can't be read as the program read it: was it changed meanwhile?")
