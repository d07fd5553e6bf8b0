#!/usr/bin/env -S python3 -E -s
"""Sets `./planner plan` beside mixed-integer solvers with the same minutes and processors: a table a case.

    bench/plan.py RESULTS [--only "50-a1 200-a05"] [--who "plan cbc highs"] [--jobs "1 4"] [--minutes "1 10"] [--seed 1]
                  [--programs FOLDER] [--side-by-side] [--largest 8000000] [--list | --table]

RESULTS is a folder, which gets a file for each run once that has ended. A run whose file stands isn't made again, so
what was stopped, as by Ctrl-C, is gone on with by the same words, and runs can be made in pieces: by case (--only), by
method (--who), by processors (--jobs). --list says which runs are due, and how long they take at most; --table makes
none, and prints the tables of those that stand, as each call does at its end. FOLDER has `planner_cli` and
`plan_refine` as `./planner --build` makes them; without it those of this clone are taken.

A run has as many processors as it has jobs, and no other ones. `plan` runs for the greatest number of minutes, which
gives the rows of the lesser ones too, as it stood then. cbc runs for each number of minutes, with as many threads as
jobs, and so does scipy's HiGHS, which takes one, so its runs are among those with 1 job. `highs:mean` and `highs:cvar`
take another model (gadvresa.milp), where `Alpha` is below 1. Runs come one after the other; with
--side-by-side as many at once as there are processors for.

A row has score and bound as multiples of 10^18, the gap in percent of the score, how far in percent the score is above
the best one of the case and the bound below the best one, rounds, and how many processors others had, on average, of
those of the run. The overhead of a run of `plan` is the part of its processor seconds that went into anything but
`solve`, `improve` and `bound`, and into reading files again in these; what was cut off at the end is told beside it.
Below a table stands when a run came to the gap that one with 1 job had at the end. Two tables of all cases end it: the
runs beside each other, and whether the goals are reached.
"""
import argparse
import os
import signal
import sys

sys.dont_write_bytecode = True
sys.path.insert(0, os.path.join(os.path.dirname(os.path.abspath(__file__)), "..", "tools"))
import package_path  # noqa: F401
import cases
from plan_runs import Machine, Runs
from plan_tables import print_case, print_goals, print_summary
from gadvresa.running.holding import end_all, take_orphans

CASES = "50-a1 50-tight-a1 200-a05 300-s120-a05 700-a05"


def read_words():
    parser = argparse.ArgumentParser(description=__doc__.split("\n")[0])
    parser.add_argument("results", metavar="RESULTS")
    parser.add_argument("--only", metavar="CASES", default=CASES)
    parser.add_argument("--who", default="plan cbc highs")
    parser.add_argument("--jobs", default="1 4")
    parser.add_argument("--minutes", default="1 10")
    parser.add_argument("--seed", type=int, default=1)
    parser.add_argument("--programs", metavar="FOLDER")
    parser.add_argument("--side-by-side", action="store_true")
    parser.add_argument("--largest", type=int, default=8_000_000, metavar="TERMS", help="of a solver's model")
    which = parser.add_mutually_exclusive_group()
    which.add_argument("--list", action="store_true")
    which.add_argument("--table", action="store_true")
    words = parser.parse_args()
    words.only, words.who = words.only.split(), words.who.split()
    words.jobs = sorted(set(map(int, words.jobs.split())))
    words.minutes = sorted(set(map(float, words.minutes.split())))
    return words


def main():
    words = read_words()
    drawn, machine = cases.listed(words.only), Machine()
    runs = Runs(words, drawn)
    due = runs.due()
    print(machine.said(), flush=True)
    if words.list:
        for run in due:
            print(f"due: {run.said()}")
        total, share = (sum(run.minutes * jobs for run, jobs in zip(due, each)) for each in (
            [1] * len(due), [run.jobs / len(machine.processors) for run in due]))
        print(f"{len(due)} runs: {total:g} minutes one after the other, {share:g} side by side, and some for models of "
              "the solvers")
        return
    status = 0
    if not words.table:
        signal.signal(signal.SIGTERM, lambda *_: sys.exit(128 + signal.SIGTERM))
        take_orphans()
        try:
            status = 1 if runs.make(due, machine) else 0
        except KeyboardInterrupt:
            status = 128 + signal.SIGINT
            print("stopped: the same words go on from here")
        finally:
            end_all()
    found = {name: runs.found(name) for name in drawn}
    goals = [print_case(name, drawn[name], runs, words.minutes) for name, runs in found.items()]
    print_summary(found, words.minutes)
    print_goals([it for it in goals if it])
    sys.exit(status)


if __name__ == "__main__":
    main()
