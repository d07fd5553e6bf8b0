#!/usr/bin/env -S python3 -E -s
"""Improves plans of drawn cases by `improve` with several seeds, and sets the solvers' plans beside.

    bench/improve.py --cmd PLANNER --refine PROGRAM [--cases "50-a1 200-a05"] [--turns "1000"] [--seeds 3] [--solved 0]
                     [--calls 1] [--solvers ["cbc highs:cvar"]] [--seconds 600]

PLANNER is what `./planner --build` names, PROGRAM what `./planner --build plan_refine` does. The cases are those of
bench/cases.txt, and without --cases those of TURNS below, each with its own numbers of turns. The first plan is that of
`solve` with `--solved` turns, or none with 0. With `--calls` above 1 a run is so many calls one behind the other, each
from the plan of the one before and with a seed of its own, and each with the turns of the row over their number.

A row has the scores as multiples of 10^18, the least, the median and the greatest of the runs; the median of the
processor seconds of a run, with those of `solve`, the peak memory, and how many tries a second came of those that were
above the run without turns; the score of each solver in as many seconds of the clock, rounded up, beside those in which
its model is made (bench/beside_solvers.py has the solvers); and `ok` where `evaluate` finds each plan feasible with the
score that was said. Anything else in its place is a fault.
"""
import argparse
import math
import os
import statistics
import sys
from tempfile import TemporaryDirectory

sys.dont_write_bytecode = True
import cases
from beside_solvers import ended_as, number, solver_figures
from solve import NONE, ONE, SCORED, UNPLANNED, run

TURNS = {"50-a05": "1000 2500", "200-a05": "1500 10000", "200-tight-a05": "1000 50000", "700-a05": "1500 6000",
         "300-s120-a05": "2000", "50-a1": "10000"}
TRIES = 1000
HEAD = ["case", "turns", "least", "median", "greatest", "seconds", "MB", "tries / s"]


def shown(score):
    return f"{score / ONE:,.1f}"


class Bench:
    """The programs, and the files of one case."""

    def __init__(self, words, folder, drawn):
        self.words, self.folder = words, folder
        self.instance, self.plan, self.out, *self.others = (
            os.path.join(folder, name) for name in ("instance", "plan", "out", "certificate", "trail"))
        cases.draw(drawn, self.instance)
        self.first, self.spent = "-", 0
        if words.solved:
            ran = run([words.cmd, "solve", self.instance, self.plan, *self.others, str(words.solved)], words.seconds)
            if ran is not None and ran[0] in (SCORED, UNPLANNED, NONE):
                self.first, self.spent = self.plan if ran[0] == SCORED else "-", ran[2]

    def improved(self, plan, turns, seed):
        """The status, the report, and the processor seconds and peak MB of a call."""
        words = [self.words.refine, "improve", self.instance, plan, self.out, str(turns), str(seed)]
        return run(words, self.words.seconds)

    def one(self, turns, seed):
        """The score of a run, its seconds, its peak memory, and the fault, if there is one."""
        plan, spent, peak, score = self.first, self.spent, 0, None
        for call in range(self.words.calls):
            ran = self.improved(plan, turns // self.words.calls, seed * self.words.calls + call)
            if ran is None or ran[0] not in (0, UNPLANNED):
                return None, spent, peak, "FAULT: improve"
            spent, peak = spent + ran[2], max(peak, ran[3])
            if ran[0] == UNPLANNED:
                continue
            score, plan = int(ran[1]["score"][0]), os.path.join(self.folder, "better")
            os.replace(self.out, plan)
        if score is None:
            return None, spent, peak, None
        judged = run([self.words.cmd, "evaluate", self.instance, plan], self.words.seconds)
        is_right = judged is not None and judged[0] == 0 and int(judged[1]["score"][0]) == score
        return score, spent, peak, None if is_right else "FAULT: evaluate"

    def row(self, turns):
        runs = [self.one(turns, seed) for seed in range(1, self.words.seeds + 1)]
        scores = sorted(score for score, *_ in runs if score is not None)
        without = self.improved(self.first, 0, 1)
        seconds, reading = statistics.median(spent for _, spent, *_ in runs), without[2] if without else 0
        trying = max(seconds - self.spent - self.words.calls * reading, 1e-3)
        cells = [*map(shown, (scores[0], statistics.median_low(scores), scores[-1]))] if scores else ["none"] * 3
        cells += [f"{seconds:.2f}", f"{max(peak for *_, peak, _ in runs):.0f}", f"{TRIES * turns / trying:,.0f}"]
        cells += [self.solver_score(it, max(1, math.ceil(seconds))) for it in self.words.solvers.split()]
        faults = [fault for *_, fault in runs if fault]
        return [*cells, faults[0] if faults else "ok"]

    def solver_score(self, solver, seconds):
        found = solver_figures(self.folder, self.instance, solver, seconds, self.words.largest)
        score = number(found, "score")
        return shown(score) if score is not None else "none" if found.get("status") else ended_as(found)


def main():
    parser = argparse.ArgumentParser(description=__doc__.split("\n")[0])
    parser.add_argument("--cmd", required=True)
    parser.add_argument("--refine", required=True)
    parser.add_argument("--cases", default="")
    parser.add_argument("--turns", default="")
    parser.add_argument("--seeds", type=int, default=3)
    parser.add_argument("--solved", type=int, default=0)
    parser.add_argument("--calls", type=int, default=1)
    parser.add_argument("--solvers", nargs="?", const="cbc highs:cvar", default="")
    parser.add_argument("--largest", type=int, default=1_500_000)
    parser.add_argument("--seconds", type=float, default=600)
    words = parser.parse_args()
    head = [*HEAD, *words.solvers.split(), "judged"]
    print(f"| {' | '.join(head)} |\n|---{'|--:' * (len(head) - 2)}|---|")
    faults = 0
    for name, drawn in cases.listed(words.cases.split() or [*TURNS]).items():
        with TemporaryDirectory() as folder:
            bench = Bench(words, folder, drawn)
            for turns in map(int, (words.turns or TURNS.get(name, "1000")).split()):
                cells = bench.row(turns)
                faults += cells[-1] != "ok"
                print(f"| {' | '.join([f'`{name}`', f'{turns:,}', *cells])} |", flush=True)
    return 1 if faults else 0


if __name__ == "__main__":
    sys.exit(main())
