#!/usr/bin/env -S python3 -E -s
"""Bounds drawn cases by `bound`, times `check` of what it writes, and sets the solvers' bounds beside.

    bench/bound.py --cmd PLANNER --refine PROGRAM [--cases "20-a05 50-a1"] [--turns 0] [--splits] [--solved 1000]
                   [--rounds 3] [--solvers ["cbc highs highs:mean"]] [--seconds 600]

PLANNER is what `./planner --build` names, PROGRAM what `./planner --build plan_refine` does. The cases are those of
bench/cases.txt, and without --cases those of WHOLE below. Each is drawn and solved with `--solved` turns. Then `bound`
makes a certificate for the plan, if one was found, with `--turns` turns and without an old certificate. With --splits
those of SPLIT below are taken, each with its own number of turns.

A row has the score of the plan and the bound of `solve`, the bound of `bound`, all as multiples of 10^18, and the gap
in percent of the score; how many lists and splits there are; processor seconds and the peak memory of the run, and the
bytes that it wrote; the processor seconds of `check` of that and of `evaluate` of the same instance, medians of
`--rounds` runs that alternate, and the former over the latter; the bound of each solver; and `ok` where `check` accepts
the certificate with the bound, the score and the gap that were said. Anything else in its place is a fault.

A solver gets as many seconds of the clock as `bound` took of a processor, rounded up, beside those in which its model
is made (bench/beside_solvers.py has the solvers, and what stands behind a colon). Its word stands there where it has no
bound.
"""
import argparse
import math
import os
import statistics
import sys
from tempfile import TemporaryDirectory

sys.dont_write_bytecode = True
import cases
from beside_solvers import ended_as, number, solver_figures
from drawn import measured
from solve import NONE, ONE, SCORED, UNPLANNED, run

WHOLE = "20-a05 50-a05 200-a05 700-a05 50-a1 200-a1"
SPLIT = {"10-a05": 2_000, "20-a1": 30_000, "20-a05": 10_000, "50-a1": 1_000, "50-a05": 1_000}
HEAD = ["case", "turns", "score", "`solve`", "bound", "gap %", "lists", "splits", "seconds", "MB", "bytes", "check s",
        "evaluate s", "check / evaluate"]


def shown(said, key):
    """A value of a report as a multiple of 10^18; empty where it isn't said."""
    word = said.get(key, [""])[0]
    return f"{int(word) / ONE:,.3f}" if word not in ("", "none") else word


class Bench:
    """The programs, and the files of one case."""

    def __init__(self, words, folder, drawn):
        self.words, self.folder, self.drawn = words, folder, drawn
        self.instance, self.made, self.plan, self.out, self.old, self.trail = (
            os.path.join(folder, name) for name in ("instance", "made", "plan", "out", "old", "trail"))
        cases.draw(drawn, self.instance, self.made)

    def row(self, turns):
        """What comes of the case; the last word is the fault, or `ok`."""
        solved = run([self.words.cmd, "solve", self.instance, self.plan, self.old, self.trail, str(self.words.solved)],
                     self.words.seconds)
        if solved is None or solved[0] not in (SCORED, UNPLANNED, NONE):
            return ["FAULT: solve"]
        plan = self.plan if solved[0] == SCORED else "-"
        ran = run([self.words.refine, "bound", self.instance, plan, "-", self.out, str(turns)], self.words.seconds)
        if ran is None or ran[0] not in (0, NONE):
            return ["FAULT: bound"]
        said = ran[1]
        cells = [shown(said, "score") or "none", shown(solved[1], "bound"), shown(said, "bound"), self.gap(said),
                 said["lists"][0], said["splits"][0], f"{ran[2]:.2f}", f"{ran[3]:.0f}"]
        cells += [f"{os.path.getsize(self.out):,}", *self.times(plan)]
        cells += [self.solver_bound(it, max(1, math.ceil(ran[2]))) for it in self.words.solvers.split()]
        return [*cells, "ok" if self.is_checked(plan, said) else "FAULT: check"]

    def gap(self, said):
        score = int(said.get("score", [0])[0])
        return f"{100 * int(said['gap'][0]) / abs(score):.2f}" if score else ""

    def is_checked(self, plan, said):
        """Whether the certificate is accepted with what was said of it."""
        again = run([self.words.refine, "check", self.instance, plan, self.out], self.words.seconds)
        keys = "bound", "score", "gap"
        return again is not None and again[0] == 0 and all(again[1].get(it) == said.get(it) for it in keys)

    def times(self, plan):
        """The median seconds of `check` and of `evaluate`, and how many of the latter the former is."""
        check = [self.words.refine, "check", self.instance, "-", self.out]
        evaluate = [self.words.cmd, "evaluate", self.instance, self.made if plan == "-" else plan]
        rounds = [(measured(check)[0], measured(evaluate)[0]) for _ in range(self.words.rounds)]
        one, other = (statistics.median(times) for times in zip(*rounds))
        return [f"{one:.3f}", f"{other:.3f}", f"{one / max(other, 1e-6):.2f}"]

    def solver_bound(self, solver, seconds):
        """The bound of a solver in so many seconds; nothing of a model without the excess, where that costs nothing."""
        if ":" in solver and self.drawn[self.drawn.index("--alpha") + 1] == "1":
            return ""
        found = solver_figures(self.folder, self.instance, solver, seconds, self.words.largest)
        bound = number(found, "bound")
        return f"{bound / ONE:,.3f}" if bound is not None else ended_as(found)


def main():
    parser = argparse.ArgumentParser(description=__doc__.split("\n")[0])
    parser.add_argument("--cmd", required=True)
    parser.add_argument("--refine", required=True)
    parser.add_argument("--cases", default="")
    parser.add_argument("--turns", type=int, default=0)
    parser.add_argument("--splits", action="store_true")
    parser.add_argument("--solved", type=int, default=1000)
    parser.add_argument("--rounds", type=int, default=3)
    parser.add_argument("--solvers", nargs="?", const="cbc highs highs:mean", default="")
    parser.add_argument("--largest", type=int, default=1_500_000)
    parser.add_argument("--seconds", type=float, default=600)
    words = parser.parse_args()
    head = [*HEAD, *words.solvers.split(), "checked"]
    print(f"| {' | '.join(head)} |\n|---{'|--:' * (len(head) - 2)}|---|")
    faults, named = 0, [*SPLIT] if words.splits else WHOLE.split()
    for name, drawn in cases.listed(words.cases.split() or named).items():
        turns = SPLIT.get(name, words.turns) if words.splits else words.turns
        with TemporaryDirectory() as folder:
            cells = Bench(words, folder, drawn).row(turns)
        faults += cells[-1] != "ok"
        cells = [f"`{name}`", f"{turns:,}", *cells[:-1], *[""] * (len(head) - 2 - len(cells)), cells[-1]]
        print(f"| {' | '.join(cells)} |", flush=True)
    return 1 if faults else 0


if __name__ == "__main__":
    sys.exit(main())
