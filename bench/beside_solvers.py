#!/usr/bin/env -S python3 -E -s
"""Sets `solve` beside mixed-integer solvers on drawn cases: one table a case.

    bench/beside_solvers.py [--cmd PROGRAM] [--cases "10-a1 20-a1"] [--turns "1000 10000"] [--seconds 60]
                            [--solvers "cbc highs highs:mean highs:cvar"] [--match] [--largest 1500000]

PROGRAM is what `./planner --build` names; without it the solvers stand alone. Debian's packages have the solvers
(bench/mip.py). All runs come one after the other, and have the same limit in seconds of the clock, behind which they
are killed. `--match` also gives the solvers the seconds of the program's last run. A solver with a word behind a colon
takes another model (gadvresa.milp); those are left out where `Alpha` is 1.

A row has seconds of the clock and of a processor, score and bound as multiples of 10^18, the gap in percent of the
score, how far in percent the score is above the best one of the table and the bound below the best one, peak memory,
and notes. `the drawn plan` is the one that the instance is made around, which knows no risks. Each plan is judged from
scratch and by `evaluate`, and each certificate by `check`. Words in capitals in the notes are faults.
"""
import argparse
import os
import sys
import tempfile
from dataclasses import dataclass

sys.dont_write_bytecode = True
import cases
from drawn import MILLION, Plain
from milp import solvers
from plain import read_instance, read_plan

ONE = 10 ** 18
# Seconds to read an instance and to make a model of it.
SLOWEST_MODEL = 300
MIP = os.path.join(cases.HERE, "mip.py")


@dataclass
class Row:
    who: str
    seconds: float = None
    processor: float = None
    score: int = None
    bound: int = None
    peak: float = None
    note: str = ""


def figures(said):
    """The values of a report's lines by their first words; the whole first line stands under the empty one."""
    lines = said.split("\n")
    return {"": lines[0]} | dict(line.split(" ", 1) for line in lines if " " in line)


def number(found, key):
    text = found.get(key, "none")
    return None if text == "none" else int(text)


def solver_words(instance, solver, seconds, largest, *more):
    """A call of bench/mip.py, by which a solver, as `highs` or `highs:mean`, has so many seconds for an instance."""
    name, _, variant = solver.partition(":")
    return [sys.executable, MIP, instance, "--solve", f"{seconds:g}", "--solver", name, "--variant",
            variant or "exact", "--largest", str(largest), *more]


def solver_figures(folder, instance, solver, seconds, largest, *more):
    """What such a call says, made here; in the folder stands what it prints."""
    words = solver_words(instance, solver, seconds, largest, *more)
    return figures(solvers.run(words, seconds + SLOWEST_MODEL, os.path.join(folder, "said")).said)


def ended_as(found):
    """How a solver ended, in its words."""
    return found.get("status") or found[""] or "killed"


class Case:
    """A drawn case: its files in a folder, and the runs on it."""

    def __init__(self, folder, drawn, words):
        self.folder, self.words = folder, words
        self.instance, self.drawn = self.file("instance"), self.file("drawn")
        cases.draw(drawn, self.instance, self.drawn)
        self.plain = Plain(read_instance(self.instance))

    def file(self, name):
        return os.path.join(self.folder, name)

    def score(self, path):
        """The score of a plan, or none where it breaks a rule."""
        plan = read_plan(self.plain.inst, path)
        return None if self.plain.broken_rules(plan) else self.plain.score(plan)

    def call(self, *words, limit=SLOWEST_MODEL):
        return solvers.run([*map(str, words)], limit, self.file("said"))

    def doubts(self, path, score):
        """What `evaluate` says against the score of a plan, or nothing."""
        ran = self.call(self.words.cmd, "evaluate", self.instance, path)
        found = figures(ran.said)
        fine = ran.status == 0 and found[""] == "feasible" and number(found, "score") == score
        return "" if fine else f" EVALUATE {ran.status} {found['']} {found.get('score', '')}"

    def drawn_row(self):
        row = Row("the drawn plan", score=self.score(self.drawn))
        if self.words.cmd:
            row.note = self.doubts(self.drawn, row.score)
        return row

    def solved_row(self, turns):
        plan, certificate, trail = (self.file(name) for name in ("plan", "certificate", "trail"))
        ran = self.call(self.words.cmd, "solve", self.instance, plan, certificate, trail, turns,
                        limit=self.words.seconds)
        found = figures(ran.said)
        row = Row(f"solve {turns}", ran.seconds, ran.processor, peak=ran.peak)
        if ran.status not in (0, 9, 10):
            row.note = "killed" if ran.status == solvers.KILLED else f"STATUS {ran.status} {found['']}"
            return row
        row.score, row.bound = number(found, "score"), number(found, "bound")
        row.note = " ".join([found[""], *(f"{key} {found[key]}" for key in ("splits", "moves") if key in found)])
        checked = self.call(self.words.cmd, "check", self.instance, plan if ran.status == 0 else "-", certificate)
        said = figures(checked.said)
        row.note += f" check {checked.seconds:.1f} s"
        if checked.status != 0 or (number(said, "bound"), number(said, "score")) != (row.bound, row.score):
            row.note += f" CHECK {checked.status} {said['']}"
        if ran.status == 0:
            row.note += self.doubts(plan, row.score) + ("" if self.score(plan) == row.score else " SCORE DIFFERS")
        return row

    def solver_row(self, solver, seconds):
        plan = self.file("solver")
        found = solver_figures(self.folder, self.instance, solver, seconds, self.words.largest, "--plan", plan)
        row = Row(f"{solver} {seconds} s", note=ended_as(found))
        row.score, row.bound = number(found, "score"), number(found, "bound")
        if "seconds" in found:
            row.seconds, row.processor, row.peak = (float(found[key]) for key in ("seconds", "processor", "peak-mb"))
        if "infeasible" in found:
            row.note += " INFEASIBLE " + found["infeasible"]
        if row.score is not None and self.words.cmd:
            row.note += self.doubts(plan, row.score)
        return row

    def rows(self):
        rows = [self.drawn_row()]
        if self.words.cmd:
            rows += map(self.solved_row, self.words.turns.split())
        limits = {self.words.seconds}
        if self.words.match and rows[-1].seconds:
            limits.add(max(1, round(rows[-1].seconds)))
        for limit in sorted(limits):
            for solver in self.words.solvers.split():
                # (the other models are for a quantile that counts)
                if ":" not in solver or self.plain.inst.alpha < MILLION:
                    rows.append(self.solver_row(solver, limit))
        return rows


def shown(value, text):
    return "" if value is None else text(value)


def print_table(head, rows):
    best = min((row.score for row in rows if row.score is not None), default=None)
    highest = max((row.bound for row in rows if row.bound is not None), default=None)
    print(f"\n{head}\n")
    if best is not None and highest is not None and highest > best + abs(best) // 10 ** 6:
        print("A BOUND IS ABOVE A SCORE\n")
    print("| who | seconds | processor s | score | bound | gap % | above the best % | below the best bound % | MB "
          "| notes |\n|---" + 8 * "|--:" + "|---|")
    for row in rows:
        both = row.score and row.bound is not None
        cells = [shown(row.seconds, "{:.1f}".format), shown(row.processor, "{:.1f}".format),
                 shown(row.score, lambda score: f"{score / ONE:.3f}"),
                 shown(row.bound, lambda bound: f"{bound / ONE:.3f}"),
                 f"{100 * (row.score - row.bound) / row.score:.3f}" if both else "",
                 shown(row.score if best else None, lambda score: f"{100 * (score / best - 1):.3f}"),
                 shown(row.bound if highest else None, lambda bound: f"{100 * (1 - bound / highest):.3f}"),
                 shown(row.peak, "{:.1f}".format), row.note.strip()]
        print(f"| {row.who} | {' | '.join(cells)} |")
    sys.stdout.flush()


def main():
    parser = argparse.ArgumentParser(description=__doc__.split("\n")[0])
    parser.add_argument("--cmd")
    parser.add_argument("--cases", default="")
    parser.add_argument("--turns", default="1000 10000")
    parser.add_argument("--seconds", type=int, default=60)
    parser.add_argument("--solvers", default="cbc highs highs:mean highs:cvar")
    parser.add_argument("--match", action="store_true")
    parser.add_argument("--largest", type=int, default=1_500_000)
    words = parser.parse_args()
    for name, drawn in cases.listed(words.cases.split()).items():
        with tempfile.TemporaryDirectory() as folder:
            print_table(f"{name}: {' '.join(drawn)}", Case(folder, drawn, words).rows())


if __name__ == "__main__":
    main()
