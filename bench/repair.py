#!/usr/bin/env -S python3 -E -s
"""Repairs plans whose limits were tightened, and has every plan and certificate checked.

    bench/repair.py --cmd PLANNER --repair PROGRAM [--cases "10-a1 20-a1"] [--cells "1 3 10"]
                    [--turns "100 1000 10000"] [--solved 1000] [--seed 1] [--seconds 600]
    bench/repair.py --brute COUNT --cmd PLANNER --repair PROGRAM [--seed 1]

The cases are those of bench/cases.txt. PLANNER is what `./planner --build` names, PROGRAM what `./planner --build
plan_repair` does. Each case is drawn and solved with `--solved` turns. Then, for each number of `--cells`, so many
pairs of a resource and a period are drawn in which the plan has a load, and their upper limits are lowered to nine
tenths of it; the plan is repaired in what came of that, with each number of turns.

A row has what `repair` says, processor seconds and the peak memory of the run; and `ok` where `evaluate` finds the plan
that was written feasible, it changes as many starts as was said, and `audit` accepts the certificate with the number
that was said. Where `changed` and `least` are equal, `splits` is how many splits it took to make them so.

With --brute so many small instances and old plans are drawn, of any kind; all plans are tried, and the least number of
changes of a feasible one is compared with what `repair` says with no turns, with three, and with turns for all plans.
Of each certificate also the bound is raised by one, which `audit` has to refuse where it was the number that is needed.
"""
import argparse
import itertools
import os
import random
import sys
from tempfile import TemporaryDirectory

sys.dont_write_bytecode = True
import drawn
import cases
import scratch
from drawn import Plain, write_lines
from plain import decimal, read_instance, read_plan
from solve import run

REPAIRED, NOTHING, NONE = 0, 9, 10
ONE = 10 ** 18


def changes(old, starts):
    """How many starts differ from the old ones."""
    return sum(one != other for one, other in zip(old, starts))


class Bench:
    """The programs, and the files of one case."""

    def __init__(self, words, folder):
        self.planner, self.program, self.seconds = words.cmd, words.repair, words.seconds
        self.instance, self.plan, self.certificate, self.out, self.trail = (
            os.path.join(folder, name) for name in ("instance", "plan", "certificate", "out", "trail"))

    def repair(self, turns):
        for path in (self.certificate, self.out):
            if os.path.exists(path):
                os.remove(path)
        words = [self.program, "repair", self.instance, self.plan, self.certificate, self.out, str(turns)]
        return run(words, self.seconds)

    def audited(self):
        """The status of `audit`, and what it says at least."""
        ran = run([self.program, "audit", self.instance, self.plan, self.certificate], self.seconds)
        return (None, None) if ran is None else (ran[0], ran[1].get("least", [None])[0])

    def fault(self, inst, status, said):
        """What is wrong with what was written and said, or nothing."""
        least = "none" if status == NONE else said["least"][0]
        if self.audited() != (0, least):
            return "audit"
        if os.path.exists(self.out) != (status == REPAIRED):
            return "out"
        if status != REPAIRED:
            return ""
        verdict = run([self.planner, "evaluate", self.instance, self.out], self.seconds)
        if verdict is None or verdict[0] != 0:
            return "evaluate"
        changed = changes(read_plan(inst, self.plan), read_plan(inst, self.out))
        return "" if changed == int(said["changed"][0]) else "changed"


# ---- drawn cases

def tighten(source, inst, starts, cells):
    """Lowers so many upper limits below the load of the plan."""
    plain = Plain(inst)
    loaded = [(c, t) for c in range(len(inst.upper)) for t in range(1, inst.periods + 1)
              if plain.plan_load(c, t, starts) > 0]
    for c, t in source.sample(loaded, min(cells, len(loaded))):
        inst.upper[c][t - 1] = decimal(plain.plan_load(c, t, starts) * 9 // 10)


def rows(bench, words, name, drawn_by):
    cases.draw(drawn_by, bench.instance)
    solved = run([bench.planner, "solve", bench.instance, bench.plan, bench.certificate, bench.trail, words.solved],
                 words.seconds)
    if solved is None or solved[0] != REPAIRED:
        yield [name, "", "", "", "", "", "", "", "no plan to repair"]
        return
    whole = read_instance(bench.instance)
    starts, limits = read_plan(whole, bench.plan), [list(row) for row in whole.upper]
    for cells in map(int, words.cells.split()):
        whole.upper = [list(row) for row in limits]
        tighten(random.Random(words.seed), whole, starts, cells)
        with open(bench.instance, "w", encoding="utf-8") as out:
            whole.write(out)
        for turns in words.turns.split():
            yield [name, str(cells), turns, *figures(bench, whole, turns)]


def figures(bench, inst, turns):
    ran = bench.repair(turns)
    if ran is None:
        return ["", "", "", f"above {bench.seconds:.0f}", "", ""]
    status, said, took, peak = ran
    if status not in (REPAIRED, NOTHING, NONE):
        return ["", "", "", f"{took:.2f}", f"{peak:.0f}", f"FAULT: status {status}"]
    changed = {REPAIRED: said.get("changed", [""])[0], NOTHING: "not found", NONE: "no plan"}[status]
    fault = bench.fault(inst, status, said)
    return [changed, said.get("least", ["none"])[0], said["splits"][0], f"{took:.2f}", f"{peak:.0f}",
            f"FAULT: {fault}" if fault else "ok"]


# ---- all plans of small instances

def small(source):
    """An instance, mostly one of which a plan keeps the rules, with limits round its loads."""
    inst = drawn.Instance(source, source.randint(1, 5), source.randint(3, 6), 2, 3, 0)
    hidden, plain = [source.choice(starts) for starts in inst.starts], Plain(inst)
    if source.random() < 0.8:
        inst.exclude(exclusion for exclusion in inst.exclusions if not inst.clashes(exclusion, hidden))
    room = source.choice([1, 1, 1, 1, -1]) * drawn.COUNTS
    for c in range(2):
        for t in range(1, inst.periods + 1):
            load = plain.plan_load(c, t, hidden)
            inst.upper[c][t - 1] = decimal(load + source.randint(0, 3) * room)
            inst.lower[c][t - 1] = decimal(load - source.randint(0, 3) * drawn.COUNTS)
    return inst


def old_plan(source, inst):
    """A start for most interventions, which needn't be allowed."""
    chosen = [source.choice([None, source.randint(0, inst.periods + 1), *2 * starts]) for starts in inst.starts]
    return {name: s for name, s in zip(inst.intervention_names, chosen) if s is not None}


def least_needed(inst, old):
    """The least number of changes of a feasible plan, or None; and the number of all plans."""
    plain, plans = Plain(inst), [*itertools.product(*inst.starts)]
    return min((changes(old, starts) for starts in plans if plain.violation(starts) == 0), default=None), len(plans)


def raised(bench, needed):
    """Whether `audit` refuses the certificate with its bound raised by one, where it was the number needed."""
    with open(bench.certificate, encoding="ascii") as file:
        lines = file.read().split("\n")
    if lines[1] != f"bound {needed * ONE}":
        return True
    lines[1] = f"bound {needed * ONE + 1}"
    with open(bench.certificate, "w", encoding="ascii") as file:
        file.write("\n".join(lines))
    return bench.audited()[0] == 5


def brute_fault(bench, inst, needed, turns, is_enough):
    status, said, *_ = bench.repair(turns)
    if status not in (REPAIRED, NOTHING, NONE):
        return f"status {status}"
    fault = bench.fault(inst, status, said)
    if fault:
        return fault
    if (status == NONE) != (needed is None) and (status == NONE or is_enough):
        return f"status {status}, and {needed} changes are needed"
    if needed is None or status == NONE:
        return ""
    least, changed = int(said["least"][0]), int(said["changed"][0]) if status == REPAIRED else None
    if least > needed or changed is not None and changed < needed:
        return f"changed {changed}, least {least}, and {needed} are needed"
    if is_enough and (changed, least) != (needed, needed):
        return f"changed {changed}, least {least} with turns for all plans, and {needed} are needed"
    return "" if raised(bench, needed) else "a bound that is too high was accepted"


def brute(words, bench):
    source, faults, found = random.Random(words.seed), 0, {}
    for number in range(words.brute):
        inst = small(source)
        with open(bench.instance, "w", encoding="utf-8") as out:
            inst.write(out)
        write_lines(bench.plan, (f"{name} {s}" for name, s in old_plan(source, inst).items()))
        needed, plans = least_needed(inst, read_plan(inst, bench.plan))
        found[needed] = found.get(needed, 0) + 1
        for turns in (0, 3, plans):
            fault = brute_fault(bench, inst, needed, turns, turns == plans)
            faults += bool(fault)
            if fault:
                print(f"instance {number}, {turns} turns: {fault}")
    counts = ", ".join(f"{found[it]} with {'no plan' if it is None else it}" for it in sorted(found, key=str))
    print(f"{words.brute} instances by the changes needed: {counts}; {faults} faults")
    return 1 if faults else 0


def main():
    parser = argparse.ArgumentParser(description=__doc__.split("\n")[0])
    parser.add_argument("--cmd", required=True)
    parser.add_argument("--repair", required=True)
    parser.add_argument("--cases", default="")
    parser.add_argument("--cells", default="1 3 10")
    parser.add_argument("--turns", default="100 1000 10000")
    parser.add_argument("--solved", default="1000")
    parser.add_argument("--seed", type=int, default=1)
    parser.add_argument("--seconds", type=float, default=600)
    parser.add_argument("--brute", type=int)
    words = parser.parse_args()
    with TemporaryDirectory() as folder:
        bench = Bench(words, folder)
        if words.brute:
            return brute(words, bench)
        print("| case | cells | turns | changed | least | splits | seconds | MB | checked |")
        print("|---|--:|--:|--:|--:|--:|--:|--:|---|")
        for name, drawn_by in cases.listed(words.cases.split()).items():
            for row in rows(bench, words, name, drawn_by):
                print(f"| {' | '.join(row)} |", flush=True)
    return 0


if __name__ == "__main__":
    sys.exit(main())
