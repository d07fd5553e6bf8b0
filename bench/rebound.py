#!/usr/bin/env -S python3 -E -s
"""Rebounds certificates of `solve` after limits were changed, beside solving anew.

    bench/rebound.py --cmd PROGRAM [--cases "10-a1 20-a1"] [--turns "100 1000"] [--percent 5] [--seed 1]
                     [--seconds 600]

The cases are those of bench/cases.txt, and PROGRAM is what `./planner --build` names. Each case is drawn and solved
with each number of turns. Then all its bands are changed, in turn in three ways: each one is widened by so many percent
of its limits at both ends, narrowed by as much, or moved by a drawn part of it, up or down. For what comes of that the
certificate is rebounded, and the instance is solved anew with as many turns.

A row has the bound of the certificate as it was, and whether it still holds; the bound, the kept and the changed leaves
that `rebound` says, and the bound of the new solving, as multiples of 10^18; processor seconds of both; and `ok` where
`check` accepts the rebounded certificate with the bound that was said, and that is no lower than the old one where this
still holds. Anything else in its place is a fault.
"""
import argparse
import os
import random
import sys
from tempfile import TemporaryDirectory

sys.dont_write_bytecode = True
import cases
import scratch
from drawn import plain
from solve import NONE, ONE, SCORED, UNPLANNED, run

WAYS = ("widened", "narrowed", "moved")


def changed(limits, way, percent, source):
    """The limits of all bands after a change: upper ones, and lower ones."""
    rows = []
    for upper, lower in zip(*limits):
        rows.append([])
        for high, low in zip(map(plain.counts, upper), map(plain.counts, lower)):
            above, below = (abs(limit) * percent // 100 for limit in (high, low))
            if way == "moved":
                above = below = source.randint(-above, above)
                below = -below
            elif way == "narrowed":
                above, below = -above, -below
            rows[-1].append((plain.decimal(high + above), plain.decimal(low - below)))
    return [[high for high, _ in row] for row in rows], [[low for _, low in row] for row in rows]


def bound_of(ran):
    """The bound that a run says, where none is above all numbers."""
    status, said = ran[:2]
    word = "none" if status == NONE else said["bound"][0]
    return float("inf") if word == "none" else int(word)


def shown(bound):
    return "none" if bound == float("inf") else f"{bound / ONE:.3f}"


class Bench:
    """The program, and the files of one case."""

    def __init__(self, words, folder):
        self.words = words
        self.instance, self.certificate, self.rebounded, self.plan, self.fresh, self.trail = (
            os.path.join(folder, name) for name in ("instance", "old", "new", "plan", "fresh", "trail"))

    def call(self, *words):
        return run([self.words.cmd, *words], self.words.seconds)

    def solve(self, certificate, turns):
        ran = self.call("solve", self.instance, self.plan, certificate, self.trail, turns)
        return ran if ran and ran[0] in (SCORED, UNPLANNED, NONE) else None

    def row(self, turns, old):
        """What comes of the certificate in the instance as it is now; the last word is the fault, or `ok`."""
        checked = self.call("check", self.instance, "-", self.certificate)
        ran = self.call("rebound", self.instance, self.certificate, self.rebounded)
        if checked is None or ran is None or ran[0] != 0:
            return [shown(old), "", "", "", "", "", "", "", "FAULT: rebound"]
        holds, bound = checked[0] == 0, bound_of(ran)
        fresh = self.solve(self.fresh, turns)
        again = self.call("check", self.instance, "-", self.rebounded)
        is_right = again is not None and again[0] == 0 and bound_of(again) == bound and (not holds or bound >= old)
        return [shown(old), "yes" if holds else "no", shown(bound), ran[1]["kept"][0], ran[1]["changed"][0],
                shown(bound_of(fresh)) if fresh else "", f"{ran[2]:.2f}", f"{fresh[2]:.2f}" if fresh else "",
                "ok" if is_right else "FAULT: check"]


def rows(bench, words, name, drawn):
    for turns in words.turns.split():
        cases.draw(drawn, bench.instance)
        solved = bench.solve(bench.certificate, turns)
        if solved is None:
            yield [name, turns, "", "", "", "", "", "", "", "", "", "FAULT: solve"]
            continue
        inst = plain.read_instance(bench.instance)
        limits = inst.upper, inst.lower
        for way in WAYS:
            inst.upper, inst.lower = changed(limits, way, words.percent, random.Random(words.seed))
            with open(bench.instance, "w", encoding="utf-8") as out:
                inst.write(out)
            yield [name, turns, way, *bench.row(turns, bound_of(solved))]


def main():
    parser = argparse.ArgumentParser(description=__doc__.split("\n")[0])
    parser.add_argument("--cmd", required=True)
    parser.add_argument("--cases", default="")
    parser.add_argument("--turns", default="100 1000")
    parser.add_argument("--percent", type=int, default=5)
    parser.add_argument("--seed", type=int, default=1)
    parser.add_argument("--seconds", type=float, default=600)
    words = parser.parse_args()
    faults = 0
    with TemporaryDirectory() as folder:
        print("| case | turns | bands | old | holds | rebounded | kept | changed | anew | seconds | s anew | checked |")
        print("|---|--:|---|--:|---|--:|--:|--:|--:|--:|--:|---|")
        for name, drawn in cases.listed(words.cases.split()).items():
            for row in rows(Bench(words, folder), words, name, drawn):
                faults += row[-1] != "ok"
                print(f"| {' | '.join(row)} |", flush=True)
    return 1 if faults else 0


if __name__ == "__main__":
    sys.exit(main())
