#!/usr/bin/env -S python3 -E -s
"""Writes the mixed-integer program of an instance, or has a solver solve it.

    bench/mip.py INSTANCE --write MODEL.lp [--variant exact|mean|cvar] [--linear]
    bench/mip.py INSTANCE --solve SECONDS [--solver cbc|glpk|highs] [--plan PLAN] [--threads N] [the same options]

The solvers are Debian's: `coinor-cbc`, `glpk-utils`, and `python3-scipy` for its HiGHS. It prints a line for each
figure: how large the model is; the solver's status, seconds of the clock and of a processor, and peak memory; `bound`
and `score`, in units of the score, that is periods * cost * 10^18; and the gap. The score is exact, that of a plan that
is judged from scratch; the bound is the solver's word in floating point, less what its printing may have rounded away
and less a unit for each period. It isn't proved, as a certificate is. `--plan` writes the plan. A solver's tolerance
may leave a plan that breaks a rule by a millionth or so: then the line `infeasible` has the rule.
"""
import argparse
import math
import os
import sys
import tempfile
from fractions import Fraction

sys.dont_write_bytecode = True
from milp import solvers
from gadvresa import Instance
from gadvresa.milp import VARIANTS, TooLarge, build, write_lp
from plain import MILLION, Plain, read_instance

SCORE = 10 ** 18


def read_words():
    parser = argparse.ArgumentParser(description=__doc__.split("\n")[0])
    parser.add_argument("instance")
    parser.add_argument("--write", metavar="LP")
    parser.add_argument("--solve", type=float, metavar="SECONDS")
    parser.add_argument("--solver", choices=solvers.SOLVERS, default="cbc")
    parser.add_argument("--variant", choices=VARIANTS, default="exact")
    parser.add_argument("--linear", action="store_true", help="binaries from 0 to 1")
    parser.add_argument("--plan", default=os.devnull, help="where to write the plan")
    parser.add_argument("--largest", type=int, default=8_000_000, help="terms of the model")
    parser.add_argument("--threads", type=int, default=1, help="of cbc")
    words = parser.parse_args()
    if not words.write and words.solve is None:
        parser.error("--write or --solve")
    return words


def plan_of(inst, built, columns):
    """The plan of the columns near 1, or none."""
    plan = [None] * inst.interventions
    for (i, s), v in built.starts.items():
        if columns.get(v, 0) > 0.5:
            if plan[i] is not None:
                return None
            plan[i] = s
    return None if None in plan else plan


def say_answer(words, plain, built, answer):
    print(f"status {answer.status}\nseconds {answer.ran.seconds:.2f}\nprocessor {answer.ran.processor:.2f}\n"
          f"peak-mb {answer.ran.peak:.1f}")
    if answer.status == "failed":
        print(answer.ran.said[-2000:], file=sys.stderr)
    plan = plan_of(plain.inst, built, answer.columns) if answer.columns else None
    broken, score = plain.broken_rules(plan) if plan else None, None
    if plan:
        with open(words.plan, "w", encoding="utf-8") as out:
            out.writelines(f"{name} {s}\n" for name, s in zip(plain.inst.intervention_names, plan))
        score = None if broken else plain.score(plan)
        print(f"infeasible {broken[0]}" if broken else f"score {score}")
    is_bound = words.variant != "cvar" or plain.inst.alpha == MILLION
    if answer.bound is not None and is_bound:
        bound = math.floor(Fraction(answer.bound) * SCORE) - plain.inst.periods
        if score is not None:  # (it is above that by rounding alone)
            bound = min(bound, score)
        print(f"bound {bound}")
        if score:
            print(f"gap-percent {100 * (score - bound) / score:.4f}")


def main():
    words = read_words()
    plain = Plain(read_instance(words.instance))
    try:
        built = build(Instance.read(words.instance), words.variant, words.largest)
    except TooLarge as fault:
        sys.exit(f"model {fault}")
    print(f"model columns {len(built.columns)} rows {len(built.rows)} terms {built.terms}")
    if built.hopeless:
        print(f"status infeasible: {built.hopeless}")
        return
    if words.write:
        write_lp(built, words.write, linear=words.linear)
    if words.solve is None:
        return
    with tempfile.TemporaryDirectory() as folder:
        try:
            answer = solvers.solve(words.solver, built, words.solve, folder, words.linear, words.threads)
        except solvers.Absent as fault:
            sys.exit(str(fault))
    say_answer(words, plain, built, answer)


if __name__ == "__main__":
    main()
