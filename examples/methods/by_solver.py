"""Has cbc, glpsol or HiGHS make a plan, by the model of tools/model, within its time.

    python3 by_solver.py cbc|glpsol|highs INSTANCE PLAN SECONDS [--variant exact|mean|cvar]

The solver gets what of SECONDS is left once its model stands, less what it takes to write the plan. HiGHS is the
program `highs` where that is there, and else that of scipy, for which this has to be run by a Python that has it.
"""
import argparse
import os
import shutil
import subprocess
import sys
import tempfile
import time

BEGAN = time.monotonic()
TOOLS = os.path.join(os.path.dirname(os.path.abspath(__file__)), "..", "..", "tools")
sys.dont_write_bytecode = True
sys.path.insert(0, TOOLS)
import package_path  # noqa: F401
from gadvresa import Instance
from gadvresa.milp import VARIANTS, NoPlan, build, plan_of, write_lp, write_mps


def cbc(model, left, folder):
    write_lp(model, f"{folder}/model.lp")
    run("cbc", f"{folder}/model.lp", "-timeMode", "elapsed", "-sec", left(), "-ratio", "0", "-solve", "-solution",
        f"{folder}/solution")


def glpsol(model, left, folder):
    write_lp(model, f"{folder}/model.lp")
    run("glpsol", "--lp", f"{folder}/model.lp", "--tmlim", int(left()), "-o", f"{folder}/solution")


def highs(model, left, folder):
    if shutil.which("highs"):
        write_mps(model, f"{folder}/model.mps")
        run("highs", f"{folder}/model.mps", "--time_limit", left(), "--solution_file", f"{folder}/solution")
    else:
        by_scipy(model, left, f"{folder}/solution")


def by_scipy(model, left, path):
    """Solves it in this process, and writes the columns that aren't 0 as HiGHS does."""
    import numpy
    from scipy.optimize import Bounds, LinearConstraint, milp
    from scipy.sparse import csr_matrix

    places = [(a, n, v) for n, (_, terms, _, _) in enumerate(model.rows) for v, a in terms]
    values, rows, columns = map(list, zip(*places))
    matrix = csr_matrix((values, (rows, columns)), shape=(len(model.rows), len(model.columns)))
    low = [-numpy.inf if sense == "<=" else right for _, _, sense, right in model.rows]
    high = [numpy.inf if sense == ">=" else right for _, _, sense, right in model.rows]
    binary, free = numpy.array(model.binary), numpy.array(model.free)
    bounds = Bounds(numpy.where(free, -numpy.inf, 0), numpy.where(binary, 1, numpy.inf))
    found = milp(model.costs, integrality=binary.astype(int), bounds=bounds,
                 constraints=LinearConstraint(matrix, low, high), options={"time_limit": left()})
    with open(path, "w", encoding="ascii") as out:
        if found.x is not None:
            out.writelines(f"{model.columns[v]} {found.x[v]}\n" for v in numpy.flatnonzero(found.x))


def run(*words):
    subprocess.run(list(map(str, words)), stdin=subprocess.DEVNULL, check=True)


def main():
    parser = argparse.ArgumentParser(description=__doc__.split("\n")[0])
    parser.add_argument("solver", choices=["cbc", "glpsol", "highs"])
    parser.add_argument("instance")
    parser.add_argument("plan")
    parser.add_argument("seconds", type=float)
    parser.add_argument("--variant", choices=VARIANTS, default="exact")
    words = parser.parse_args()
    end = BEGAN + words.seconds * 0.95 - 0.5
    instance = Instance.read(words.instance)
    model = build(instance, words.variant)
    if model.hopeless:
        sys.exit(f"no plan keeps every rule: {model.hopeless}")
    with tempfile.TemporaryDirectory() as folder:
        {"cbc": cbc, "glpsol": glpsol, "highs": highs}[words.solver](
            model, lambda: max(0.1, round(end - time.monotonic(), 1)), folder)
        with open(f"{folder}/solution", encoding="utf-8", errors="replace") as file:
            plan = plan_of(instance, file.read())
    plan.write(words.plan)


if __name__ == "__main__":
    try:
        main()
    except NoPlan as fault:
        sys.exit(str(fault))
