"""Solves a task of solvers.py by the HiGHS in scipy: highs.py TASK RESULT."""
import json
import sys

import numpy
from scipy.optimize import Bounds, LinearConstraint, milp
from scipy.sparse import csr_matrix

STATUS = {0: "optimal", 1: "limit", 2: "infeasible"}


def ends(values, absent):
    return numpy.array([absent if v is None else v for v in values], dtype=float)


def main():
    with open(sys.argv[1], encoding="ascii") as file:
        task = json.load(file)
    binary, free = numpy.array(task["binary"]), numpy.array(task["free"])
    places = (task["values"], task["columns"], numpy.concatenate([[0], numpy.cumsum(task["sizes"])]))
    rows = csr_matrix(places, shape=(len(task["sizes"]), len(task["costs"])))
    bounds = Bounds(numpy.where(free, -numpy.inf, 0), numpy.where(binary, 1, numpy.inf))
    limits = LinearConstraint(rows, ends(task["low"], -numpy.inf), ends(task["high"], numpy.inf))
    result = milp(task["costs"], integrality=None if task["linear"] else binary, bounds=bounds, constraints=limits,
                  options={"time_limit": task["seconds"], "mip_rel_gap": 0, "disp": True})
    status = STATUS.get(result.status, "failed")
    bound = result.fun if task["linear"] else result.mip_dual_bound
    if bound is not None and (not numpy.isfinite(bound) or task["linear"] and status != "optimal"):
        bound = None
    columns = None
    if result.x is not None:
        columns = {int(v): float(result.x[v]) for v in numpy.flatnonzero(result.x)}
    with open(sys.argv[2], "w", encoding="ascii") as out:
        json.dump({"status": status, "bound": bound, "columns": columns}, out)


if __name__ == "__main__":
    main()
