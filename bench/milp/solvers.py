"""Runs cbc, glpsol or HiGHS on a model, and reads what they say of the least value, and the plan."""
import json
import os
import re
import shutil
import subprocess
import sys
from dataclasses import dataclass

sys.path.insert(0, os.path.join(os.path.dirname(os.path.abspath(__file__)), "..", "..", "tools"))
import package_path  # noqa: F401
from gadvresa.milp import write_lp

SOLVERS = ("cbc", "glpk", "highs")
# The seconds behind its limit after which a solver is killed, and the status that it then ends with.
GRACE, KILLED = 15, 137
HERE = os.path.dirname(os.path.abspath(__file__))
NUMBER = r"([-+]?\d+\.?\d*(?:[eE][-+]?\d+)?)"


class Absent(Exception):
    """A program isn't there."""


@dataclass
class Ran:
    """A run: its status, seconds of the clock and of a processor, peak memory in MB, and all that it printed."""

    status: int
    seconds: float
    processor: float
    peak: float
    said: str


@dataclass
class Answer:
    """What a solver says: optimal, infeasible, limit or failed; a number below the model's least value; and the values
    of the columns that aren't 0, by number.
    """

    status: str
    bound: float = None
    columns: dict = None
    ran: Ran = None


def run(words, limit, said_path):
    """Runs the words, at a lower priority, and kills them behind so many seconds.

    GNU time starts the program, from a process so small that the peak isn't that of this Python.
    """
    note = said_path + ".time"
    timed = ["nice", "-n", "5", program("time", "time"), "--quiet", "-f", "%e %U %S %M", "-o", note]
    ended = ["timeout", "--foreground", "-s", "KILL", str(limit)]
    with open(said_path, "wb") as out:
        status = subprocess.run([*timed, *ended, *words], stdin=subprocess.DEVNULL, stdout=out,
                                stderr=subprocess.STDOUT, check=False).returncode
    with open(note, encoding="ascii") as file:
        wall, user, system, kilobytes = map(float, file.read().split("\n")[-2].split())
    with open(said_path, encoding="utf-8", errors="replace") as said:
        return Ran(status, wall, user + system, kilobytes * 1024 / 1e6, said.read())


def solve(name, model, seconds, folder, linear=False, threads=1):
    """The answer of the solver of this name; of the linear relaxation without a plan. Of the three cbc takes threads."""
    path, said = os.path.join(folder, "model"), os.path.join(folder, "said")
    more = {"threads": threads} if name == "cbc" else {}
    answer = {"cbc": cbc, "glpk": glpk, "highs": highs}[name](model, seconds, path, said, linear, **more)
    if linear:
        answer.columns = None
    return answer


def program(name, package):
    path = shutil.which(name)
    if not path:
        raise Absent(f"{name} isn't installed: Debian's package {package}")
    return path


def last(pattern, text):
    found = re.findall(pattern, text)
    return float(found[-1]) if found else None


def fresh(path):
    if os.path.exists(path):
        os.remove(path)
    return path


def lines_of(path):
    if not os.path.exists(path):
        return []
    with open(path, encoding="utf-8") as file:
        return file.read().split("\n")


# ---- cbc

def cbc(model, seconds, path, said, linear, threads=1):
    lp, solution = fresh(path + ".lp"), fresh(path + ".sol")
    write_lp(model, lp, linear=linear)
    words = [program("cbc", "coinor-cbc"), lp, "-timeMode", "elapsed", "-sec", str(seconds), "-ratio", "0",
             *(["-threads", str(threads)] if threads > 1 else []), "-solve", "-solution", solution]
    ran = run(words, seconds + GRACE, said)
    lines = lines_of(solution)
    head = lines[0] if lines else ""
    if re.search("[Ii]nfeasible", head):
        return Answer("infeasible", ran=ran)
    columns = cbc_columns(model, head, lines)
    if head.startswith("Optimal"):
        # (it is printed with eight decimals)
        return Answer("optimal", last("objective value " + NUMBER, head) - 5e-9, columns, ran)
    stopped = head or ran.status == KILLED
    return Answer("limit" if stopped else "failed", cbc_bound(ran.said), columns, ran)


def cbc_columns(model, head, lines):
    if " - objective value" not in head:
        return None
    number = {name: v for v, name in enumerate(model.columns)}
    split = (line.removeprefix("**").split() for line in lines[1:])
    return {number[words[1]]: float(words[2]) for words in split if len(words) == 4}


def cbc_bound(said):
    """A number below the bound that was printed: with three decimals; where it was killed, with six digits."""
    bound = last(r"Lower bound:\s+" + NUMBER, said)
    if bound is not None:
        return bound - 0.0005
    for pattern in ("best possible ", "Continuous objective value is "):
        bound = last(pattern + NUMBER, said)
        if bound is not None:
            return bound - abs(bound) * 1e-5
    return None


# ---- glpsol

def glpk(model, seconds, path, said, linear):
    lp, solution = fresh(path + ".lp"), fresh(path + ".sol")
    write_lp(model, lp, linear=linear)
    words = [program("glpsol", "glpk-utils"), "--lp", lp, "--tmlim", str(int(seconds)), "-w", solution]
    ran = run([*words, "--nomip" if linear else "--cuts"], seconds + GRACE, said)
    if "invalid number of columns" in ran.said:  # (its cuts fail where presolving has solved all)
        ran = run(words, seconds + GRACE, said)
    head, columns = None, {}
    for line in map(str.split, lines_of(solution)):
        if line[:1] == ["s"]:
            head = line
        elif line[:1] == ["j"] and not linear and float(line[2]):
            columns[int(line[1]) - 1] = float(line[2])
    if head is None:
        return Answer("limit" if ran.status == KILLED else "failed", ran=ran)
    if re.search("HAS NO (INTEGER |PRIMAL )?FEASIBLE SOLUTION", ran.said):
        return Answer("infeasible", ran=ran)
    state = head[4]
    if linear:
        done = state == "f" and head[5] == "f"
        return Answer("optimal" if done else "limit", float(head[6]) if done else None, None, ran)
    if state == "o":
        return Answer("optimal", float(head[5]), columns, ran)
    bound = last(r"(?:mip|>>>>>).*>=\s+" + NUMBER, ran.said)
    if bound is None and "OPTIMAL LP SOLUTION FOUND" in ran.said:
        bound = last(r"\*\s*\d+: obj =\s+" + NUMBER, ran.said)
    return Answer("limit", bound, columns if state == "f" else None, ran)


# ---- HiGHS

def python_with_scipy():
    for folder in os.get_exec_path():
        python = os.path.join(folder, "python3")
        if os.access(python, os.X_OK) and subprocess.run(
                [python, "-c", "from scipy.optimize import milp"], check=False,
                stdin=subprocess.DEVNULL, stderr=subprocess.DEVNULL).returncode == 0:
            return python
    raise Absent("no python3 with scipy's HiGHS: Debian's package python3-scipy")


def highs(model, seconds, path, said, linear):
    task, result = path + ".json", path + ".result"
    sense = {"=": (1, 1), "<=": (0, 1), ">=": (1, 0)}
    with open(task, "w", encoding="ascii") as out:
        json.dump({"costs": model.costs,
                   "binary": [int(b) for b in model.binary],
                   "free": [int(f) for f in model.free],
                   "linear": linear,
                   "seconds": seconds,
                   "sizes": [len(terms) for _, terms, _, _ in model.rows],
                   "columns": [v for _, terms, _, _ in model.rows for v, _ in terms],
                   "values": [a for _, terms, _, _ in model.rows for _, a in terms],
                   "low": [right if sense[s][0] else None for _, _, s, right in model.rows],
                   "high": [right if sense[s][1] else None for _, _, s, right in model.rows]}, out)
    ran = run([python_with_scipy(), os.path.join(HERE, "highs.py"), task, result], seconds + GRACE, said)
    if ran.status != 0:
        return Answer("limit" if ran.status == KILLED else "failed", ran=ran)
    with open(result, encoding="ascii") as file:
        answer = json.load(file)
    columns, bound = answer["columns"], answer["bound"]
    if bound is None and not linear:  # (scipy leaves it out where there is no plan)
        bound = last(r"Dual bound\s+" + NUMBER, ran.said)
        if bound is not None:
            bound -= abs(bound) * 1e-9
    by_number = None if columns is None else {int(v): x for v, x in columns.items()}
    return Answer(answer["status"], bound, by_number, ran)
