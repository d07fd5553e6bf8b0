"""Plans a year of maintenance on a transmission grid, by the proved programs of Gadvresa.

>>> import gadvresa
>>> instance = gadvresa.Instance.read("examples/summer/instance.json")
>>> plan = gadvresa.Plan.read("examples/summer/plan.txt")
>>> judged = gadvresa.evaluate(instance, plan)
>>> judged.feasible, float(judged.cost)
(True, 1.0)
>>> solved = gadvresa.solve(instance, turns=100)
>>> gadvresa.check(instance, solved.certificate, solved.plan).gap
0

Calls run the proved programs, which `gadvresa.programs()` finds and `gadvresa.use` chooses, and trust nothing else.
What they say is read exactly: a score is a whole number, and all else a `Fraction`, with floats beside them. `commands`
says what all calls take, `answers` what they answer, and `errors` how they fail.
"""
from .answers import (Audited, Bounded, Checked, Improved, Judged, Key, Load, Outcome, Period, Rebound, Repaired,
                      Replayed, Rolled, Rule, Run, Solved, Table, cost_of)
from .commands import (audit, bound, check, evaluate, improve, rebound, repair, replay, roll, solve, table)
from .errors import (BrokenRule, Cancelled, CertificateRefused, GadvresaError, InstanceRefused, OutOfMemory, Place,
                     PlanRefused, ProgramFailed, ProgramMissing, Refused, ScriptRefused, TimedOut, TooLong, Unread,
                     Unwritten, WordsRefused)
from .files import UNDO, Certificate, Plan, move, swap
from .model.exact import Range
from .model.instance import Band, Exclusion, Instance, Intervention, Unreadable
from .running import Called, Program, programs, use

__version__ = "0.1.0"
__all__ = [
    "Audited", "Band", "Bounded", "BrokenRule", "Called", "Cancelled", "Certificate", "CertificateRefused", "Checked",
    "Exclusion", "GadvresaError", "Improved", "Instance", "InstanceRefused", "Intervention", "Judged", "Key", "Load",
    "OutOfMemory", "Outcome", "Period", "Place", "Plan", "PlanRefused", "Program", "ProgramFailed", "ProgramMissing",
    "Range", "Rebound", "Refused", "Repaired", "Replayed", "Rolled", "Rule", "Run", "ScriptRefused", "Solved", "Table",
    "TimedOut", "TooLong", "UNDO", "Unread", "Unreadable", "Unwritten", "WordsRefused", "audit", "bound", "check",
    "cost_of", "evaluate", "improve", "move", "programs", "rebound", "repair", "replay", "roll", "solve", "swap",
    "table", "use",
]
