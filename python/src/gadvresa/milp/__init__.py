"""Instances as mixed-integer programs for other solvers, and the plans in what those solvers write.

`program` builds a model, `writing` writes it in a format of solvers, `solutions` reads a plan back, and `script` is
what tools/model runs. A solver's answers prove nothing: the programs judge the plans that come of them.
"""
from .program import VARIANTS, Model, TooLarge, build
from .solutions import NoPlan, plan_of
from .writing import write_lp, write_mps

__all__ = ["Model", "NoPlan", "TooLarge", "VARIANTS", "build", "plan_of", "write_lp", "write_mps"]
