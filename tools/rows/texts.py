"""The instances, plans, certificates and reports of the rows, each once by its name."""
from __future__ import annotations

from .case import lines

# ---- instances: two interventions of one period each, which may start in either of two periods

LOAD = '{"c":{"1":{"1":6},"2":{"2":6}}}'
CREW = '{"c":{"max":[10,10],"min":[0,0]}}'


def two(resources: str = "{}", load: str = "{}", seasons: str = "{}", exclusions: str = "{}", delta: str = "[1,1]",
        quantile: str = "0.5") -> bytes:
    """Two scenarios a period, and an Alpha of 0.5."""
    return f"""{{"Resources":{resources},"Seasons":{seasons},
"Interventions":{{
"I1":{{"tmax":2,"Delta":{delta},
"workload":{load},
"risk":{{"1":{{"1":[1,3]}},"2":{{"2":[5,5]}}}}}},
"I2":{{"tmax":2,"Delta":[1,1],
"workload":{load},
"risk":{{"1":{{"1":[2,2]}},"2":{{"2":[4,0]}}}}}}}},
"Exclusions":{exclusions},"T":2,"Scenarios_number":[2,2],
"Quantile":{quantile},"Alpha":0.5}}""".encode()


def two_sure(resources: str = "{}", load: str = "{}", seasons: str = "{}", exclusions: str = "{}") -> bytes:
    """One scenario a period: the score is that of the mean alone."""
    return f"""{{"Resources":{resources},"Seasons":{seasons},
"Interventions":{{
"I1":{{"tmax":2,"Delta":[1,1],
"workload":{load},
"risk":{{"1":{{"1":[0]}},"2":{{"2":[4]}}}}}},
"I2":{{"tmax":2,"Delta":[1,1],
"workload":{load},
"risk":{{"1":{{"1":[0]}},"2":{{"2":[2]}}}}}}}},
"Exclusions":{exclusions},"T":2,"Scenarios_number":[1,1],
"Quantile":1,"Alpha":1}}""".encode()


PLAIN = two()
STEEP = two(quantile="0.95")
# The second start of I1 runs past the horizon.
LATE = two(delta="[1,2]")
# Both at once are too much.
BANDED = two(CREW, LOAD)
# Both at once are just too much in the first period.
TIGHT = two('{"c":{"max":[11.9995,10],"min":[0,0]}}', LOAD)
# They exclude each other in the first period.
EXCLUDED = two(seasons='{"s":["1"]}', exclusions='{"e":["I1","I2","s"]}')
# Both fit together, but exclude each other in period 2.
WINTER = two('{"c":{"max":[12,12],"min":[0,0]}}', LOAD, '{"w":["2"]}', '{"E":["I1","I2","w"]}')
SURE = two_sure()
SURE_BANDED = two_sure(CREW, LOAD)
# They exclude each other in either period.
SURE_EXCLUDED = two_sure(seasons='{"w":[1,2]}', exclusions='{"E":["I1","I2","w"]}')
# Each is too much for its period.
NARROW = two_sure('{"c":{"max":[5,5],"min":[0,0]}}', LOAD)


def one(quantile: str) -> bytes:
    """One intervention, with two scenarios."""
    return f"""{{"Resources":{{}},"Seasons":{{}},
"Interventions":{{"I1":{{"tmax":1,"Delta":[1],"workload":{{}},
"risk":{{"1":{{"1":[1,3]}}}}}}}},
"Exclusions":{{}},"T":1,"Scenarios_number":[2],
"Quantile":{quantile},"Alpha":0.5}}""".encode()


ONE, ONE_MIDDLE = one("0.95"), one("0.5")
# Risks below 0.
NEGATIVE = b"""{"Resources":{},"Seasons":{},
"Interventions":{"I1":{"tmax":1,"Delta":[1],"workload":{},
"risk":{"1":{"1":[-1,-2,-2]}}}},
"Exclusions":{},"T":1,"Scenarios_number":[3],
"Quantile":1,"Alpha":1}"""
# A risk of 13 decimals.
ROUNDED = b"""{"Resources":{},"Seasons":{},"Interventions":{"I1":{"tmax":1,"Delta":[1],"workload":{},
"risk":{"1":{"1":[1,3.0000000000005]}}}},
"Exclusions":{},"T":1,"Scenarios_number":[2],"Quantile":0.95,"Alpha":0.5}"""
# No intervention at all.
EMPTY = b"""{"Resources":{},"Seasons":{},"Interventions":{},"Exclusions":{},
"T":1,"Scenarios_number":[1],"Quantile":1,"Alpha":1}"""
# No allowed start.
STARTLESS = b"""{"Resources":{},"Seasons":{},
"Interventions":{"I1":{"tmax":1,"Delta":[3],"workload":{},"risk":{}}},
"Exclusions":{},"T":2,"Scenarios_number":[1,1],
"Quantile":1,"Alpha":1}"""
# Numbers as texts and with a point, a Delta that goes on past tmax, a season of all periods, and a key of no meaning.
LOOSE = b"""{"Resources":{"c1":{"max":[20.0,20.0,20.0],"min":[0.0,0.0,0.0]}},
"Seasons":{"winter":["1","3"],"full":["1","2","3"]},
"Interventions":{
"I1":{"tmax":"2","Delta":[2.0,2.0,1.0],
"workload":{"c1":{"1":{"1":14.0},"2":{"1":14.0,"2":8.0},"3":{"2":8.0}}},
"risk":{"1":{"1":[4.0,8.0]},
"2":{"1":[5.0,7.0,9.0],"2":[1.0,2.0,3.0]},"3":{"2":[2.0,6.0]}}},
"I2":{"tmax":"3","Delta":[1,1,1],
"workload":{"c1":{"3":{"3":5.5}}},
"risk":{"1":{"1":[1,1]},"2":{"2":[3,3,3]},"3":{"3":[0.5,1.5]}}}},
"Exclusions":{"E1":["I1","I2","winter"]},
"T":3,"Scenarios_number":[2,3,2],
"Quantile":0.95,"Alpha":0.5,"ComputationTime":15}"""

# ---- plans

# One after the other, and the same where that is dearer.
APART, TURNED = b"I1 1\nI2 2\n", b"I1 2\nI2 1\n"
# Both in the first period, and both in the second one.
TOGETHER, LATER = b"I1 1\nI2 1\n", b"I1 2\nI2 2\n"

# ---- certificates

# One leaf, without a list.
ROOT = lines("mpcert 1", "bound 2000000000000000000", "lists 0", "tree", "cost 0")
ROOT_MORE = lines("mpcert 1", "bound 2000000000000000001", "lists 0", "tree", "cost 0")
TREE = ("lists 0", "tree", "split 1 1", "split 2 1", "band 1 1 over", "cost 0", "cost 0")
POINT = ("lists 0", "tree", "split 1 1", "split 2 1", "band 1 1 over", "point", "cost 0")
# Two splits and three leaves, with the least score of SURE_BANDED as the bound.
OLD = lines("mpcert 1", "bound 2000000000000000000", *TREE)
# What it becomes on SURE_BANDED: the second leaf is a single plan.
NEW = lines("mpcert 1", "bound 2000000000000000000", *POINT)
NEW_3 = lines("mpcert 3", "bound 2000000000000000000", *POINT)
# The same as OLD, with the claim that there is no plan.
UNBOUNDED = lines("mpcert 1", "bound none", *TREE)
# Two leaves of two plans each.
HALVES = lines("mpcert 3", "bound 0", "lists 0", "tree", "split 1 1", "cost 0", "cost 0")
NO_START = lines("mpcert 2", "bound none", "lists 0", "tree", "empty 1")

# ---- reports


def feasible(score: str, cost: str, mean: str, excess: str, rounded: int = 0) -> bytes:
    """The report on a plan that keeps every rule."""
    return lines("feasible", f"score {score}", f"cost {cost}", f"mean {mean}", f"excess {excess}", f"rounded {rounded}")


def infeasible(rule: str) -> bytes:
    """The report on a plan that breaks this rule first."""
    return lines("infeasible", rule, "rounded 0")


def accepted(bound: str, cost: str, *more: str) -> bytes:
    """The report on a certificate, with lines on a plan, if there is one."""
    return lines("accepted", f"bound {bound}", f"bound-cost {cost}", *more, "rounded 0")


NOTHING = "0.000000000000 0.000000000000"
# The periods have the means 2 and 2 and the excess 0.
PLAIN_REPORT = feasible("2000000000000000000", "1.000000000000 1.000000000000", "2.000000000000 2.000000000000",
                        NOTHING)
OVER = infeasible("B1 c 1 12.000000000000 10.000000000000")
ACCEPTED = accepted("2000000000000000000", "1.000000000000")
ACCEPTED_PLAN = accepted("2000000000000000000", "1.000000000000", "score 2000000000000000000", "gap 0")
ACCEPTED_NONE = lines("accepted", "bound none", "rounded 0")
LEAF_1 = lines("refused certificate leaf 1")
