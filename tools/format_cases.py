"""What docs/FORMATS.md says of the borders of its texts: small instances, plans and certificates, and what is said.

Each answer is worked out by hand from the page and docs/DEFINITIONS.md. `tools/verdicts_test` compares the programs and
the plain computation with it. This file is independent on purpose: it imports nothing of the package `gadvresa`.
"""
import json
from dataclasses import dataclass
from itertools import combinations, islice

COUNTS = 10 ** 12
# A cost of 1 in one period, as a score, and the price that adds so much for one intervention or one unit of load.
ONE, PRICE = 10 ** 18, 10 ** 6
PLANNER, REFINE = "planner_cli", "plan_refine"
ALL, NEWEST = (PLANNER, REFINE), (REFINE,)


@dataclass
class Case:
    """A call of `evaluate`, or of `check` where there is a certificate, with the programs that answer so."""

    what: str
    programs: tuple
    instance: bytes
    plan: bytes
    certificate: bytes
    slack: int
    status: int
    said: bytes


def said(*lines):
    return "".join(f"{line}\n" for line in lines).encode()


# ---- instances, of one scenario a period where nothing else is said, and with an `Alpha` of 1

def instance(interventions, periods=1, **keys):
    """Interventions by their names, as `work` gives them."""
    known = {"Resources": {}, "Seasons": {}, "Interventions": interventions, "Exclusions": {}, "T": periods,
             "Scenarios_number": [1] * periods, "Quantile": 1, "Alpha": 1}
    return json.dumps({**known, **keys}).encode()


def work(*risks, durations=None, load=None):
    """An intervention that may start in as many periods as there are risks, and has each of them in its first period;
    a load, if it has one, is on `crew` in period 1.
    """
    runs = durations or [1] * len(risks)
    risk = {str(start + day): {} for start, run in enumerate(runs, 1) for day in range(run)}
    for start, (numbers, run) in enumerate(zip(risks, runs), 1):
        for day in range(run):
            risk[str(start + day)][str(start)] = numbers if day == 0 else [0] * len(numbers)
    return {"tmax": len(risks), "Delta": runs, "risk": risk,
            "workload": {} if load is None else {"crew": {"1": {"1": load}}}}


LINE = instance({"line": work([1])})
# Its risk is 1 in period 1 and 3 in period 2, and it excludes itself in period 1.
OWN = instance({"line": work([1], [3])}, periods=2, Seasons={"first": [1]},
               Exclusions={"own": ["line", "line", "first"]})
# Start 2 of `line` goes past period 2, so the right part of `split 1 1` has no allowed start.
LATE = instance({"line": work([1], [1], durations=[1, 2]), "bay": work([0], [0])}, periods=2, Seasons={"first": [1]},
                Exclusions={"both": ["line", "bay", "first"]})


def crew(lower):
    """A risk and a load of 4 in the one period, where the load has this lower limit."""
    return instance({"line": work([4], load=4)}, Resources={"crew": {"max": [9], "min": [lower]}})


# The sums of period 1 are -1, 0 and 0.
BELOW = instance({"line": work([-1, 0, 0])}, periods=3, Scenarios_number=[3, 1, 1])
# Of 4 scenarios the third one is the quantile, so a tail has 2 groups or places at least.
FOUR = instance({"line": work([1, 1, 1, 1])}, Scenarios_number=[4], Quantile=0.75)
# 13 interventions of which any two exclude each other: 8178 cliques.
NAMES = [f"w{number}" for number in range(1, 14)]
MANY = instance({name: work([0]) for name in NAMES}, Seasons={"all": [1]},
                Exclusions={f"{one}-{two}": [one, two, "all"] for one, two in combinations(NAMES, 2)})


def cliques():
    """The lines of all cliques in their order."""
    some = sorted(list(it) for size in range(2, 14) for it in combinations(range(1, 14), size))
    return [f"clq 1 1 {' '.join(map(str, one))}" for one in some]


# ---- certificates

def certificate(version, bound, entries, *nodes):
    """One of one list with these entries, or with no list where they are None."""
    lists = ["lists 0"] if entries is None else ["lists 1", "prices", *entries]
    return said(f"mpcert {version}", f"bound {bound}", *lists, "tree", *nodes)


def begun(version, *entries):
    """A text that ends behind entries, of which the first one is line 5."""
    return said(f"mpcert {version}", "bound 0", "lists 1", "prices", *entries)


# ---- the cases

def judged(what, plan, status, *lines, of=LINE):
    return Case(what, (PLANNER,), of, plan, None, 0, status, said(*lines))


def checked(what, programs, of, text, status, *lines, plan=None, slack=0):
    return Case(what, programs, of, plan, text, slack, status, said(*lines))


def accepted(what, programs, of, text, bound, cost, slack=0):
    return checked(what, programs, of, text, 0, "accepted", f"bound {bound}", f"bound-cost {cost}", "rounded 0",
                   slack=slack)


def refused(what, programs, of, text, refusal, slack=0):
    return checked(what, programs, of, text, 5, f"refused certificate {refusal}", slack=slack)


def greatest(what, programs, of, bound, cost, text_of, slack=0):
    """The greatest bound that is accepted: a bound above it has a leaf that doesn't hold."""
    return [accepted(what, programs, of, text_of(bound), bound, cost, slack=slack),
            refused(f"{what}, and 1 more", programs, of, text_of(bound + 1), "leaf 1", slack=slack)]


def plan_cases():
    yield judged("a name is all up to the blank", b"line 1\n", 0, "feasible", f"score {ONE}",
                 "cost 1.000000000000 1.000000000000", "mean 1.000000000000 1.000000000000",
                 "excess 0.000000000000 0.000000000000", "rounded 0")
    for what, name in (("a tab", b"line\t"), ("a NUL", b"line\0"), ("a carriage return", b"li\rne"),
                       ("129 bytes", 129 * b"n"), ("no UTF-8", b"\xff")):
        yield judged(f"a name with {what}", name + b" 1\n", 4, "refused plan unknown name 1")
    yield judged("a tab in the place of the blank", b"line\t1\n", 4, "refused plan bad line 1")
    yield judged("a tab behind the start", b"line 1\t\n", 4, "refused plan bad line 1")


def number_cases():
    """LOW is rounded down and HIGH up, so away from each other on both sides of 0."""
    score = -(ONE // 3 + 1)
    yield judged("numbers below 0", b"line 1\n", 0, "feasible", f"score {score}",
                 "cost -0.111111111112 -0.111111111111", "mean -0.111111111112 -0.111111111111",
                 "excess 0.111111111111 0.111111111112", "rounded 0", of=BELOW)
    yield from greatest("a bound below 0", ALL, BELOW, score, "-0.111111111112",
                        lambda bound: certificate(1, bound, None, "cost 0"))
    yield accepted("a bound of -1", ALL, BELOW, certificate(1, 1 - ONE, None, "cost 0"), 1 - ONE, "-0.333333333334")
    third = instance({"line": work([-1])}, periods=3)
    yield judged("a mean of -1/3", b"line 1\n", 0, "feasible", f"score {-ONE}", "cost -0.333333333334 -0.333333333333",
                 "mean -0.333333333334 -0.333333333333", "excess 0.000000000000 0.000000000000", "rounded 0", of=third)
    yield refused("a minus before 0", ALL, BELOW, certificate(1, "-0", None, "cost 0"), "bad line 2")
    yield judged("a load below 0", b"line 1\n", 1, "infeasible", "B2 crew 1 -4.000000000000 -1.500000000000",
                 "rounded 0", of=instance({"line": work([4], load=-4)},
                                          Resources={"crew": {"max": [9], "min": [-1.5]}}))


def price_cases():
    # Start 1 pays 1 and twice 1, start 2 pays 3, and the price is taken off once.
    for version, programs in ((2, ALL), (3, NEWEST)):
        yield from greatest(f"an intervention that is named twice, version {version}", programs, OWN, 2 * ONE,
                            "1.000000000000",
                            lambda bound: certificate(version, bound, [f"ex 1 1 {PRICE}"], "cost 1"))
    # The load counts for the cap, which is the lower limit as widened, and the list adds that limit: 4 is left. A limit
    # below 0 has the cap 0, so nothing of the load counts, and the limit takes off 0.001.
    capped = lambda bound: certificate(3, bound, [f"lo 1 1 {PRICE}", "cap"], "cost 1")
    yield from greatest("a cap", NEWEST, crew(2), 4 * ONE, "4.000000000000", capped)
    yield from greatest("a cap of a limit as widened", NEWEST, crew(2), 4 * ONE, "4.000000000000", capped,
                        slack=COUNTS // 1000)
    yield from greatest("a cap of a limit below 0", NEWEST, crew(0), 3999 * ONE // 1000, "3.999000000000", capped,
                        slack=COUNTS // 1000)
    # (without `cap` the load counts for 4)
    yield from greatest("no cap", NEWEST, crew(2), 2 * ONE, "2.000000000000",
                        lambda bound: certificate(3, bound, [f"lo 1 1 {PRICE}"], "cost 1"))
    # The load of 4 is above an upper limit of 3.9995, and not above one of 4.0005.
    over = lambda upper: instance({"line": work([4], load=4)}, Resources={"crew": {"max": [upper], "min": [0]}})
    text = certificate(1, 5 * ONE, None, "band 1 1 over")
    yield accepted("a load over a limit", ALL, over(3.9995), text, 5 * ONE, "5.000000000000")
    yield refused("a limit as widened", ALL, over(3.9995), text, "leaf 1", slack=COUNTS // 1000)


def leaf_cases():
    yield accepted("an exclusion where an interval has no start", ALL, LATE,
                   certificate(1, ONE, None, "split 1 1", "cost 0", "excl 1"), ONE, "0.500000000000")
    yield refused("a load where an interval has no start", ALL,
                  instance({"line": work([4], durations=[2], load=4)}, Resources={"crew": {"max": [9], "min": [5]}}),
                  certificate(1, ONE, None, "band 1 1 under"), "leaf 1")


def refusal_cases():
    nothing = certificate(1, 0, None, "cost 0")
    yield accepted("nothing behind the tree", ALL, FOUR, nothing, 0, "0.000000000000")
    for what, more in (("a line feed", b"\n"), ("a byte", b"x"), ("a node", b"cost 0\n")):
        yield refused(f"{what} behind the tree", ALL, FOUR, nothing + more, "bad line 6")
    for version, programs in ((4, ALL), (0, ALL), (10, ALL), (3, (PLANNER,))):
        yield refused(f"version {version}", programs, FOUR, certificate(version, 0, None, "cost 0"), "bad line 1")
    yield accepted("version 3", NEWEST, FOUR, certificate(3, 0, None, "cost 0"), 0, "0.000000000000")
    yield refused("a tail without a place", ALL, FOUR, begun(2, "tail 1 1000"), "bounds 5")
    yield refused("a tail without a weight", ALL, FOUR, begun(2, "tail 1"), "bad line 5")
    for what, refusal, *entries in (
            ("a group without a scenario", "bounds 5", "tail 1"),
            ("its place", "bad line 6", "tail 1 1 1000", "tail 1"),
            ("a first group of more than 1000", "bounds 5", "tail 1 1 501 2 500"),
            ("a second group of another sum", "bounds 6", "tail 1 1 501", "tail 1 2 500"),
            ("a scenario twice in a group", "bad line 5", "tail 1 1 500 1 500"),
            ("a scenario in two groups", "bounds 6", "tail 1 1 500 2 500", "tail 1 2 1000"),
            ("too few groups, and the tree", "bounds 6", "tail 1 1 1000", "tree"),
            ("too few groups, and a line that can't stand there", "bad line 6", "tail 1 1 1000", "cap"),
            ("too few groups, and a price out of range", "bounds 6", "tail 1 1 1000", "off 1 1 1 0"),
            ("too few groups, and the end", "cut 6", "tail 1 1 1000"),
            ("a line out of order and out of range", "bad line 6", "tail 1 2 1000", "tail 1 1 0"),
            ("a clique of none", "bounds 5", "clq 1 1")):
        yield refused(what, NEWEST, FOUR, begun(3, *entries), refusal)
    most = list(islice(cliques(), 4097))
    yield accepted("4096 cliques", NEWEST, MANY, certificate(3, 0, most[:-1], "cost 0"), 0, "0.000000000000")
    yield refused("4097 cliques", NEWEST, MANY, begun(3, *most), "bounds 4101")
    yield refused("a clique twice, behind 4096", NEWEST, MANY, begun(3, *most[:-1], most[-2]), "bad line 4101")


CASES = [*plan_cases(), *number_cases(), *price_cases(), *leaf_cases(), *refusal_cases()]
