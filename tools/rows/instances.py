"""Rows of instances that are refused: each fault, at its place, and a text that is cut at each place."""
from __future__ import annotations

from . import texts as t
from .case import PLANNER, Call, Case, case, lines


def refused(what: str, instance: bytes, fault: str) -> Case:
    return case(what, {"I": instance, "P": b""},
                Call(PLANNER, "evaluate I P", 3, lines(f"refused instance {fault}")))


def empty(resources: str = "{}", interventions: str = "{}", exclusions: str = "{}", periods: str = "1",
          scenarios: str = "[1]", end: str = ',"Alpha":1') -> bytes:
    """An instance of one period, in one line up to the number of scenarios."""
    return (f'{{"Resources":{resources},"Seasons":{{}},"Interventions":{interventions},"Exclusions":{exclusions},'
            f'"T":{periods},\n"Scenarios_number":{scenarios},"Quantile":1{end}}}').encode()


def one(last: int = 1, delta: str = "[1]", workload: str = "{}", risk: str = '{"1":{"1":[0]}}') -> bytes:
    """An instance of one period and one intervention."""
    return empty(interventions=f'{{"I1":{{"tmax":{last},"Delta":{delta},"workload":{workload},"risk":{risk}}}}}')


# Places count from 0, in bytes.
FAULTS = [
    refused("nothing at all", b"", "syntax 0"),
    refused("a text that ends in a number", b'{"T":513', "syntax 8"),
    refused("a number that begins with 0", b'{"T":01}', "syntax 6"),
    refused("a byte behind the text", b'{"T":1}x', "syntax 7"),
    refused("a key twice, in a text that is cut", b'{"T":1,"T":2', "syntax 12"),
    refused("a key twice", b'{"T":1,"T":2}', "double 7"),
    refused("a missing key", b'{"T":1}', "missing 6 Resources"),
    refused("too many periods", b'{"T":513}', "limit 5 periods"),
    refused("17 brackets", b"[" * 17, "too deep 16"),
    refused("a million brackets", b"[" * 1_000_000, "too deep 16"),
    refused("a list in place of an object", b"[]", "shape 0"),
    refused("a key twice in a whole instance",
            b'{"Resources":{},"Seasons":{},"Interventions":{},"Exclusions":{},"T":1,"T":1,\n'
            b'"Scenarios_number":[1],"Quantile":1,"Alpha":1}', "double 70"),
    refused("a blank in a name", empty(resources='{"c 1":{"max":[1],"min":[0]}}'), "bad name 14"),
    refused("no Alpha", empty(end=""), "missing 106 Alpha"),
    refused("a list in place of a number", empty(periods="[]"), "shape 68"),
    refused("a limit that is too large", empty(resources='{"c":{"max":[100000000],"min":[0]}}'), "too large 26"),
    refused("too many periods in a whole instance", empty(periods="513"), "limit 68 periods"),
    refused("more numbers of scenarios than periods", empty(scenarios="[1,1]"), "scenario list"),
    refused("fewer lower limits than periods", empty(resources='{"c":{"max":[1],"min":[]}}'), "band length c"),
    refused("a last start past the horizon", one(last=2), "bad tmax I1"),
    refused("a start without a duration", one(delta="[]"), "no delta I1"),
    refused("an unknown resource", one(workload='{"c":{}}'), "unknown c"),
    refused("a run without risks", one(risk="{}"), "no risk I1 1 1"),
    refused("more risks than scenarios", one(risk='{"1":{"1":[0,0]}}'), "scenario count I1 1 1"),
    refused("an unknown intervention in an exclusion", empty(exclusions='{"e":["I1","I1","s"]}'), "unknown I1"),
]

CUT = [refused(f"an instance that is cut behind {end} bytes", t.LOOSE[:end], f"syntax {end}")
       for end in range(len(t.LOOSE))]

CASES = [*FAULTS, *CUT]
