"""Reports as they are read: NoReport names the line that doesn't fit, and statuses are the launcher's."""
import os
import re

import pytest
from gadvresa.reports import NoReport, broken_rule, keys_of, periods_of, read_report, read_table, refusal, whole_in
from gadvresa.running import Status

TABLE = """period 1 scenarios 2 rank 2
risk 0.000000000000 1.000000000000 1.500000000000
mean 0.750000000000 0.750000000000
excess 0.250000000000 0.250000000000
load crew 3.000000000000 0.000000000000 3.000000000000 fits
run north-line 1 1 2 0.750000000000 0.750000000000
clash both
end 1
rounded 0
"""


def test_a_table():
    (period,), rounded = read_table(TABLE)
    assert (period.number, period.clashes, rounded) == (1, ("both",), 0)
    assert period.runs[0].mean == period.mean and period.loads[0].state == "fits"


@pytest.mark.parametrize("old, new, number", [
    ("fits", "over the limit", 5), ("fits", "full", 5), ("run north-line 1", "run north-line -1", 6),
    ("rank", "place", 1), ("risk 0.0", "risk 00.0", 2), ("end 1", "end 2", 8), ("rounded 0\n", "rounded 0", 9),
    ("rounded 0\n", "rounded 0\nrounded 0\n", 8), (TABLE, "", 1)])
def test_what_is_no_table(old, new, number):
    with pytest.raises(NoReport) as fault:
        read_table(TABLE.replace(old, new, 1))
    lines = TABLE.replace(old, new, 1).split("\n")
    assert fault.value.number == number and fault.value.line == (lines[number - 1] if number <= len(lines) else "")


def test_values_by_name():
    assert read_report("accepted\nbound none\nrounded 0\n") == {"verdict": "accepted", "bound": "none", "rounded": "0"}
    broken = read_report("infeasible\nX1 both 2\nrounded 0\n")
    assert broken["rule"] == {"rule": "X1", "exclusion": "both", "period": "2"}
    assert read_report("refused words\n") == {"refused": "words"} and refusal("refused words\n") == "refused words"
    for text in ("", "feasible", "feasible\nscore x\n", "feasible\nX1 both 2\n", "over\n", "feasible\nscore 1 2\n"):
        with pytest.raises(NoReport):
            read_report(text)
    with pytest.raises(NoReport):
        broken_rule("infeasible\nY1 both 2\nrounded 0\n")
    for line in ("0 1", "0 x 1", "1 0 1"):
        with pytest.raises(NoReport):
            keys_of([line])


def test_single_values():
    said = "accepted\nbound 1500000000000000000\nbound-cost 0.500000000000\nrounded 0\n"
    assert periods_of(said) == 3 and whole_in(said, "bound") == 15 * 10 ** 17 and whole_in(said, "score") is None
    assert periods_of("accepted\nbound 0\nbound-cost 0.000000000000\n") is None


def test_statuses_are_those_of_the_launcher():
    top = os.path.dirname(os.path.dirname(os.path.dirname(os.path.abspath(__file__))))
    table = os.path.join(top, "tools", "front", "words.bash")
    if not os.path.exists(table):
        pytest.skip("there is no clone around the package")
    with open(table, encoding="utf-8") as file:
        rows = file.read().partition("\nstatuses=(\n")[2].partition("\n)")[0]
    told = set(map(int, re.findall(r"^    ([0-9]+) '", rows, re.MULTILINE)))
    # (a shell says 127 of a program that the processor can't run)
    assert told - {127} == set(Status)
