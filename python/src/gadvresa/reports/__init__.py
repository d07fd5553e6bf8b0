"""What the programs say, read exactly: the one reader of reports, which the calls and the scripts share.

`lines` takes a report apart line by line, `tables` reads what `table` says, and `verdicts` all other reports. A text
that is no report raises `NoReport`.
"""
from .lines import NoReport, Report
from .tables import Load, Period, Periods, Run, read_table
from .verdicts import (COUNTED, Key, Rule, broken_rule, costs, first_line, keys_of, periods_of, read_report, refusal,
                       says_no_plan, values_of, whole_in)

__all__ = [
    "COUNTED", "Key", "Load", "NoReport", "Period", "Periods", "Report", "Rule", "Run", "broken_rule", "costs",
    "first_line", "keys_of", "periods_of", "read_report", "read_table", "refusal", "says_no_plan", "values_of",
    "whole_in",
]
