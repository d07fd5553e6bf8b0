"""Instances and the numbers in them: the one reader of an instance file, which every part of the package shares.

`json_text` walks over the text, and `instance` gives names, tables and numbers of it once they are asked for. `exact`
has the numbers as the programs keep and print them, and `scores` has costs and gaps. Nothing here judges: what is wrong
with a file the programs say.
"""
from .exact import COUNTS, SCORES, Range, Slack, counted, decimal_of, kept, kept_whole, shown, slack_word, whole_of
from .instance import Band, Exclusion, Instance, Intervention, Unreadable
from .scores import cost_of, cost_shown, decimal, gap_of, gap_shown, percent_of

__all__ = [
    "Band", "COUNTS", "Exclusion", "Instance", "Intervention", "Range", "SCORES", "Slack", "Unreadable", "cost_of",
    "cost_shown", "counted", "decimal", "decimal_of", "gap_of", "gap_shown", "kept", "kept_whole", "percent_of",
    "shown", "slack_word", "whole_of",
]
