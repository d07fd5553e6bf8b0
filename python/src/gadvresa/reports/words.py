# Made by dev/commands --write of dev/commands.toml: change the table, and not this file.
"""The reports of `evaluate`, `check`, `solve` and `repair`: first lines, then words and values."""

# The first line of a report on a plan or a certificate.
HEADS = (
    "feasible", "infeasible", "accepted", "plan found", "nothing found", "no plan exists", "plan repaired",
)
# The words of each other line, by its first one: what each value behind it is called.
VALUES = {
    "score": ["score"], "bound": ["bound"], "bound-cost": ["bound_cost"], "gap": ["gap"],
    "cost": ["cost_low", "cost_high"], "mean": ["mean_low", "mean_high"], "excess": ["excess_low", "excess_high"],
    "splits": ["splits"], "moves": ["moves"], "changed": ["changed"], "least": ["least"], "rounded": ["rounded"],
}
# The values that count things.
COUNT_WORDS = (
    "splits", "moves", "changed", "least", "rounded",
)
