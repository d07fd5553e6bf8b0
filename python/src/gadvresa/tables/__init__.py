"""Tables: a plan period by period, and the rounds of `plan`, listed, drawn, and in the forms of other programs.

`asking` asks `table` for a script, `progress` reads the rounds of `plan`, and `cells` keeps names from being taken for
formulas. `faults`, `numbers` and `picture` are the scripts of these names in tools/.
"""
