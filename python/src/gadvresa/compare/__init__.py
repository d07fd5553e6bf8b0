"""Comparisons of methods that make plans: each one on each instance, within its time, judged by `evaluate`.

`tasks` says what is to be run, `one_run` does one task in a process of its own, in which `guarded` runs a method and
leaves nothing of it behind. `results` writes the tables, `pictures` draws them, and `script` is what tools/compare
runs.
"""
