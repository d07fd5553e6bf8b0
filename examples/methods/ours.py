"""Runs `solve` or `improve` with more and more turns until its time is over, and keeps the best plan.

    python3 ours.py solve|improve INSTANCE PLAN SECONDS SEED
"""
import sys
import time

import gadvresa

command, path, out, seconds, seed = sys.argv[1:]
# What is left for the end of this script.
end = time.monotonic() + float(seconds) * 0.97 - 0.2
best = plan = None
turns = 10 if command == "improve" else 100
for number in range(1000):
    left = end - time.monotonic()
    if left <= 0 or turns > 1_000_000:
        break
    try:
        if command == "solve":
            found = gadvresa.solve(path, turns, timeout=left)
        else:
            found = gadvresa.improve(path, plan, turns, int(seed) * 1000 + number, timeout=left)
    except gadvresa.TimedOut:
        break
    if found.plan is not None and (best is None or found.score < best):
        best, plan = found.score, found.plan
        plan.write(out)
    if best is not None and command == "solve" and found.gap == 0:
        break
    turns *= 4 if command == "solve" else 2
