"""A greedy method in a few lines: the largest works first, each at the start that goes best with what is planned.

    python3 greedy.py INSTANCE PLAN
"""
import sys

import gadvresa

instance, plan = gadvresa.Instance.read(sys.argv[1]), {}
limits = {(it.name, t): (float(it.lower[t - 1]), float(it.upper[t - 1]))
          for it in instance.resources.values() for t in range(1, instance.periods + 1)}
loads = dict.fromkeys(limits, 0.0)


def load(work, start):
    return {(name, t): work.float_load(name, t, start) for name in work.resources for t in work.run(start)}


def outside(place, amount):
    lower, upper = limits[place]
    return max(0.0, lower - amount) + max(0.0, amount - upper)


def cost(work, start):
    """How much further loads come outside their limits, how many exclusions are broken, and the mean risk."""
    further = sum(outside(place, loads[place] + amount) - outside(place, loads[place])
                  for place, amount in load(work, start).items())
    starts = {**plan, work.name: start}
    met = sum(1 for it in instance.exclusions.values() if work.name in (it.one, it.other)
              and {it.one, it.other} <= starts.keys() and instance.meeting(it.name, starts))
    means = (sum(risks) / len(risks) for risks in (work.float_risks(t, start) for t in work.run(start)))
    return met, round(further, 6), sum(means)


works = sorted(instance.interventions.values(), key=lambda it: -sum(load(it, it.starts[0]).values()))
# (the second time, and the third, each work is put anew among all others)
for _ in range(3):
    for work in works:
        for place, amount in load(work, plan[work.name]).items() if work.name in plan else ():
            loads[place] -= amount
        plan[work.name] = min(work.starts, key=lambda start: cost(work, start))
        for place, amount in load(work, plan[work.name]).items():
            loads[place] += amount
    gadvresa.Plan(plan).write(sys.argv[2])
