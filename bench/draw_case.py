#!/usr/bin/env -S python3 -E -s
"""Draws an instance that has a plan which keeps all its rules: the same one for the same words.

    bench/draw_case.py [--interventions 50] [--periods 53] [--scenarios 20] [--resources 5] [--exclusions 25]
                       [--alpha 0.5] [--quantile 0.95] [--tightness 0.8] [--decimals 0|1] [--seed 1] [--plan PLAN]
                       INSTANCE

First a plan of even loads is made, large interventions first, and then limits and exclusions are drawn that it keeps.
It is no good plan, as it knows nothing of the risks; `--plan` writes it. The horizon is a year: in winter risks are
higher, and half of the interventions take longer, so that good plans crowd into the summer, where limits bind. Risks
are lognormal, with factors of the country and of four regions for each scenario, so that their sums have heavy tails.

`--tightness` is about the mean load of that plan over the upper limit: 0.4 leaves room, 0.7 is hard. Where a load of
the plan is above the limit that is so made, the limit is that load. Lower limits lie below its loads in 15 % of the
periods. Exclusions are pairs that it keeps apart, most of them among the six interventions of a site. `--scenarios` is
the mean number of a period.
"""
import argparse
import math
import random
import sys

LONGEST = 20
REGIONS = 4
# Interventions of a site; exclusions come from sites first.
SITE = 6
SEASONS = ("winter", "summer", "between", "full")
# Places in a run, and what risks and workloads are multiplied by there.
FIRST, MIDDLE, LAST = range(3)
RISK_AT = (1.25, 1.0, 0.75)
WORK_AT = (1.2, 1.0, 0.8)
# How many factors of chance the risks are drawn from.
NOISE = 4093


def season_of(t, periods):
    place = (t - 0.5) / periods
    if place < 0.22 or place > 0.82:
        return "winter"
    return "summer" if 0.42 < place < 0.68 else "between"


class Intervention:
    """Durations, allowed starts, and the scales of workloads and risks. Amounts are whole numbers of the least unit."""

    def __init__(self, source, number, words, unit):
        periods = words.periods
        longest = max(1, min(LONGEST, periods // 3))
        self.number = number
        self.region = source.randrange(REGIONS)
        base = min(longest, 1 + int(source.expovariate(1 / 5)))
        stretched = min(longest, math.ceil(base * source.choice([1, 1, 1.3, 1.5])))
        durations = [stretched if season_of(s, periods) == "winter" else base for s in range(1, periods + 1)]
        allowed = [s for s in range(1, periods + 1) if s + durations[s - 1] <= periods + 1]
        kind = source.random()
        self.last_start = allowed[-1]
        if kind < 0.1:  # starts behind it that aren't allowed
            self.last_start = min(periods, self.last_start + 2)
        elif kind < 0.25:  # it has to begin early
            self.last_start = source.randint((self.last_start + 1) // 2, self.last_start)
        self.durations = durations[:self.last_start]
        self.starts = [s for s in allowed if s <= self.last_start]
        used = source.sample(range(words.resources), source.randint(1, min(4, words.resources)))
        self.work = {c: unit * source.lognormvariate(2, 0.6) for c in sorted(used)}
        self.risk = unit * min(300, source.lognormvariate(2.5, 0.8))
        # the share of the region's factor in the risk
        self.common = source.uniform(0.5, 0.95)

    def run(self, start):
        return range(start, start + self.durations[start - 1])

    def place(self, t, start):
        if t == start:
            return FIRST
        return LAST if t == start + self.durations[start - 1] - 1 else MIDDLE

    def load(self, c, t, start, wobble):
        factor = WORK_AT[self.place(t, start)] * wobble[(self.number + 7 * t + 13 * start) % 64]
        return max(1, round(self.work[c] * factor))


def even_plan(source, interventions, words, wobble):
    """The plan and its loads: large interventions first, each at the start of a sample that keeps loads most even."""
    loads = [[0] * (words.periods + 1) for _ in range(words.resources)]
    mean = [1.0] * words.resources
    for i in interventions:
        for c in i.work:
            mean[c] += i.work[c] * i.durations[i.starts[len(i.starts) // 2] - 1] / words.periods
    plan = {}
    for i in sorted(interventions, key=lambda i: -max(i.durations) * sum(i.work.values())):
        best = None
        for s in source.sample(i.starts, min(40, len(i.starts))):
            uneven = 0.0
            for c in i.work:
                for t in i.run(s):
                    load = i.load(c, t, s, wobble)
                    uneven += load * (load + 2 * loads[c][t]) / mean[c] ** 2
            if best is None or uneven < best[0]:
                best = uneven, s
        s = plan[i.number] = best[1]
        for c in i.work:
            for t in i.run(s):
                loads[c][t] += i.load(c, t, s, wobble)
    return plan, loads


def draw_bands(source, loads, words):
    """Upper and lower limits by resource, around the loads of the plan."""
    bands = []
    for row in loads:
        level = sum(row) / words.periods / words.tightness
        upper = [max(load, round(level * source.choice([0.85, 0.95, 1, 1, 1.05])), 1) for load in row[1:]]
        lower = [int(load * words.tightness * source.uniform(0.1, 0.6)) if source.random() < 0.15 else 0
                 for load in row[1:]]
        bands.append((upper, lower))
    return bands


def draw_exclusions(source, interventions, plan, seasons, wanted):
    """Pairs that the plan keeps apart: first all of one site in one season."""
    chosen = {}

    def offer(a, b, season):
        if len(chosen) < wanted and (a.number, b.number, season) not in chosen:
            together = set(a.run(plan[a.number])) & set(b.run(plan[b.number]))
            if not together & set(seasons[season]):
                chosen[a.number, b.number, season] = True

    shuffled = source.sample(interventions, len(interventions))
    for first in range(0, len(shuffled), SITE):
        site = sorted(shuffled[first:first + SITE], key=lambda i: i.number)
        season = source.choice(SEASONS)
        for n, a in enumerate(site):
            for b in site[n + 1:]:
                offer(a, b, season)
    for _ in range(20 * wanted if len(interventions) > 1 else 0):
        if len(chosen) == wanted:
            break
        a, b = sorted(source.sample(interventions, 2), key=lambda i: i.number)
        offer(a, b, source.choice(SEASONS))
    return list(chosen)


def draw_factors(source, scenarios):
    """Factors of risks by region, period and scenario: 1 on average, heavy above, partly the same in all regions."""
    factors = [[] for _ in range(REGIONS)]
    for n in scenarios:
        country = [source.gauss(0, 1) for _ in range(n)]
        for region in factors:
            region.append([math.exp(0.6 * z + 0.6 * source.gauss(0, 1) - 0.36) for z in country])
    return factors


class Texts(dict):
    """The texts of amounts, each made where it is first looked up."""

    def __init__(self, decimals):
        super().__init__()
        self.decimals = decimals

    def __missing__(self, amount):
        text = f"{amount // 10}.{amount % 10}" if self.decimals else str(amount)
        self[amount] = text
        return text


def listed(texts):
    return "[" + ",".join(texts) + "]"


def by_period(i, periods, value):
    """The text of an object by period and start, of what `value` says of them."""
    rows = [[] for _ in range(periods + 1)]
    for s in i.starts:
        for t in i.run(s):
            rows[t].append(f'"{s}":{value(t, s)}')
    return "{" + ",".join(f'"{t}":{{{",".join(row)}}}' for t, row in enumerate(rows) if row) + "}"


class Drawing:
    """All that is drawn of an instance, in the order in which it is drawn."""

    def __init__(self, words):
        self.words, self.source = words, random.Random(words.seed)
        source, periods = self.source, words.periods
        spread = words.scenarios // 5
        self.texts = Texts(words.decimals)
        self.scenarios = [words.scenarios + source.randint(-spread, spread) for _ in range(periods)]
        self.wobble = [source.uniform(0.85, 1.15) for _ in range(64)]
        self.noise = [math.exp(0.8 * source.gauss(0, 1) - 0.32) for _ in range(NOISE)]
        self.interventions = [Intervention(source, n + 1, words, 10 ** words.decimals)
                              for n in range(words.interventions)]
        self.plan, self.loads = even_plan(source, self.interventions, words, self.wobble)
        self.bands = draw_bands(source, self.loads, words)
        self.seasons = {name: [t for t in range(1, periods + 1) if name in (season_of(t, periods), "full")]
                        for name in SEASONS}
        self.exclusions = draw_exclusions(source, self.interventions, self.plan, self.seasons, words.exclusions)
        self.factors = draw_factors(source, self.scenarios)

    def risks(self, i):
        """A function from period and start to the text of the risks, which are the same at each place of a run."""
        made = {}

        def text(t, s):
            place = i.place(t, s)
            if (t, place) not in made:
                n = self.scenarios[t - 1]
                begin = self.source.randrange(NOISE - n)
                weather = 1 + 0.7 * math.cos(2 * math.pi * (t - 0.5) / self.words.periods)
                scale = i.risk * weather
                own, shared = scale * (1 - i.common), scale * i.common
                row = [own * e + shared * f
                       for e, f in zip(self.noise[begin:begin + n], self.factors[i.region][t - 1])]
                for at, level in enumerate(RISK_AT):
                    made[t, at] = listed([self.texts[int(v * level + 0.5)] for v in row])
            return made[t, place]

        return text

    def written(self, i):
        """The entry of an intervention."""
        periods = self.words.periods
        work = ",".join(
            f'"c{c + 1}":' + by_period(i, periods, lambda t, s, c=c: self.texts[i.load(c, t, s, self.wobble)])
            for c in i.work)
        return (f'"I{i.number}":{{"tmax":{i.last_start},"Delta":{listed(map(str, i.durations))},'
                f'"workload":{{{work}}},"risk":{by_period(i, periods, self.risks(i))}}}')

    def write(self, out):
        limits = lambda row: listed(self.texts[v] for v in row)
        out.write('{"Resources":{')
        out.write(",\n".join(f'"c{c + 1}":{{"max":{limits(upper)},"min":{limits(lower)}}}'
                             for c, (upper, lower) in enumerate(self.bands)))
        out.write('},\n"Seasons":{')
        out.write(",\n".join(f'"{name}":' + listed(f'"{t}"' for t in season) for name, season in self.seasons.items()))
        out.write('},\n"Interventions":{')
        for n, i in enumerate(self.interventions):
            out.write(",\n" if n else "\n")
            out.write(self.written(i))
        out.write('},\n"Exclusions":{')
        out.write(",\n".join(f'"E{n + 1}":["I{a}","I{b}","{season}"]'
                             for n, (a, b, season) in enumerate(self.exclusions)))
        out.write(f'}},\n"T":{self.words.periods},"Scenarios_number":{listed(map(str, self.scenarios))},'
                  f'"Quantile":{self.words.quantile},"Alpha":{self.words.alpha}}}')

    def summary(self):
        """A line that says how large it is, and how many limits the plan meets."""
        pairs = [pair for row, (upper, _) in zip(self.loads, self.bands) for pair in zip(row[1:], upper)]
        return (f"periods {self.words.periods} interventions {len(self.interventions)} "
                f"resources {self.words.resources} exclusions {len(self.exclusions)} "
                f"scenarios {min(self.scenarios)}-{max(self.scenarios)} "
                f"starts {sum(len(i.starts) for i in self.interventions)} "
                f"limits met by the drawn plan {sum(load >= limit for load, limit in pairs)}/{len(pairs)}")


def read_words():
    parser = argparse.ArgumentParser(description=__doc__.split("\n")[0])
    parser.add_argument("instance")
    parser.add_argument("--plan")
    parser.add_argument("--interventions", type=int, default=50)
    parser.add_argument("--periods", type=int, default=53)
    parser.add_argument("--scenarios", type=int, default=20)
    parser.add_argument("--resources", type=int, default=5)
    parser.add_argument("--exclusions", type=int, default=25)
    parser.add_argument("--alpha", default="0.5")
    parser.add_argument("--quantile", default="0.95")
    parser.add_argument("--tightness", type=float, default=0.8)
    parser.add_argument("--decimals", type=int, choices=[0, 1], default=1)
    parser.add_argument("--seed", type=int, default=1)
    return parser.parse_args()


def main():
    words = read_words()
    drawing = Drawing(words)
    with open(words.instance, "w", encoding="ascii") as out:
        drawing.write(out)
    if words.plan:
        with open(words.plan, "w", encoding="ascii") as out:
            out.writelines(f"I{i.number} {drawing.plan[i.number]}\n" for i in drawing.interventions)
    print(drawing.summary(), file=sys.stderr)


if __name__ == "__main__":
    main()
