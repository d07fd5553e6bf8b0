"""Instances as tables, written to files and read from them; plans judged by the definitions alone, in whole numbers.

What drawings, benches and checks share. Nothing here asks the program, so what it prints can be compared with this.
This file is independent on purpose: it imports nothing of the package `gadvresa`, so the two can't share a fault.
"""
import json

from decimals import counts, whole

COUNTS = 10 ** 12
MILLION = 10 ** 6


class Instance:
    """The tables of an instance. Periods and starts count from 1, all else from 0; a number is the text of a decimal.

    `periods`, `quantile`, `alpha` (both in millionths); `scenarios`, their number by period; `intervention_names`,
    `resource_names`, `season_names`, `exclusion_names`; `last_start` and `duration` by intervention, the second then by
    start; `loads` by resource, then by (intervention, start, period); `risks`, a list by (intervention, start, period);
    `upper` and `lower` by resource, then period; `seasons`, lists of periods; `exclusions`, as (intervention,
    intervention, season).
    """

    @property
    def interventions(self):
        return len(self.intervention_names)

    def run(self, i, s):
        return range(s, s + self.duration[i][s - 1])

    def allowed(self, i):
        """The allowed starts, in ascending order."""
        return [s for s in range(1, self.last_start[i] + 1) if s + self.duration[i][s - 1] <= self.periods + 1]

    def meeting(self, exclusion, starts):
        """The periods of the season in which both interventions of the exclusion are in progress."""
        i, j, q = exclusion
        return [t for t in self.seasons[q] if t in self.run(i, starts[i]) and t in self.run(j, starts[j])]

    def clashes(self, exclusion, starts):
        return bool(self.meeting(exclusion, starts))

    def write(self, out):
        """Writes the instance file, with a line for each resource, season, intervention and exclusion."""
        out.write('{"Resources": {')
        out.write(lines(f'{quoted(name)}: {{"max": [{joined(upper)}], "min": [{joined(lower)}]}}'
                        for name, upper, lower in zip(self.resource_names, self.upper, self.lower)))
        out.write('}, "Seasons": {')
        out.write(lines(f"{quoted(name)}: {season}" for name, season in zip(self.season_names, self.seasons)))
        out.write('}, "Interventions": {')
        for i in range(self.interventions):
            out.write((",\n" if i else "\n") + self.written(i))
        names = self.intervention_names
        out.write('}, "Exclusions": {')
        out.write(lines(f"{quoted(name)}: [{quoted(names[i])}, {quoted(names[j])}, {quoted(self.season_names[q])}]"
                        for name, (i, j, q) in zip(self.exclusion_names, self.exclusions)))
        out.write(f'}}, "T": {self.periods}, "Scenarios_number": {self.scenarios}, ')
        out.write(f'"Quantile": {millionths(self.quantile)}, "Alpha": {millionths(self.alpha)}}}\n')

    def written(self, i):
        """The entry of an intervention."""
        starts = {}
        for s in self.allowed(i):
            for t in self.run(i, s):
                starts.setdefault(t, []).append(s)

        def entries(table, text):
            entry = lambda t: joined(f'"{s}": {text(table[i, s, t])}' for s in starts[t] if (i, s, t) in table)
            return joined(f'"{t}": {{{entry(t)}}}' for t in sorted(starts))

        used = [c for c, table in enumerate(self.loads) if any((i, s, t) in table for t in starts for s in starts[t])]
        workload = joined(f"{quoted(self.resource_names[c])}: {{{entries(self.loads[c], str)}}}" for c in used)
        risk = entries(self.risks, lambda numbers: f"[{joined(numbers)}]")
        return (f'{quoted(self.intervention_names[i])}: {{"tmax": {self.last_start[i]}, "Delta": {self.duration[i]}, '
                f'"workload": {{{workload}}}, "risk": {{{risk}}}}}')


def quoted(name):
    return json.dumps(name, ensure_ascii=False)


def joined(items):
    return ", ".join(items)


def lines(items):
    return ",".join("\n" + item for item in items)


def millionths(number):
    return f"{number // MILLION}.{number % MILLION:06}".rstrip("0").rstrip(".")


def read_instance(path):
    """The instance of a file that has no fault."""
    with open(path, encoding="utf-8") as file:
        root = json.load(file, parse_float=str, parse_int=str)
    inst = Instance()
    inst.periods, inst.scenarios = whole(root["T"]), wholes(root["Scenarios_number"])
    inst.quantile, inst.alpha = (counts(root[name]) * MILLION // COUNTS for name in ("Quantile", "Alpha"))
    inst.intervention_names, inst.resource_names = list(root["Interventions"]), list(root["Resources"])
    inst.season_names, inst.exclusion_names = list(root["Seasons"]), list(root["Exclusions"])
    inst.upper = [resource["max"] for resource in root["Resources"].values()]
    inst.lower = [resource["min"] for resource in root["Resources"].values()]
    horizon = range(1, inst.periods + 1)
    inst.seasons = [sorted(t for t in set(wholes(season)) if t in horizon) for season in root["Seasons"].values()]
    place, season_place = inst.intervention_names.index, inst.season_names.index
    inst.exclusions = [(place(one), place(two), season_place(q)) for one, two, q in root["Exclusions"].values()]
    inst.last_start, inst.duration = [], []
    inst.loads, inst.risks = [{} for _ in inst.resource_names], {}
    for i, entry in enumerate(root["Interventions"].values()):
        inst.last_start.append(whole(entry["tmax"]))
        inst.duration.append(wholes(entry["Delta"])[:inst.last_start[i]])
        keep(inst, i, inst.risks, entry["risk"])
        for name, by_period in entry["workload"].items():
            keep(inst, i, inst.loads[inst.resource_names.index(name)], by_period)
    return inst


def keep(inst, i, table, by_period):
    """Puts the entries of an intervention into a table, but those that are ignored."""
    runs = {s: inst.run(i, s) for s in inst.allowed(i)}
    for t, by_start in by_period.items():
        for s, entry in by_start.items():
            if int(t) in runs.get(int(s), ()):
                table[i, int(s), int(t)] = entry


def wholes(numbers):
    return [whole(number) for number in numbers]


def read_plan(inst, path):
    """The start of each intervention, or None where the plan has none."""
    with open(path, encoding="utf-8") as file:
        starts = dict(line.split() for line in file if line.strip())
    return [int(starts[name]) if name in starts else None for name in inst.intervention_names]


def decimal(count):
    """A whole number of 10^-12 with 12 decimals."""
    return f"{'-' if count < 0 else ''}{abs(count) // COUNTS}.{abs(count) % COUNTS:012}"


def up(number, divisor):
    """A quotient rounded up."""
    return -(-number // divisor)


class CountedRisks(dict):
    """Lists of risks as counts, each made where it is first looked up."""

    def __init__(self, texts):
        super().__init__()
        self.texts = texts

    def __missing__(self, place):
        self[place] = [counts(x) for x in self.texts[place]]
        return self[place]


class Plain:
    """Rules, keys and values from scratch, in whole numbers and by the definitions alone."""

    def __init__(self, inst):
        self.inst = inst
        self.loads = [{at: counts(x) for at, x in table.items()} for table in inst.loads]
        self.risks = CountedRisks(inst.risks)
        self.upper = [[counts(x) for x in row] for row in inst.upper]
        self.lower = [[counts(x) for x in row] for row in inst.lower]

    def in_progress(self, starts, t):
        """The interventions in progress in a period, with their starts."""
        return [(i, s) for i, s in enumerate(starts) if t in self.inst.run(i, s)]

    def plan_load(self, c, t, starts):
        return sum(self.loads[c].get((i, s, t), 0) for i, s in self.in_progress(starts, t))

    def violation(self, starts):
        inst, total = self.inst, 0
        for c in range(len(self.loads)):
            for t in range(1, inst.periods + 1):
                load = self.plan_load(c, t, starts)
                total += max(0, load - self.upper[c][t - 1]) + max(0, self.lower[c][t - 1] - load)
        broken = sum(1 for exclusion in inst.exclusions if inst.clashes(exclusion, starts))
        return total + broken * COUNTS

    def broken_rules(self, starts):
        """The broken rules as they are printed, in their order: where any is on starts, those on starts alone."""
        inst, broken = self.inst, []
        for i, (name, s) in enumerate(zip(inst.intervention_names, starts)):
            if s is None:
                broken.append(f"S1 {name}")
            elif not 1 <= s <= inst.last_start[i]:
                broken.append(f"S2 {name} {s}")
            elif s + inst.duration[i][s - 1] > inst.periods + 1:
                broken.append(f"S3 {name} {s}")
        if broken:
            return broken
        for c, name in enumerate(inst.resource_names):
            for t in range(1, inst.periods + 1):
                load, upper, lower = self.plan_load(c, t, starts), self.upper[c][t - 1], self.lower[c][t - 1]
                if load > upper:
                    broken.append(f"B1 {name} {t} {decimal(load)} {decimal(upper)}")
                if load < lower:
                    broken.append(f"B2 {name} {t} {decimal(load)} {decimal(lower)}")
        for name, exclusion in zip(inst.exclusion_names, inst.exclusions):
            broken += [f"X1 {name} {t}" for t in inst.meeting(exclusion, starts)[:1]]
        return broken

    def rank(self, t):
        return up(self.inst.quantile * self.inst.scenarios[t - 1], MILLION)

    def scenario_sums(self, starts, t):
        """The sums of the scenarios of a period, in ascending order."""
        running = [self.risks[i, s, t] for i, s in self.in_progress(starts, t)]
        return sorted(sum(numbers[k] for numbers in running) for k in range(self.inst.scenarios[t - 1]))

    def sums(self, starts):
        """For each period the number of scenarios, the sum of their sums, and the excess."""
        for t in range(1, self.inst.periods + 1):
            n, ordered = self.inst.scenarios[t - 1], self.scenario_sums(starts, t)
            yield n, sum(ordered), max(0, n * ordered[self.rank(t) - 1] - sum(ordered))

    def numerators(self, starts):
        """For each period the number of scenarios, and the numerator of its part of the score."""
        for n, total, excess in self.sums(starts):
            yield n, self.inst.alpha * total + (MILLION - self.inst.alpha) * excess

    def score(self, starts):
        return sum(numerator // n for n, numerator in self.numerators(starts))

    def report(self, starts):
        """What `evaluate` prints."""
        broken = self.broken_rules(starts)
        if broken:
            return f"infeasible\n{broken[0]}\nrounded 0\n"
        periods, report = self.inst.periods, f"feasible\nscore {self.score(starts)}\n"
        report += pair("cost", [(numerator, n) for n, numerator in self.numerators(starts)], periods * MILLION)
        report += pair("mean", [(total, n) for n, total, _ in self.sums(starts)], periods)
        report += pair("excess", [(excess, n) for n, _, excess in self.sums(starts)], periods)
        return report + "rounded 0\n"

    def period(self, starts, t):
        """What `table` prints of a period, where no risk of the file is rounded."""
        inst, n, ordered = self.inst, self.inst.scenarios[t - 1], self.scenario_sums(starts, t)
        total, quantile = sum(ordered), ordered[self.rank(t) - 1]
        text = f"period {t} scenarios {n} rank {self.rank(t)}\n"
        text += f"risk {decimal(ordered[0])} {decimal(quantile)} {decimal(ordered[-1])}\n"
        text += pair("mean", [(total, n)], 1) + pair("excess", [(max(0, n * quantile - total), n)], 1)
        for c, name in enumerate(inst.resource_names):
            load, lower, upper = self.plan_load(c, t, starts), self.lower[c][t - 1], self.upper[c][t - 1]
            state = "over" if load > upper else "under" if load < lower else "fits"
            text += f"load {name} {decimal(load)} {decimal(lower)} {decimal(upper)} {state}\n"
        for i, s in self.in_progress(starts, t):
            run = f"run {inst.intervention_names[i]} {s} {t - s + 1} {inst.duration[i][s - 1]}"
            text += pair(run, [(sum(self.risks[i, s, t]), n)], 1)
        for name, exclusion in zip(inst.exclusion_names, inst.exclusions):
            if t in inst.meeting(exclusion, starts):
                text += f"clash {name}\n"
        return text

    def table(self, starts, first, last):
        """What `table` prints of the periods from the first to the last."""
        broken = [rule for rule in self.broken_rules(starts) if rule.startswith("S")]
        if broken:
            return f"infeasible\n{broken[0]}\nrounded 0\n"
        periods = range(first, min(last, self.inst.periods) + 1)
        return "".join(self.period(starts, t) for t in periods) + f"end {len(periods)}\nrounded 0\n"

    def roll(self, starts, period):
        """What `roll` prints, and what it writes, which is None where a kept start isn't allowed."""
        kept = [s if s is not None and s < period else None for s in starts]
        broken = [rule for rule in self.broken_rules(kept) if rule.startswith(("S2", "S3"))]
        if broken:
            return f"infeasible\n{broken[0]}\nrounded 0\n", None
        begun = sum(s is not None for s in kept)
        return f"rolled\nkept {begun}\nfree {len(kept) - begun}\nrounded 0\n", self.rolled_text(kept, period)

    def rolled_text(self, kept, period):
        """The text of what is left of the instance from a period on, without a line feed."""
        inst, limits = self.inst, lambda row: [decimal(limit) for limit in row]
        bands = zip(inst.resource_names, self.upper, self.lower)
        exclusions = [[inst.intervention_names[i], inst.intervention_names[j], inst.season_names[q]]
                      for i, j, q in inst.exclusions]
        return spelled({
            "Resources": {name: {"max": limits(upper), "min": limits(lower)} for name, upper, lower in bands},
            "Seasons": dict(zip(inst.season_names, inst.seasons)),
            "Interventions": {name: self.left(i, kept[i], period) for i, name in enumerate(inst.intervention_names)},
            "Exclusions": {name: [quoted(word) for word in words]
                           for name, words in zip(inst.exclusion_names, exclusions)},
            "T": inst.periods, "Scenarios_number": inst.scenarios,
            "Quantile": f"{inst.quantile // MILLION}.{inst.quantile % MILLION:06}",
            "Alpha": f"{inst.alpha // MILLION}.{inst.alpha % MILLION:06}"})

    def left(self, i, begun, period):
        """What is left of an intervention that has begun, or may begin in a period or later."""
        inst = self.inst
        may = [s >= period if begun is None else s == begun for s in range(1, inst.last_start[i] + 1)]
        starts = [s for s in inst.allowed(i) if may[s - 1]]

        def by_period(table, text, is_left):
            cells = {t: {s: text(table[i, s, t]) for s in starts if t in inst.run(i, s) and is_left((i, s, t))}
                     for t in range(1, inst.periods + 1)}
            return {t: by_start for t, by_start in cells.items() if by_start}

        loads = [by_period(table, decimal, table.get) for table in self.loads]
        return {"tmax": inst.last_start[i],
                "Delta": [d if may[k] else inst.periods + 1 for k, d in enumerate(inst.duration[i])],
                "workload": {name: cells for name, cells in zip(inst.resource_names, loads) if cells},
                "risk": by_period(self.risks, lambda row: [decimal(x) for x in row], lambda at: True)}


def spelled(value):
    """A JSON text without blanks; what is neither an object nor a list is spelled as it is."""
    if isinstance(value, dict):
        return "{" + ",".join(f"{quoted(str(key))}:{spelled(item)}" for key, item in value.items()) + "}"
    if isinstance(value, list):
        return "[" + ",".join(map(spelled, value)) + "]"
    return str(value)


def pair(name, quotients, divisor):
    """The line of a value: a sum of quotients, each rounded down, and then each rounded up, over the divisor."""
    low, high = sum(a // n for a, n in quotients) // divisor, up(sum(up(a, n) for a, n in quotients), divisor)
    return f"{name} {decimal(low)} {decimal(high)}\n"
