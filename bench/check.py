#!/usr/bin/env -S python3 -E -s
"""Times `check` on drawn certificates, and compares its verdicts with a plain computation of every leaf.

    bench/check.py [--splits "1000 10000 100000"] [--rounds 5] [--seed 1] [--program PATH]
    bench/check.py --compare [--certificates 200] [--seed 1] [--program PATH]

The first form draws an instance of 100 interventions over 100 periods, and certificates whose trees split deeply: a
split takes one start off, and mostly the right part alone is split again. A row has the leaves a second (the processor
time of a check less that of one without a split), the seconds of the whole check and its peak memory. Each is a median
over the rounds.

The second form draws small instances with bands on both sides, seasons, exclusions and risks below 0, and certificates
with price lists of all four kinds of entries. Every leaf is tried by the definitions, in whole numbers; a certificate
has the greatest bound that its leaves bear, one more than that, or a leaf of another kind somewhere.
"""
import argparse
import os
import random
import statistics
import subprocess
import sys
import tempfile

from drawn import COUNTS, MILLION, Instance, Plain, measured, run, write_lines

TOP = os.path.dirname(os.path.dirname(os.path.abspath(__file__)))
LEAST = -10 ** 36


class Prices:
    """A price list: by resource and period, by period, and by exclusion and period."""

    def __init__(self, plain, source=None):
        inst = plain.inst
        self.up, self.lo, self.tails, self.ex = {}, {}, {}, {}
        if source is None:
            return
        places = [(c, t) for c in range(2) for t in range(1, inst.periods + 1)]
        for table in (self.up, self.lo):
            for place in source.sample(places, source.randint(0, len(places))):
                table[place] = source.choice([1, 7, 1000, source.randint(1, 10 ** 6), source.randint(1, 10 ** 9)])
        for t in range(1, inst.periods + 1):
            if source.random() < 0.6:
                n = inst.scenarios[t - 1]
                needed = n - plain.rank(t) + 1
                chosen = source.sample(range(1, n + 1), source.randint(needed, n))
                self.tails[t] = source.choice([1, 500, 1000]), sorted(chosen)
        for e, (_, _, q) in enumerate(inst.exclusions):
            for t in inst.seasons[q]:
                if source.random() < 0.4:
                    self.ex[e, t] = source.randint(1, 10 ** source.randint(1, 9))

    def lines(self):
        entries = ["prices"]
        entries += [f"up {c + 1} {t} {v}" for (c, t), v in sorted(self.up.items())]
        entries += [f"lo {c + 1} {t} {v}" for (c, t), v in sorted(self.lo.items())]
        entries += [f"tail {t} {b} {' '.join(map(str, places))}" for t, (b, places) in sorted(self.tails.items())]
        return entries + [f"ex {e + 1} {t} {v}" for (e, t), v in sorted(self.ex.items())]


class Bounds(Plain):
    """Prices, worths and leaves by the definitions alone."""

    def term(self, prices, i, s, t):
        risks, alpha, n = self.risks[i, s, t], self.inst.alpha, self.inst.scenarios[t - 1]
        weight, places = prices.tails.get(t, (0, [1]))
        spread = n * min(risks[k - 1] for k in places) - sum(risks)
        return (1000 * alpha * sum(risks) + (MILLION - alpha) * weight * spread) // (1000 * n)

    def price(self, prices, i, s):
        total = 0
        for t in self.inst.run(i, s):
            total += self.term(prices, i, s, t)
            for c in range(2):
                total += (prices.up.get((c, t), 0) - prices.lo.get((c, t), 0)) * self.loads[c][i, s, t]
        for (e, t), value in prices.ex.items():
            first, second, _ = self.inst.exclusions[e]
            if t in self.inst.run(i, s):
                total += COUNTS * value * ((first == i) + (second == i))
        return total

    def allowed(self, box, i):
        return [s for s in self.inst.starts[i] if box[i][0] <= s <= box[i][1]]

    def has_starts(self, box):
        return all(self.allowed(box, i) for i in range(self.inst.interventions))

    def worth(self, prices, box):
        total = sum(min(self.price(prices, i, s) for s in self.allowed(box, i)) for i in range(self.inst.interventions))
        for c in range(2):
            for t in range(1, self.inst.periods + 1):
                total += prices.lo.get((c, t), 0) * self.lower[c][t - 1]
                total -= prices.up.get((c, t), 0) * self.upper[c][t - 1]
        return total - COUNTS * sum(prices.ex.values())

    def load(self, c, t, i, s):
        return self.loads[c][i, s, t] if t in self.inst.run(i, s) else 0

    def value(self, starts):
        """The score of a feasible plan, else none."""
        if any(s not in self.inst.starts[i] for i, s in enumerate(starts)) or self.violation(starts) > 0:
            return None
        return self.score(starts)

    def most(self, lists, box, leaf):
        """The greatest bound under which a leaf holds on a box.

        None where it never holds, and `all` where it holds whatever the bound is.
        """
        kind, *numbers = leaf
        every = range(self.inst.interventions)
        sums = lambda pick, c, t: sum(pick(self.load(c, t, i, s) for s in self.allowed(box, i)) for i in every)
        if kind == "cost":
            return self.worth(lists[numbers[0]], box) if self.has_starts(box) else None
        if kind == "point":
            if any(a != b for a, b in box):
                return None
            value = self.value([a for a, _ in box])
            return "all" if value is None else value
        if kind == "over":
            c, t = numbers
            return "all" if self.has_starts(box) and sums(min, c, t) > self.upper[c][t - 1] else None
        if kind == "under":
            c, t = numbers
            return "all" if self.has_starts(box) and sums(max, c, t) < self.lower[c][t - 1] else None
        if kind == "excl":
            i, j, q = self.inst.exclusions[numbers[0]]
            season = self.inst.seasons[q]
            meets = lambda s, r: any(t in self.inst.run(i, s) and t in self.inst.run(j, r) for t in season)
            return "all" if all(meets(s, r) for s in self.allowed(box, i) for r in self.allowed(box, j)) else None
        return None if self.allowed(box, numbers[0]) else "all"


def line_of(leaf):
    kind, *numbers = leaf
    if kind in ("over", "under"):
        return f"band {numbers[0] + 1} {numbers[1]} {kind}"
    if kind in ("excl", "empty"):
        return f"{kind} {numbers[0] + 1}"
    return " ".join(map(str, leaf))


def any_leaf(source, inst, lists):
    c, t = source.randrange(2), source.randint(1, inst.periods)
    leaves = [("cost", source.randrange(len(lists))), ("point",), ("over", c, t), ("under", c, t)]
    leaves.append(("empty", source.randrange(inst.interventions)))
    if inst.exclusions:
        leaves.append(("excl", source.randrange(len(inst.exclusions))))
    return source.choice(leaves)


def holding_leaf(source, plain, lists, box):
    """A leaf that holds on the box under some bound."""
    inst = plain.inst
    choices = [("point",)] + [("cost", j) for j in range(len(lists))]
    choices += [("empty", i) for i in range(inst.interventions)]
    choices += [(kind, c, t) for kind in ("over", "under") for c in range(2) for t in range(1, inst.periods + 1)]
    choices += [("excl", e) for e in range(len(inst.exclusions))]
    source.shuffle(choices)
    return next((leaf for leaf in choices if plain.most(lists, box, leaf) is not None))


def split(box, i, s):
    left, right = list(box), list(box)
    left[i], right[i] = (box[i][0], s), (s + 1, box[i][1])
    return left, right


def draw_tree(source, plain, lists, splits):
    """The lines of a tree, and its leaves with their boxes, in order."""
    root = [(1, plain.inst.periods) for _ in range(plain.inst.interventions)]
    lines, leaves, waiting = [], [], [root]
    while waiting:
        box = waiting.pop()
        open_ones = [i for i, (a, b) in enumerate(box) if a < b]
        if open_ones and splits > 0 and source.random() < 0.8:
            splits -= 1
            i = source.choice(open_ones)
            s = source.randint(box[i][0], box[i][1] - 1)
            lines.append(f"split {i + 1} {s}")
            left, right = split(box, i, s)
            waiting += [right, left]
        else:
            leaf = holding_leaf(source, plain, lists, box)
            lines.append(len(leaves))
            leaves.append((box, leaf))
    return lines, leaves


def certificate(version, bound, lists, tree, leaves):
    lines = [f"mpcert {version}", f"bound {bound}", f"lists {len(lists) - 1}"]
    for prices in lists[1:]:
        lines += prices.lines()
    return lines + ["tree"] + [line if isinstance(line, str) else line_of(leaves[line][1]) for line in tree]


def verdict(plain, lists, bound, leaves):
    """What `check` has to say first."""
    for n, (box, leaf) in enumerate(leaves):
        most = plain.most(lists, box, leaf)
        if most is None or (most != "all" and (bound == "none" or most < bound)):
            return f"refused certificate leaf {n + 1}"
    return "accepted"


def compare(program, certificates, seed, folder):
    source = random.Random(seed)
    path = {name: os.path.join(folder, name) for name in ("instance", "certificate")}
    seen = {}
    for round_ in range(certificates):
        if round_ % 20 == 0:
            inst = Instance(source, source.randint(2, 4), source.randint(2, 5), source.randint(1, 6), 3, -60)
            plain = Bounds(inst)
            with open(path["instance"], "w") as out:
                inst.write(out)
        lists = [Prices(plain)] + [Prices(plain, source) for _ in range(source.randint(0, 3))]
        tree, leaves = draw_tree(source, plain, lists, source.randint(0, 30))
        bounds = [most for most in (plain.most(lists, box, leaf) for box, leaf in leaves) if most != "all"]
        bound = min(bounds) + source.choice([0, 0, 1]) if bounds else source.choice(["none", LEAST, 10 ** 36])
        if source.random() < 0.3:
            at = source.randrange(len(leaves))
            leaves[at] = leaves[at][0], any_leaf(source, inst, lists)
        if source.random() < 0.1:
            bound = "none"
        version = 2 if any(prices.ex for prices in lists) else source.choice([1, 2])
        write_lines(path["certificate"], certificate(version, bound, lists, tree, leaves))
        _, said = run([program, "check", path["instance"], "-", path["certificate"]])
        expected = verdict(plain, lists, bound, leaves)
        first = said.split("\n")[0]
        if first != expected or (first == "accepted" and said.split("\n")[1] != f"bound {bound}"):
            sys.exit(f"certificate {round_}: said {said!r} for {expected!r}; files in {folder}")
        kind = expected.split()[0]
        seen[kind] = seen.get(kind, 0) + 1
    counts = f"{seen['accepted']} accepted, {seen['refused']} refused at the same leaf"
    print(f"{certificates} verdicts as computed by the definitions: {counts}")


def draw_deep(source, inst, splits):
    """The lines of a tree of so many splits over the box of all starts.

    A split takes one start off, and mostly its right part alone is split again.
    """
    lines, waiting = [], [([(1, inst.periods)] * inst.interventions, splits)]
    while waiting:
        box, budget = waiting.pop()
        open_ones = [i for i, (a, b) in enumerate(box) if a < b]
        if budget == 0 or not open_ones:
            lines.append("cost 1")
            continue
        i = source.choice(open_ones)
        s = box[i][0]
        lines.append(f"split {i + 1} {s}")
        left, right = split(box, i, s)
        share = (budget - 1) // 2 if budget > 4000 else 0
        waiting += [(right, budget - 1 - share), (left, share)]
    return lines


def measure(program, sizes, rounds, seed, folder):
    source = random.Random(seed)
    inst = Instance(source, 100, 100, 20, 3, 0)
    plain = Bounds(inst)
    path = os.path.join(folder, "instance")
    with open(path, "w") as out:
        inst.write(out)
    lists = [Prices(plain), Prices(plain, source)]
    trees = {0: ["cost 1"]}
    for size in sizes:
        trees[size] = draw_deep(source, inst, size)
    files = {}
    for size, tree in trees.items():
        files[size] = os.path.join(folder, f"certificate-{size}")
        write_lines(files[size], certificate(2, LEAST, lists, tree, []))
    spent, peak = {size: [] for size in trees}, {size: [] for size in trees}
    for _ in range(rounds):
        for size in trees:
            seconds, memory, said = measured([program, "check", path, "-", files[size]])
            assert said.startswith("accepted"), said
            spent[size].append(seconds)
            peak[size].append(memory)
    print("| splits | leaves a second | seconds of the whole check | peak MB | peak MB over that of no split |")
    print("|--:|--:|--:|--:|--:|")
    for size in sizes:
        splits = sum(line.startswith("split") for line in trees[size])
        seconds = statistics.median(a - b for a, b in zip(spent[size], spent[0]))
        memory = statistics.median(peak[size])
        whole = statistics.median(spent[size])
        more = memory - statistics.median(peak[0])
        print(f"| {splits} | {splits / seconds:.0f} | {whole:.3f} | {memory:.1f} | {more:.1f} |")


def main():
    parser = argparse.ArgumentParser(description=__doc__.split("\n")[0])
    parser.add_argument("--splits", default="1000 10000 100000")
    parser.add_argument("--rounds", type=int, default=5)
    parser.add_argument("--certificates", type=int, default=200)
    parser.add_argument("--seed", type=int, default=1)
    parser.add_argument("--program", default=os.path.join(TOP, "planner"))
    parser.add_argument("--compare", action="store_true")
    words = parser.parse_args()
    subprocess.run([words.program], stdout=subprocess.DEVNULL)
    with tempfile.TemporaryDirectory() as folder:
        if words.compare:
            compare(words.program, words.certificates, words.seed, folder)
        else:
            measure(words.program, [int(size) for size in words.splits.split()], words.rounds, words.seed, folder)


if __name__ == "__main__":
    main()
