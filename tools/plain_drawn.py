"""The instance that a number draws, as a text: the plain counterpart of the instances that `rehearse` works on.

The numbers are the successive words of a PCG generator with 64 bits of state and 32 of output, whose state and
increment come from the seed by another one, each taken modulo what is wanted; none is skipped. This file is independent
on purpose: it imports nothing of the package `gadvresa`.
"""
WORD = 2 ** 64 - 1
MULTIPLIER, SEED_INCREMENT = 6364136223846793005, 11634580027462260723
PERIODS, LAST, SCENARIOS = 53, 50, 8


def turned(state):
    """The 32 bits of output of a state."""
    mixed, by = (state >> 18 ^ state) >> 27 & 0xFFFFFFFF, state >> 59
    return (mixed >> by | mixed << (32 - by)) & 0xFFFFFFFF


class Words:
    def __init__(self, seed):
        held = b""
        for _ in range(4):
            seed = seed * MULTIPLIER + SEED_INCREMENT & WORD
            held += turned(seed).to_bytes(4, "little")
        self.increment = int.from_bytes(held[8:], "little") | 1
        self.state = self.after(int.from_bytes(held[:8], "little") + self.increment)

    def after(self, state):
        return state * MULTIPLIER + self.increment & WORD

    def draw(self, below):
        word, self.state = turned(self.state), self.after(self.state)
        return word % below


def nested(by_period):
    """Entries by period and start, as they stand in the text."""
    inner = ("".join(f',"{s}":{entry}' for s, entry in entries)[1:] for entries in by_period.values())
    return "{" + ",".join(f'"{t}":{{{text}}}' for t, text in zip(by_period, inner)) + "}"


def intervention(words, i):
    durations = [1 + words.draw(4) for _ in range(LAST)]
    first, second, risks = ({t: [] for t in range(1, PERIODS + 1)} for _ in range(3))
    for s, duration in enumerate(durations, 1):
        for t in range(s, s + duration):
            first[t].append((s, 1 + words.draw(9)))
            second[t].append((s, words.draw(5)))
            risks[t].append((s, str([words.draw(100) for _ in range(SCENARIOS)]).replace(" ", "")))
    first, second, risks = ({t: held for t, held in table.items() if held} for table in (first, second, risks))
    return (f'"I{i}":{{"tmax":{LAST},"Delta":{durations},"workload":{{"c1":{nested(first)},"c2":{nested(second)}}},'
            f'"risk":{nested(risks)}}}').replace(" ", "")


def drawn(seed, n):
    """The text of the instance of so many interventions."""
    words = Words(seed)
    interventions = ",".join(intervention(words, i) for i in range(1, n + 1))
    resources = ",".join(f'"{name}":{{"max":{[most] * PERIODS},"min":{[0] * PERIODS}}}'
                         for name, most in (("c1", n // 2 + 9), ("c2", n // 4 + 5)))
    seasons = f'"s1":{list(range(1, 14))},"s2":{list(range(27, 40))}'
    exclusions = ",".join(f'"E{e}":["I{2 * e - 1}","I{2 * e}","s{1 if e % 2 else 2}"]' for e in range(1, n // 4 + 1))
    text = (f'{{"Resources":{{{resources}}},"Seasons":{{{seasons}}},"Interventions":{{{interventions}}},'
            f'"Exclusions":{{{exclusions}}},"T":{PERIODS},"Scenarios_number":{[SCENARIOS] * PERIODS},'
            f'"Quantile":0.95,"Alpha":0.5}}')
    return text.replace(" ", "").encode()
