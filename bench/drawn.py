"""Drawn instances, and runs of the program, timed: what the scripts beside this file share."""
import os
import subprocess
import sys

sys.path.insert(0, os.path.join(os.path.dirname(os.path.dirname(os.path.abspath(__file__))), "tools"))
import plain
from plain import COUNTS, MILLION, Plain


class Instance(plain.Instance):
    """Tables drawn from a source of random numbers."""

    def __init__(self, source, interventions, periods, scenarios, longest, least_risk):
        self.periods = periods
        self.intervention_names, self.resource_names = numbered("I", interventions), numbered("c", 2)
        self.scenarios, self.last_start = [scenarios] * periods, [periods] * interventions
        self.quantile, self.alpha = 950_000, 500_000
        self.duration = [[source.randint(1, longest) for _ in range(periods)] for _ in range(interventions)]
        self.starts = [self.allowed(i) for i in range(interventions)]
        self.loads, self.risks = [{}, {}], {}
        pool = [f"{source.uniform(least_risk, 100):.{source.randint(1, 4)}f}" for _ in range(20_000 + scenarios)]
        for i in range(interventions):
            for s in self.starts[i]:
                for t in self.run(i, s):
                    at = source.randrange(20_000)
                    self.risks[i, s, t] = pool[at:at + scenarios]
                    for table in self.loads:
                        table[i, s, t] = f"{source.randint(-50, 400) / 100:.2f}"
        mean = interventions * (longest + 1) / 2 * 1.75 / periods
        self.upper = [[f"{mean * source.uniform(0.8, 2):.3f}" for _ in range(periods)] for _ in range(2)]
        self.lower = [[f"{mean * source.uniform(-1, 0.5):.3f}" for _ in range(periods)] for _ in range(2)]
        self.season_names = numbered("s", 2)
        self.seasons = [sorted(source.sample(range(1, periods + 1), periods // 3)) for _ in range(2)]
        self.exclude((source.randrange(interventions), source.randrange(interventions), source.randrange(2))
                     for _ in range(interventions))

    def exclude(self, exclusions):
        self.exclusions = list(exclusions)
        self.exclusion_names = numbered("E", len(self.exclusions))

    def admit(self, starts):
        """Widens the bands and leaves out exclusions, so that the plan with these starts keeps every rule."""
        self.upper = [["1000000"] * self.periods for _ in range(2)]
        self.lower = [["-1000000"] * self.periods for _ in range(2)]
        self.exclude(exclusion for exclusion in self.exclusions if not self.clashes(exclusion, starts))


def numbered(letter, number):
    return [f"{letter}{n}" for n in range(number)]


def write_lines(path, lines):
    with open(path, "w") as out:
        out.writelines(line + "\n" for line in lines)


def measured(words):
    """The processor seconds of one run, which other work hardly changes, its peak memory in MB, and what it printed."""
    process = subprocess.Popen(words, stdout=subprocess.PIPE, stdin=subprocess.DEVNULL)
    with process.stdout as out:
        said = out.read()
    _, status, usage = os.wait4(process.pid, 0)
    process.returncode = os.waitstatus_to_exitcode(status)
    return usage.ru_utime + usage.ru_stime, usage.ru_maxrss / 1000, said.decode()


def run(words):
    """The processor seconds of one run, and what it printed."""
    seconds, _, said = measured(words)
    return seconds, said
