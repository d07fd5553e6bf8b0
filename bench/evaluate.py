#!/usr/bin/env -S python3 -E -s
"""Times `evaluate` on drawn instances beside other readers of the same file, in one run.

    bench/evaluate.py [--sizes "60 400"] [--rounds 5] [--seed 1] [--program PATH] [--beside "NAME=COMMAND"]..
                      [--keep FOLDER] [--given INSTANCE PLAN]

For each size in megabytes (10^6 bytes) it draws an instance with two resources, two seasons, exclusions and risks of up
to four decimals, and a plan that keeps its rules, and prints a row for `evaluate` and one for each program beside it:
the median seconds of a processor, of the program with its start and of the system for it, which other work hardly
changes, megabytes a second, the peak memory, and both over those of `evaluate`, so that above 1 `evaluate` is the
better one. Then come the growth from the least size to the greatest and the bytes of memory a risk number.

Beside it is always Python's `json.load`. COMMAND is run with the instance and the plan as its last two words. In each
round every program runs once, and a first round isn't counted: it warms the page cache. Without --program it is
`planner` at the top of the repository, built first. With --keep the drawn files stay in FOLDER. With --given an
instance and a plan are read that are there, in the place of drawn ones.
"""
import argparse
import os
import random
import shlex
import statistics
import subprocess
import sys
import tempfile

TOP = os.path.dirname(os.path.dirname(os.path.abspath(__file__)))
LOAD = [sys.executable, "-c", "import json, sys; json.load(open(sys.argv[1]))"]
SCENARIOS = 120
STRETCH = 1 << 16
DURATION = 3


def periods_of(megabytes):
    """How many periods an instance of this size has: more in a larger one, as its interventions."""
    return max(12, min(180, round(45 * (megabytes / 60) ** 0.5)))


def draw(seed, megabytes, instance, plan):
    """Writes an instance of about so many megabytes and a plan for it, and answers how many risk numbers it has."""
    source = random.Random(seed)
    pool = [f"{source.random() * 100:.{source.randint(1, 4)}f}" for _ in range(STRETCH + SCENARIOS)]
    periods = periods_of(megabytes)
    starts = periods - DURATION + 1
    bytes_a_list = SCENARIOS * 8.1 + 40
    interventions = max(2, min(1024, round(megabytes * 1e6 / (bytes_a_list * starts * DURATION))))
    chosen = [source.randint(1, starts) for _ in range(interventions)]
    with open(instance, "w") as out:
        limit = interventions * 10
        bands = f'{{"max": {[limit] * periods}, "min": {[0] * periods}}}'
        out.write(f'{{"Resources": {{"c1": {bands}, "c2": {bands}}}, ')
        out.write('"Seasons": {"summer": ["1", "2", "3"], "winter": ["7", "8"]}, "Interventions": {')
        for i in range(interventions):
            write_intervention(out, source, pool, i, starts, periods)
        out.write('}, "Exclusions": {')
        pairs = [(i, i + 1) for i in range(0, interventions - 1, 2) if not meet(chosen[i], chosen[i + 1])]
        out.write(", ".join(f'"E{i}": ["I{i}", "I{j}", "summer"]' for i, j in pairs))
        out.write(f'}}, "T": {periods}, "Scenarios_number": {[SCENARIOS] * periods}, "Quantile": 0.95, "Alpha": 0.5}}')
    with open(plan, "w") as out:
        for i, start in enumerate(chosen):
            out.write(f"I{i} {start}\n")
    return interventions * starts * DURATION * SCENARIOS


def meet(s, u):
    """Whether the runs of two starts have a period of the first three in common."""
    return max(s, u) <= min(s, u) + DURATION - 1 and max(s, u) <= 3


def write_intervention(out, source, pool, i, starts, periods):
    def runs(t):
        return range(max(1, t - DURATION + 1), min(t, starts) + 1)

    def risks(s):
        at = source.randrange(STRETCH)
        return f'"{s}": [{", ".join(pool[at:at + SCENARIOS])}]'

    def loads():
        return ", ".join(
            f'"{t}": {{{", ".join(f"{chr(34)}{s}{chr(34)}: {source.randint(1, 999) / 100}" for s in runs(t))}}}'
            for t in range(1, periods + 1))

    out.write(f'{", " if i else ""}"I{i}": {{"tmax": {starts}, "Delta": {[DURATION] * starts}, ')
    out.write(f'"workload": {{"c1": {{{loads()}}}, "c2": {{{loads()}}}}}, "risk": {{')
    for t in range(1, periods + 1):
        out.write(f'{", " if t > 1 else ""}"{t}": {{{", ".join(risks(s) for s in runs(t))}}}')
    out.write("}}")


def run(words):
    """The processor seconds and the peak memory in bytes of one run, and what it printed."""
    read, write = os.pipe()
    process = subprocess.Popen(words, stdout=write, stdin=subprocess.DEVNULL)
    os.close(write)
    said = b""
    while piece := os.read(read, 65536):
        said += piece
    os.close(read)
    _, status, usage = os.wait4(process.pid, 0)
    process.returncode = os.waitstatus_to_exitcode(status)
    if process.returncode != 0:
        sys.exit(f"{words} ended with {process.returncode} and said {said[:200]!r}")
    return usage.ru_utime + usage.ru_stime, usage.ru_maxrss * 1024, said


def measure(programs, rounds):
    """For each program its median seconds and its peak memory in bytes."""
    seconds = {name: [] for name in programs}
    peaks = dict.fromkeys(programs, 0)
    for round_number in range(rounds + 1):
        for name, words in programs.items():
            spent, peak, said = run(words)
            if name == "evaluate" and not said.startswith(b"feasible\n"):
                sys.exit(f"evaluate said {said[:200]!r}")
            if round_number > 0:
                seconds[name].append(spent)
                peaks[name] = max(peaks[name], peak)
    return {name: (statistics.median(seconds[name]), peaks[name]) for name in programs}


def print_table(size, numbers, results):
    ours = results["evaluate"]
    print(f"\n{size / 1e6:.1f} MB, {numbers} risk numbers\n" if numbers else f"\n{size / 1e6:.1f} MB\n")
    print("| program | processor s | MB/s | peak MB | seconds over evaluate | peak over evaluate |")
    print("|---|--:|--:|--:|--:|--:|")
    for name, (seconds, peak) in results.items():
        own = f"{seconds:.3f} | {size / 1e6 / seconds:.0f} | {peak / 1e6:.1f}"
        print(f"| {name} | {own} | {seconds / ours[0]:.2f} | {peak / ours[1]:.2f} |")


def print_growth(growth):
    (size, _, seconds, peak), (most_size, most_numbers, most_seconds, most_peak) = growth[0], growth[-1]
    print(f"\nfrom the least to the greatest size: bytes {most_size / size:.2f}, time {most_seconds / seconds:.2f}, "
          f"peak memory {most_peak / peak:.2f}; {most_peak / most_numbers:.1f} bytes of memory a risk number")


def main():
    parser = argparse.ArgumentParser(description=__doc__.split("\n")[0])
    parser.add_argument("--sizes", default="60 400")
    parser.add_argument("--rounds", type=int, default=5)
    parser.add_argument("--seed", type=int, default=1)
    parser.add_argument("--program")
    parser.add_argument("--beside", action="append", default=[])
    parser.add_argument("--keep")
    parser.add_argument("--given", nargs=2)
    words = parser.parse_args()
    program = [words.program or os.path.join(TOP, "planner")]
    subprocess.run(program, stdout=subprocess.DEVNULL)

    def compare(instance, plan, numbers):
        programs = {"evaluate": program + ["evaluate", instance, plan], "json.load": LOAD + [instance]}
        for beside in words.beside:
            name, command = beside.split("=", 1)
            programs[name] = shlex.split(command) + [instance, plan]
        results = measure(programs, words.rounds)
        size = os.path.getsize(instance)
        print_table(size, numbers, results)
        return size, numbers, *results["evaluate"]

    if words.given:
        compare(*words.given, None)
        return
    growth = []
    with tempfile.TemporaryDirectory() as temporary:
        folder = words.keep or temporary
        os.makedirs(folder, exist_ok=True)
        for megabytes in map(float, words.sizes.split()):
            instance = os.path.join(folder, f"{megabytes:g}_{words.seed}.json")
            plan = os.path.join(folder, f"{megabytes:g}_{words.seed}.txt")
            growth.append(compare(instance, plan, draw(words.seed, megabytes, instance, plan)))
    print_growth(growth)


if __name__ == "__main__":
    main()
