#!/usr/bin/env -S python3 -E -s
"""Times `roll` on a drawn instance beside `evaluate` of the same files, in one run; or compares what it writes.

    bench/roll.py [--size 400] [--period N] [--rounds 3] [--seed 1] [--program PATH] [--keep FOLDER]
    bench/roll.py --compare COUNT [--seed 1] [--program PATH]

It draws an instance of so many megabytes (10^6 bytes) and a plan as bench/evaluate.py does, and rolls it with the plan
at a period, which is 1 where none is given: then nothing is kept, and all of it is written. `evaluate` reads the same
two files, and writes none; `roll` reads them, and then writes. A row for each has the median seconds of a processor,
the megabytes that it reads or writes and how many a second, the peak memory, and seconds and peak over
those of `evaluate`. The row `writing` is what `roll` takes more than `evaluate`, over what it writes.

In each round both run once, and a first round isn't counted: it warms the page cache. At the end the plan is evaluated
in what was written, and has to have the report that it has in the drawn instance. Without --program it is `planner` at
the top of the repository, built first. With --keep the files stay in FOLDER.

With --compare so many small instances are drawn, with plans of any kind, and with names of quotes, backslashes and
characters of one to four bytes. What `roll` says and writes at a drawn period is compared with a plain computation by
the definitions alone, and so is what `evaluate` and `table` say of what was written. Where `solve` finds a plan of it,
that plan has to have the same report in the drawn instance, to keep what has begun, and to be rolled at a later period
to the same bytes from both instances.
"""
import argparse
import os
import random
import statistics
import subprocess
import sys
import tempfile

sys.dont_write_bytecode = True
import drawn
from evaluate import TOP, draw, run
from plain import Plain, read_instance, read_plan


def measure(programs, rounds):
    """For each program its median seconds, its peak memory in bytes and what it said."""
    seconds, peaks, said = {name: [] for name in programs}, dict.fromkeys(programs, 0), {}
    for number in range(rounds + 1):
        for name, words in programs.items():
            spent, peak, said[name] = run(words)
            if number > 0:
                seconds[name].append(spent)
                peaks[name] = max(peaks[name], peak)
    return {name: (statistics.median(seconds[name]), peaks[name], said[name]) for name in programs}


def print_table(read, written, results):
    (reading, reading_peak, _), (rolling, rolling_peak, _) = results["evaluate"], results["roll"]
    print("| program | processor s | MB | MB/s | peak MB | seconds over evaluate | peak over evaluate |")
    print("|---|--:|--:|--:|--:|--:|--:|")
    print_row("`evaluate`, reading", reading, read, reading_peak, reading, reading_peak)
    print_row("`roll`", rolling, written, rolling_peak, reading, reading_peak)
    if rolling > reading:
        print_row("writing", rolling - reading, written, rolling_peak, reading, reading_peak)


def print_row(name, seconds, size, peak, ours, our_peak):
    own = f"{seconds:.3f} | {size / 1e6:.1f} | {size / 1e6 / seconds:.0f} | {peak / 1e6:.1f}"
    print(f"| {name} | {own} | {seconds / ours:.2f} | {peak / our_peak:.2f} |")


def bench(words, program, folder):
    instance, plan, out = (os.path.join(folder, name) for name in ("instance.json", "plan.txt", "rolled.json"))
    numbers = draw(words.seed, words.size, instance, plan)
    results = measure({"evaluate": program + ["evaluate", instance, plan],
                       "roll": program + ["roll", instance, plan, str(words.period), out]}, words.rounds)
    print(f"{numbers} risk numbers, rolled at period {words.period}: "
          + ", ".join(results["roll"][2].decode().split("\n")[1:3]) + "\n")
    print_table(os.path.getsize(instance), os.path.getsize(out), results)
    _, _, said = run(program + ["evaluate", out, plan])
    if said != results["evaluate"][2]:
        sys.exit(f"evaluate said {said!r} of what was written, and {results['evaluate'][2]!r} before")
    print("\nthe plan has the same report in what was written")


# ---- compared

# What names are made of. (None is white space to Python, which parts the words of plans at that.)
LETTERS = ['"', "\\", "/", "a", "Z", "0", "-", "'", "{", "é", "ß", "中", "€", "\U0001f600", "\U00010348"]


def strange(source, count):
    """Different names of such letters."""
    names = {}
    while len(names) < count:
        names["".join(source.choice(LETTERS) for _ in range(source.randint(1, 12)))] = None
    return [*names]


def small(source):
    """An instance of which a plan keeps the rules, mostly."""
    inst = drawn.Instance(source, source.randint(1, 5), source.randint(3, 7), source.randint(1, 4), 3, -50)
    if source.random() < 0.8:
        inst.admit([source.choice(starts) for starts in inst.starts])
    inst.intervention_names, inst.resource_names = strange(source, inst.interventions), strange(source, 2)
    inst.season_names, inst.exclusion_names = strange(source, 2), strange(source, len(inst.exclusions))
    return inst


class Compared:
    """The program in a folder of its own, and what was found of it."""

    def __init__(self, program, folder):
        self.program, self.folder, self.calls, self.faults = program, folder, 0, []

    def path(self, name):
        return os.path.join(self.folder, name)

    def call(self, *words):
        """The status, and what is said."""
        self.calls += 1
        how = {"cwd": self.folder, "stdin": subprocess.DEVNULL, "stdout": subprocess.PIPE}
        ran = subprocess.run([*self.program, *words], **how)
        return ran.returncode, ran.stdout.decode()

    def bytes_of(self, name):
        if not os.path.exists(self.path(name)):
            return None
        with open(self.path(name), "rb") as file:
            return file.read()

    def same(self, what, found, wanted):
        if found != wanted:
            self.faults.append(f"{what}: found {found!r}, and not {wanted!r}")

    def compare(self, source):
        inst = small(source)
        with open(self.path("instance"), "w", encoding="utf-8") as out:
            inst.write(out)
        chosen = [source.choice([None, source.randint(0, inst.periods + 2), *2 * starts]) for starts in inst.starts]
        pairs = zip(inst.intervention_names, chosen)
        drawn.write_lines(self.path("plan"), (f"{name} {s}" for name, s in pairs if s is not None))
        period = source.randint(1, inst.periods + 1)
        said, text = Plain(inst).roll(chosen, period)
        found = self.call("roll", "instance", "plan", str(period), "rest")
        self.same("roll", found, (1 if text is None else 0, said))
        self.same("what roll writes", self.bytes_of("rest"), text and text.encode())
        if text is not None:
            self.compare_rest(inst, chosen, period, source)

    def compare_rest(self, inst, chosen, period, source):
        rest = read_instance(self.path("rest"))
        plain = Plain(rest)
        for words, wanted in ((["evaluate", "rest", "plan"], plain.report(chosen)),
                              (["table", "rest", "plan", "1", "512"], plain.table(chosen, 1, 512))):
            self.same(words[0], self.call(*words), (1 if wanted.startswith("infeasible\n") else 0, wanted))
        if self.call("solve", "rest", "found", "certificate", "trail", "50")[0] != 0:
            return
        starts, later = read_plan(rest, self.path("found")), source.randint(period, inst.periods + 1)
        kept = [s for s in chosen if s is not None and s < period]
        self.same("what has begun", [s for s in starts if s < period], kept)
        self.same("evaluate of the plan found", self.call("evaluate", "rest", "found"),
                  self.call("evaluate", "instance", "found"))
        self.same("roll on", self.call("roll", "instance", "found", str(later), "one"),
                  self.call("roll", "rest", "found", str(later), "other"))
        self.same("what roll on writes", self.bytes_of("one"), self.bytes_of("other"))


def compare(program, count, seed):
    source, faults, calls = random.Random(seed), 0, 0
    for number in range(count):
        with tempfile.TemporaryDirectory() as folder:
            compared = Compared(program, folder)
            compared.compare(source)
        calls += compared.calls
        faults += len(compared.faults)
        for fault in compared.faults:
            print(f"instance {number}, {fault}")
    print(f"{count} instances, {calls} calls, {faults} faults")
    return 1 if faults else 0


def main():
    parser = argparse.ArgumentParser(description=__doc__.split("\n")[0])
    parser.add_argument("--size", type=float, default=400)
    parser.add_argument("--period", type=int, default=1)
    parser.add_argument("--rounds", type=int, default=3)
    parser.add_argument("--seed", type=int, default=1)
    parser.add_argument("--program")
    parser.add_argument("--keep")
    parser.add_argument("--compare", type=int)
    words = parser.parse_args()
    program = [os.path.abspath(words.program or os.path.join(TOP, "planner"))]
    subprocess.run(program, stdout=subprocess.DEVNULL)
    if words.compare:
        return compare(program, words.compare, words.seed)
    with tempfile.TemporaryDirectory() as temporary:
        folder = words.keep or temporary
        os.makedirs(folder, exist_ok=True)
        bench(words, program, folder)
    return 0


if __name__ == "__main__":
    sys.exit(main())
