#!/usr/bin/env -S python3 -E -s
"""Times the moves of `replay` on a drawn instance, and compares every key that it says with one from scratch.

    bench/replay.py [--scenarios "100 200 1000"] [--moves 20000] [--rounds 9] [--seed 1] [--program PATH] [--flat PATH]
    bench/replay.py --compare [--moves 5000] [--seed 1] [--program PATH]

The first form draws instances of 100 interventions over 100 periods with two resources, seasons and exclusions, one for
each number of scenarios a period, and a script of random moves. A row has the microseconds of a move (the processor
time of the whole script less that of an empty one, by its lines) and of a key from scratch (the time of `evaluate` less
that of `evaluate` with a plan whose text is refused), and their ratio. Each is a median over the rounds. With --flat,
another built program, such as one whose `run` keeps its plans over `FlatRow`, is timed beside it.

The second form draws a smaller instance with bands on both sides, seasons, exclusions and risks below 0, and a script
of random moves, exchanges and undos, and computes each key anew in whole numbers.
"""
import argparse
import os
import random
import statistics
import subprocess
import sys
import tempfile

from drawn import Instance, Plain, run, write_lines

TOP = os.path.dirname(os.path.dirname(os.path.abspath(__file__)))


def draw_script(source, inst, starts, lines, only_moves):
    """Lines of a script, and the plan after each."""
    plans, text, after = [list(starts)], [], []
    for _ in range(lines):
        kind = 0 if only_moves else source.random()
        i, j = source.randrange(inst.interventions), source.randrange(inst.interventions)
        present = plans[-1]
        if kind > 0.8 and len(plans) > 1:
            plans.pop()
            text.append("undo")
        elif kind > 0.4 and present[j] in inst.starts[i] and present[i] in inst.starts[j]:
            new = list(present)
            new[i], new[j] = present[j], present[i]
            plans.append(new)
            text.append(f"swap I{i} I{j}")
        else:
            new = list(present)
            new[i] = source.choice(inst.starts[i])
            plans.append(new)
            text.append(f"move I{i} {new[i]}")
        after.append(plans[-1])
    return text, after


def compare(program, moves, seed, folder):
    source = random.Random(seed)
    inst = Instance(source, 24, 30, 17, 4, -60)
    plain = Plain(inst)
    path = {name: os.path.join(folder, name) for name in ("instance", "plan", "script")}
    with open(path["instance"], "w") as out:
        inst.write(out)
    starts = [source.choice(allowed) for allowed in inst.starts]
    script, after = draw_script(source, inst, starts, moves, False)
    write_lines(path["plan"], [f"I{i} {s}" for i, s in enumerate(starts)])
    write_lines(path["script"], script)
    _, said = run([program, "replay", path["instance"], path["plan"], path["script"]])
    expected = [f"{n} {plain.violation(p)} {plain.score(p)}" for n, p in enumerate([starts] + after)] + [f"end {moves}"]
    lines = said.splitlines()
    wrong = [n for n, (a, b) in enumerate(zip(lines, expected)) if a != b]
    if wrong or len(lines) != len(expected):
        sys.exit(f"{len(lines)} lines for {len(expected)}; the first that differs is {wrong[:1]}")
    undone = script.count("undo")
    print(f"{len(expected) - 1} keys as computed from scratch, after {moves} lines of which {undone} undo")


def measure(programs, scenarios, moves, rounds, seed, folder):
    source = random.Random(seed)
    inst = Instance(source, 100, 100, scenarios, 3, 0)
    starts = [source.choice(allowed) for allowed in inst.starts]
    inst.admit(starts)
    path = {name: os.path.join(folder, name) for name in ("instance", "plan", "script", "none", "bad")}
    with open(path["instance"], "w") as out:
        inst.write(out)
    write_lines(path["plan"], [f"I{i} {s}" for i, s in enumerate(starts)])
    write_lines(path["script"], draw_script(source, inst, starts, moves, True)[0])
    write_lines(path["none"], [])
    write_lines(path["bad"], ["?"])
    for name, program in programs.items():
        spent = {kind: [] for kind in ("script", "none", "judged", "bad")}
        for _ in range(rounds):
            for kind in ("script", "none"):
                spent[kind].append(run([program, "replay", path["instance"], path["plan"], path[kind]])[0])
            seconds, said = run([program, "evaluate", path["instance"], path["plan"]])
            assert said.startswith("feasible")
            spent["judged"].append(seconds)
            spent["bad"].append(run([program, "evaluate", path["instance"], path["bad"]])[0])
        move = statistics.median(a - b for a, b in zip(spent["script"], spent["none"])) / moves
        scratch = statistics.median(a - b for a, b in zip(spent["judged"], spent["bad"]))
        times = f"{1 / move:.0f} | {move * 1e6:.1f} | {scratch * 1e6:.0f} | {scratch / move:.1f}"
        print(f"| {scenarios} | {name} | {times} |")


def main():
    parser = argparse.ArgumentParser(description=__doc__.split("\n")[0])
    parser.add_argument("--scenarios", default="100 200 1000")
    parser.add_argument("--moves", type=int, default=0)
    parser.add_argument("--rounds", type=int, default=9)
    parser.add_argument("--seed", type=int, default=1)
    parser.add_argument("--program", default=os.path.join(TOP, "planner"))
    parser.add_argument("--flat")
    parser.add_argument("--compare", action="store_true")
    words = parser.parse_args()
    subprocess.run([words.program], stdout=subprocess.DEVNULL)
    with tempfile.TemporaryDirectory() as folder:
        if words.compare:
            compare(words.program, words.moves or 5_000, words.seed, folder)
            return
        programs = {"balanced rows": words.program}
        if words.flat:
            programs["flat rows"] = words.flat
        times = "moves a second | µs a move | µs a key from scratch | from scratch over a move"
        print(f"| scenarios a period | rows | {times} |")
        print("|--:|---|--:|--:|--:|--:|")
        for scenarios in map(int, words.scenarios.split()):
            measure(programs, scenarios, words.moves or 20_000, words.rounds, words.seed, folder)


if __name__ == "__main__":
    main()
