#!/usr/bin/env -S python3 -E -s
"""Solves drawn instances with several numbers of turns, and has every plan and certificate checked.

    bench/solve.py --cmd PROGRAM [--cases "10-a1 20-a1"] [--turns "100 1000 10000"] [--seconds 600]

The cases are those of bench/cases.txt. PROGRAM is `./planner --build`'s, or another.

A row has what `solve` says, scores and bounds as multiples of 10^18, and the gap in percent of the score; processor
seconds and the peak memory of the run, as the system counts them; and `ok` where `check` accepts the certificate with
the bound that was said, and `evaluate` finds the plan feasible with that score. Anything else in its place is a fault.
"""
import argparse
import os
import subprocess
from tempfile import TemporaryDirectory

import cases
import scratch

ONE = 10 ** 18
SCORED, UNPLANNED, NONE = 0, 9, 10


def run(words, seconds):
    """The status of a run, what it printed by the first word of each line, its processor seconds and peak MB; nothing
    where it takes too long.
    """
    timed = ["/usr/bin/time", "-f", "%U %S %M", *words]
    try:
        ran = subprocess.run(timed, stdin=subprocess.DEVNULL, capture_output=True, timeout=seconds, check=False)
    except subprocess.TimeoutExpired:
        return None
    user, system, peak = ran.stderr.decode().split("\n")[-2].split()
    return ran.returncode, scratch.lines_by_word(ran.stdout), float(user) + float(system), int(peak) / 1024


def is_checked(program, files, status, said, seconds):
    """Whether the auditor says of the files what `solve` said."""
    instance, plan, certificate = files[:3]
    given = plan if status == SCORED else "-"
    audit = run([program, "check", instance, given, certificate], seconds)
    if audit is None or audit[0] != 0:
        return False
    bound = ["none"] if status == NONE else said["bound"]
    if status != SCORED:
        return audit[1]["bound"] == bound
    verdict = run([program, "evaluate", instance, plan], seconds)
    same = verdict is not None and verdict[0] == 0 and verdict[1]["score"] == said["score"]
    return same and audit[1]["bound"] == bound and audit[1]["gap"] == said["gap"]


def row(program, files, name, turns, seconds):
    instance, plan, certificate, trail = files
    ran = run([program, "solve", instance, plan, certificate, trail, turns], seconds)
    if ran is None:
        return [name, turns, "", "", "", "", "", f"above {seconds:.0f}", "", ""]
    status, said, took, peak = ran
    if status not in (SCORED, UNPLANNED, NONE):
        return [name, turns, "", "", "", "", "", f"{took:.2f}", f"{peak:.0f}", f"FAULT: status {status}"]
    score = int(said["score"][0]) if status == SCORED else None
    bound = int(said["bound"][0]) if status != NONE else None
    gap = f"{100 * (score - bound) / abs(score):.2f}" if score else ""
    checked = is_checked(program, files, status, said, seconds)
    return [name, turns, f"{score / ONE:.3f}" if score is not None else "none",
            f"{bound / ONE:.3f}" if bound is not None else "none", gap, said["splits"][0], said["moves"][0],
            f"{took:.2f}", f"{peak:.0f}", "ok" if checked else "FAULT: check"]


def main():
    parser = argparse.ArgumentParser(description=__doc__.split("\n")[0])
    parser.add_argument("--cmd", required=True)
    parser.add_argument("--cases", default="")
    parser.add_argument("--turns", default="100 1000 10000")
    parser.add_argument("--seconds", type=float, default=600)
    words = parser.parse_args()
    with TemporaryDirectory() as folder:
        print("| case | turns | score | bound | gap % | splits | moves | seconds | MB | checked |")
        print("|---|--:|--:|--:|--:|--:|--:|--:|--:|---|")
        files = [os.path.join(folder, name) for name in ("instance", "plan", "certificate", "trail")]
        for name, drawn in cases.listed(words.cases.split()).items():
            cases.draw(drawn, files[0])
            for turns in words.turns.split():
                print(f"| {' | '.join(row(words.cmd, files, name, turns, words.seconds))} |", flush=True)


if __name__ == "__main__":
    main()
