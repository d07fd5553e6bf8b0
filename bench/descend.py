#!/usr/bin/env -S python3 -E -s
"""Times descents from the opening plans of drawn instances, and how many neighbours are judged a second.

    bench/descend.py [--cases "10-a1 20-a1"] [--line "NAME OPTIONS"] [--turns "1000 10000"] [--places 20000]
        [--seconds 600] [--instructions]

The cases are those of bench/cases.txt. A program over the crates is proved and built first.

The opening plan has each intervention at its least allowed start. A row has the violation and the score of the plan at
the descent's end, the number of its changes, whether that is all turns, and the processor seconds that it took. Then
moves and exchanges of that plan are judged at so many places, each of which names one that may be allowed. --line has
a further case, in the form of a line of that file.

With --instructions a row has the instructions of a judged change in place of times: what valgrind counts in a run that
judges at all places, less what it counts in a run that judges at none, over the number of changes that were judged.
Under valgrind a program is some 50 times slower, so take few turns.
"""
import argparse
import os
import re
import subprocess
from tempfile import TemporaryDirectory

import cases
import scratch

USES = ["local_search", "plan_moves", "quantile_index", "instance_read", "instance_model",
        "fixed_num", "anyhow"]

# Parts of a source that `ladder.py` takes too.
READING = '''
/// Says how many microseconds of the processor have passed.
fn tell<R: CpuClock + Print>(rt: &R, what: &str) -> Result<()> {
    let micros = rt.process_cpu_time()?.as_micros();
    println!(rt; "{what} {micros}")?;
    Ok(())
}

/// The least allowed start of an intervention, or 0.
fn least_start(inst: &Instance, i: u32) -> u32
    requires { i < length inst.now.names }
{
    inst.fits();
    for s in 1..inst.tmax(i) + 1 {
        if inst.allowed(i, s) {
            return s;
        }
    }
    0
}

/// The least allowed starts.
fn opening(alloc: Global, inst: &Instance) -> Result<Vec<u32>, AllocError> {
    let mut starts = Vec::new(alloc);
    for i in 0..inst.interventions() {
        starts.push(least_start(inst, i))?;
    }
    Ok(starts)
}

/// Whether these are starts of all interventions, one each, and all of them allowed.
fn are_allowed(inst: &Instance, starts: &[u32]) -> bool
    ensures { IsTrue result → AreAllowedStarts inst.now starts.now }
{
    if starts.len() != inst.interventions() as usize {
        return false;
    }
    for i in 0..inst.interventions() {
        if !inst.allowed(i, starts[i as usize]) {
            return false;
        }
    }
    true
}
'''


# What is written of their proofs, with the crate's name for CRATE.
READING_PROOFS = {"are_allowed/Invariants.antt": '''-- The starts that were looked at are allowed.
use Rattle.std.proofs.Common.{ℕ, ◌<◌, slice_index, IsTrue}
use Rattle.instance_model.specs.Tables.{is_allowed}
use Rattle.CRATE.proofs.are_allowed.Given as goal

abbrev pub invariant-loop-i : goal.invariant-loop-i
invariant-loop-i l = (k : ℕ) → k < l.i → IsTrue (is_allowed l.inst k (slice_index l.starts k))
'''}

PROOFS = READING_PROOFS | {"measure/Invariants.antt": '''-- The steps are counted on the ledger that the blank becomes.
use Rattle.CRATE.proofs.measure.Given as goal

abbrev pub ghosts-judge : goal.ghosts-judge
ghosts-judge g a = record { name = a.blank.name; parts = a.blank.parts }
'''}

SOURCE = '''//! Descends from the opening plan of an instance, and judges neighbours of where it ends.
#![tactic(auto)]

ghost use Rattle.std.specs.Prelude.{◌≡◌, ◌<◌, length, IsTrue};
ghost use Rattle.instance_model.specs.Plans.{AreAllowedStarts};

use anyhow::{Result, bail};
use fixed_num::{Fixed, Steps};
use instance_model::{Instance, Limits};
use instance_read::read_instance;
use local_search::descend;
use plan_moves::{Change, Kept};
use quantile_index::{Row, TreeRow};
use std::alloc::{AllocError, Global};
use std::marker::Brand;
use std::sync::ledger::{Blank, Ledger};
use std::time::CpuClock;
use std::{env, fs};

/// A prime, whose multiples come to all places.
const STRIDE: u64 = 1_000_003;
''' + READING + '''
/// Judges a move, where it may be made.
fn judge_move<R: Row, L: Ledger>(kept: &mut Kept<'_, R>, i: u32, s: u32, steps: &mut Steps<L>) -> Option<bool> {
    let inst = kept.instance();
    if i >= inst.interventions() || !inst.allowed(i, s) || kept.start_of(i) == s {
        return None;
    }
    Some(kept.lowers(Change::Move { i, s }, steps))
}

/// Judges an exchange, where it may be made.
fn judge_swap<R: Row, L: Ledger>(kept: &mut Kept<'_, R>, i: u32, j: u32, steps: &mut Steps<L>) -> Option<bool> {
    let inst = kept.instance();
    if i >= inst.interventions() || j >= inst.interventions() {
        return None;
    }
    let first = kept.start_of(i);
    let second = kept.start_of(j);
    if first == second || !inst.allowed(i, second) || !inst.allowed(j, first) {
        return None;
    }
    Some(kept.lowers(Change::Swap { i, j }, steps))
}

/// How many changes were judged, and how many of them lower the key.
#[derive(Clone, Copy)]
struct Judged {
    all: u32,
    lower: u32,
}

fn count(judged: Judged, answer: Option<bool>) -> Judged {
    match answer {
        None => judged,
        Some(lowers) => Judged {
            all: judged.all.saturating_add(1),
            lower: judged.lower.saturating_add(u32::from(lowers)),
        },
    }
}

fn judge_moves<R: Row, L: Ledger>(kept: &mut Kept<'_, R>, places: u32, steps: &mut Steps<L>) -> Judged {
    let mut judged = Judged { all: 0, lower: 0 };
    for k in 0..places {
        let inst = kept.instance();
        let (count_of, periods) = (u64::from(inst.interventions()), u64::from(inst.periods()));
        if count_of > 0 && periods > 0 {
            let place = u64::from(k) * STRIDE;
            let i = (place / periods % count_of) as u32;
            let s = (place % periods) as u32 + 1;
            judged = count(judged, judge_move(kept, i, s, steps));
        }
    }
    judged
}

fn judge_swaps<R: Row, L: Ledger>(kept: &mut Kept<'_, R>, places: u32, steps: &mut Steps<L>) -> Judged {
    let mut judged = Judged { all: 0, lower: 0 };
    for k in 0..places {
        let count_of = u64::from(kept.instance().interventions());
        if count_of > 0 {
            let place = u64::from(k) * STRIDE;
            let i = (place % count_of) as u32;
            let j = (place / count_of % count_of) as u32;
            judged = count(judged, judge_swap(kept, i, j, steps));
        }
    }
    judged
}

fn judge<R: CpuClock + Print, L: Ledger>(rt: &R, kept: &mut Kept<'_, TreeRow>, places: u32, blank: Blank) -> Result<()>
    requires name { blank.name ≡ L.name }
    requires parts { blank.parts ≡ L.parts }
    requires one { blank.parts ≡ 1 }
{
    let mut steps = Steps::<L>::zero(blank);
    tell(rt, "judging")?;
    let moves = judge_moves(kept, places, &mut steps);
    tell(rt, "judged_moves")?;
    let swaps = judge_swaps(kept, places, &mut steps);
    tell(rt, "judged_swaps")?;
    println!(rt; "moves {} {}", moves.all, moves.lower)?;
    println!(rt; "swaps {} {}", swaps.all, swaps.lower)?;
    Ok(())
}

fn measure<R: CpuClock + Print>(
    rt: &R,
    alloc: Global,
    inst: &Instance,
    starts: &[u32],
    turns: u32,
    places: u32,
) -> Result<()>
    requires { AreAllowedStarts inst.now starts.now }
{
    tell(rt, "read")?;
    let mut kept = Kept::<TreeRow>::make(alloc, inst, starts)?;
    let before = kept.key();
    tell(rt, "made")?;
    let descent = descend(alloc, &mut kept, turns)?;
    tell(rt, "descended")?;
    let after = kept.key();
    println!(rt; "opening {} {}", before.violation, before.score)?;
    println!(rt; "end {} {}", after.violation, after.score)?;
    println!(rt; "changes {} {}", descent.moves.as_slice().len(), descent.spent)?;
    judge::<R, Brand>(rt, &mut kept, places, Blank::new(1))
}

fn main(rt: HostRuntime) -> Result<()> {
    let alloc = rt.alloc();
    let mut words = Vec::new(alloc);
    for word in env::args(&rt)? {
        words.push(word)?;
    }
    let [_, file, turns, places] = words.as_slice() else {
        bail!("INSTANCE TURNS PLACES");
    };
    let bytes = fs::read(&rt, file.as_str())?;
    let inst = read_instance(alloc, &Limits::standard(), Fixed::zero(), bytes.as_slice())?;
    let starts = opening(alloc, &inst)?;
    if !are_allowed(&inst, starts.as_slice()) {
        bail!("an intervention has no allowed start");
    }
    measure(&rt, alloc, &inst, starts.as_slice(), turns.parse::<u32>()?, places.parse::<u32>()?)
}
'''


def seconds_between(said, first, last):
    return (int(said[last][0]) - int(said[first][0])) / 1e6


def rate(said, judged, first, last):
    seconds = seconds_between(said, first, last)
    return f"{int(said[judged][0]) / seconds:.0f}" if seconds > 0 else "-"


def row(name, turns, said):
    """The row of a run: where it ended, and how long it took."""
    (violation, score), (changes, spent) = said["end"], said["changes"]
    took = seconds_between(said, "made", "descended")
    moves = rate(said, "moves", "judging", "judged_moves")
    swaps = rate(said, "swaps", "judged_moves", "judged_swaps")
    return (f"| {name} | {turns} | {int(violation) / 10 ** 12:g} | {int(score) / 10 ** 18:.3f} | {changes} | {spent} | "
            f"{took:.2f} | {moves} | {swaps} |")


def counted(words):
    """How many instructions a program takes, and what it prints, as `scratch.answers` has it."""
    tool = ["valgrind", "--tool=cachegrind", "--cache-sim=no", "--cachegrind-out-file=/dev/null"]
    ran = subprocess.run(tool + words, stdin=subprocess.DEVNULL, stdout=subprocess.PIPE, stderr=subprocess.PIPE,
                         check=True)
    count = re.search(rb"I *refs: *([0-9,]+)", ran.stderr)[1]
    return int(count.replace(b",", b"")), scratch.lines_by_word(ran.stdout)


def counted_row(name, turns, program, path, places):
    """The row of two runs under valgrind, with and without judged changes."""
    none, _ = counted([program, path, turns, "0"])
    all_places, said = counted([program, path, turns, str(places)])
    (moves, lower_moves), (swaps, lower_swaps) = said["moves"], said["swaps"]
    judged = int(moves) + int(swaps)
    lower = int(lower_moves) + int(lower_swaps)
    return f"| {name} | {turns} | {moves} | {swaps} | {lower} | {(all_places - none) / max(judged, 1):.0f} |"


def measure(words, chosen, program, folder):
    path = os.path.join(folder, "instance")
    for name, drawn in chosen.items():
        cases.draw(drawn, path)
        for turns in words.turns.split():
            if words.instructions:
                print(counted_row(name, turns, program, path, words.places), flush=True)
                continue
            said = scratch.answers([program, path, turns, str(words.places)], words.seconds)
            late = f"| {name} | {turns} | | | | | above {words.seconds:.0f} | | |"
            print(late if said is None else row(name, turns, said), flush=True)


def main():
    parser = argparse.ArgumentParser(description=__doc__.split("\n")[0])
    parser.add_argument("--cases", default="")
    parser.add_argument("--line", action="append", default=[])
    parser.add_argument("--turns", default="1000 10000")
    parser.add_argument("--places", type=int, default=20_000)
    parser.add_argument("--seconds", type=float, default=600)
    parser.add_argument("--instructions", action="store_true")
    words = parser.parse_args()
    chosen = cases.listed(words.cases.split(), words.line)
    with scratch.program("bench_descent", USES, SOURCE, PROOFS) as program, TemporaryDirectory() as folder:
        if words.instructions:
            print("| case | turns | moves judged | exchanges | that lower the key | instructions each |")
            print("|---|--:|--:|--:|--:|--:|")
        else:
            print("| case | turns | violation | score | changes | spent | seconds | moves judged a second | "
                  "exchanges |")
            print("|---|--:|--:|--:|--:|---|--:|--:|--:|")
        measure(words, chosen, program, folder)


if __name__ == "__main__":
    main()
