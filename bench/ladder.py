#!/usr/bin/env -S python3 -E -s
"""Times how a price list is raised on drawn instances, and sets its bound beside that of zeros and of the relaxation.

    bench/ladder.py [--call raise_prices] [--cases "10-a1 20-a1"] [--turns 1000] [--seconds 600] [--linear 60]

The cases are those of bench/cases.txt, and bench/mip.py has the linear relaxation solved where --linear gives it
seconds above 0. A program over the crates is proved and built first.

The list is raised by the call for the plan at the end of a descent of so many turns. A row has the processor seconds of
the call; the worth of the box of all starts by zeros, by the raised list, and the relaxation's bound, as multiples of
10^18; and how much of the way from the first to the last the second is. The score is that of the descent's end, where
that breaks no rule.
"""
import argparse
import os
import subprocess
import sys
from tempfile import TemporaryDirectory

import cases
import scratch
from descend import READING, READING_PROOFS, seconds_between

USES = ["worked_bounds", "price_ladder", "lagrange_bound", "local_search", "plan_moves", "quantile_index",
        "instance_read", "instance_model", "fixed_num", "anyhow"]

SOURCE = '''//! Raises a price list for the plan at the end of a descent.
#![tactic(auto)]

ghost use Rattle.std.specs.Prelude.{◌<◌, length, IsTrue};
ghost use Rattle.instance_model.specs.Plans.{AreAllowedStarts};

use anyhow::{Result, bail};
use fixed_num::Fixed;
use instance_model::{Instance, Limits};
use instance_read::read_instance;
use lagrange_bound::Prices;
use local_search::descend;
use plan_moves::Kept;
use price_ladder::CALL;
use quantile_index::{Row, TreeRow};
use std::alloc::{AllocError, Global};
use std::time::CpuClock;
use std::{env, fs};
use worked_bounds::root_worth;
''' + READING + '''
fn present_starts<R: Row>(alloc: Global, kept: &Kept<'_, R>) -> Result<Vec<u32>, AllocError> {
    let mut starts = Vec::new(alloc);
    for i in 0..kept.instance().interventions() {
        starts.push(kept.start_of(i))?;
    }
    Ok(starts)
}

/// The plan at the end of a descent.
fn descended<R: Print>(
    rt: &R,
    alloc: Global,
    inst: &Instance,
    starts: &[u32],
    turns: u32,
) -> Result<Vec<u32>>
    requires { AreAllowedStarts inst.now starts.now }
{
    let mut kept = Kept::<TreeRow>::make(alloc, inst, starts)?;
    let _descent = descend(alloc, &mut kept, turns)?;
    let key = kept.key();
    println!(rt; "end {} {}", key.violation, key.score)?;
    Ok(present_starts(alloc, &kept)?)
}

fn measure<R: CpuClock + Print>(rt: &R, alloc: Global, inst: &Instance, starts: &[u32]) -> Result<()>
    requires { AreAllowedStarts inst.now starts.now }
{
    let zeros = Prices::zero(alloc, inst)?;
    let least = root_worth(alloc, inst, &zeros, starts)?;
    tell(rt, "raising")?;
    let prices = CALL(alloc, inst, starts)?;
    tell(rt, "raised")?;
    let worth = root_worth(alloc, inst, &prices, starts)?;
    println!(rt; "worths {least} {worth}")?;
    Ok(())
}

fn main(rt: HostRuntime) -> Result<()> {
    let alloc = rt.alloc();
    let mut words = Vec::new(alloc);
    for word in env::args(&rt)? {
        words.push(word)?;
    }
    let [_, file, turns] = words.as_slice() else {
        bail!("INSTANCE TURNS");
    };
    let bytes = fs::read(&rt, file.as_str())?;
    let inst = read_instance(alloc, &Limits::standard(), Fixed::zero(), bytes.as_slice())?;
    let starts = opening(alloc, &inst)?;
    if !are_allowed(&inst, starts.as_slice()) {
        bail!("an intervention has no allowed start");
    }
    let end = descended(&rt, alloc, &inst, starts.as_slice(), turns.parse::<u32>()?)?;
    if !are_allowed(&inst, end.as_slice()) {
        bail!("the descent ends elsewhere");
    }
    measure(&rt, alloc, &inst, end.as_slice())
}
'''


def relaxation(path, seconds):
    """The bound of the linear relaxation, or None."""
    words = [sys.executable, os.path.join(cases.HERE, "mip.py"), path, "--solve", str(seconds), "--linear"]
    ran = subprocess.run(words, stdin=subprocess.DEVNULL, stdout=subprocess.PIPE, stderr=subprocess.DEVNULL, text=True,
                         check=False)
    found = [line.split()[1] for line in ran.stdout.splitlines() if line.startswith("bound ")]
    return int(found[0]) if found else None


def row(name, said, linear):
    least, worth = map(int, said["worths"])
    violation, score = map(int, said["end"])
    share = f"{100 * (worth - least) / (linear - least):.1f}" if linear not in (None, least) else ""
    numbers = [least, worth, linear, None if violation else score]
    shown = " | ".join("" if number is None else f"{number / 10 ** 18:.3f}" for number in numbers)
    return f"| {name} | {seconds_between(said, 'raising', 'raised'):.2f} | {shown} | {share} |"


def main():
    parser = argparse.ArgumentParser(description=__doc__.split("\n")[0])
    parser.add_argument("--call", default="raise_prices")
    parser.add_argument("--cases", default="")
    parser.add_argument("--turns", default="1000")
    parser.add_argument("--seconds", type=float, default=600)
    parser.add_argument("--linear", type=float, default=60)
    words = parser.parse_args()
    chosen = cases.listed(words.cases.split())
    source = SOURCE.replace("CALL", words.call)
    with scratch.program("bench_ladder", USES, source, READING_PROOFS) as program, TemporaryDirectory() as folder:
        print("| case | seconds | worth by zeros | worth by the raised list | relaxation | score | % of the way |")
        print("|---|--:|--:|--:|--:|--:|--:|")
        path = os.path.join(folder, "instance")
        for name, drawn in chosen.items():
            cases.draw(drawn, path)
            said = scratch.answers([program, path, words.turns], words.seconds)
            if said is None:
                print(f"| {name} | above {words.seconds:.0f} | | | | | |", flush=True)
                continue
            linear = relaxation(path, words.linear) if words.linear > 0 else None
            print(row(name, said, linear), flush=True)


if __name__ == "__main__":
    main()
