#!/bin/sh
# Prints how long it takes to make a table of 1,048,576 blocks, with no live block and with one live run
# at the end, beside a plain fill of 4 MiB in the same run: the best of 40 rounds each, in nanoseconds.
# It builds a program in a temporary folder and removes it. Run it from anywhere in the repository.
set -eu

top=$(git -C "$(dirname "$0")" rev-parse --show-toplevel)
work=$(mktemp -d)
trap 'rm -rf "$work"' EXIT

mkdir -p "$work/crates/chain_bench/src"
cp -R "$top/crates/block_chain" "$work/crates/block_chain"
rm -rf "$work/crates/block_chain/must-fail"
cat >"$work/crates.txt" <<'TEXT'
block_chain: thiserror
chain_bench: block_chain anyhow
TEXT
cat >"$work/crates/chain_bench/src/main.rt" <<'TEXT'
#![tactic(auto)]

use std::alloc::Global;
use std::rt::Clock;
use std::time::Instant;

use anyhow::Result;
use block_chain::{Chains, Run};

const BLOCKS: u32 = 1_048_576;
const ROUNDS: u32 = 40;

// The best time of making a table, in nanoseconds.
fn time_of_new(rt: &(impl Clock + AllocGlobal), live: &[Vec<Run>], blocks: u32) -> Result<u32> {
    let mut best = u32::MAX;
    for _ in 0..ROUNDS {
        let start = Instant::now(rt)?;
        let chains = Chains::new(rt.alloc(), blocks, live)?;
        best = best.min(start.elapsed(rt)?.subsec_nanos());
        if chains.free() > blocks {
            return Ok(0);
        }
    }
    Ok(best)
}

// The best time of filling four bytes a block, in nanoseconds.
fn time_of_fill(rt: &(impl Clock + AllocGlobal), blocks: u32) -> Result<u32> {
    let mut best = u32::MAX;
    for round in 0..ROUNDS {
        let start = Instant::now(rt)?;
        let filled = vec![in rt.alloc(); round; blocks as usize]?;
        best = best.min(start.elapsed(rt)?.subsec_nanos());
        if filled.get(1000).copied() != Some(round) {
            return Ok(0);
        }
    }
    Ok(best)
}

fn main(rt: HostRuntime) -> Result<()> {
    let alloc: Global = rt.alloc();
    let none: Vec<Vec<Run>> = Vec::new(alloc);
    let mut run = Vec::new(alloc);
    run.push(Run {
        first: BLOCKS - 1,
        count: 1,
    })?;
    let mut last = Vec::new(alloc);
    last.push(run)?;
    let empty = time_of_new(&rt, &none, BLOCKS)?;
    let at_end = time_of_new(&rt, &last, BLOCKS)?;
    let fill = time_of_fill(&rt, BLOCKS)?;
    println!(rt; "new, no live block:             {empty:>9} ns")?;
    println!(rt; "new, one live run at the end:   {at_end:>9} ns")?;
    println!(rt; "a plain fill of 4 MiB:          {fill:>9} ns")?;
    if let Some(times) = fill.checked_div(empty) {
        println!(rt; "the first is {times} times faster than the fill")?;
    }
    Ok(())
}
TEXT

cd "$work/crates/chain_bench"
if ! rt run >"$work/log" 2>&1; then
    cat "$work/log"
    exit 1
fi
out/chain_bench
