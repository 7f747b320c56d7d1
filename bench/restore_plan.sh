#!/bin/sh
# Prints how long it takes to work out the spans of the log's files, the plan of a restore and what it needs, from 65,536
# lines over 16 spaces and 32,768 files, each second of which begins with a Reset; beside a sort of the lines in the same
# run: the best of 20 rounds each, in microseconds. It builds a program in a temporary folder and removes it. Run it from
# anywhere in the repository.
set -eu

top=$(git -C "$(dirname "$0")" rev-parse --show-toplevel)
work=$(mktemp -d)
trap 'rm -rf "$work"' EXIT

mkdir -p "$work/crates/plan_bench/src"
for name in log_history byte_fields log_record backup_lines live_positions restore_planner; do
    cp -R "$top/crates/$name" "$work/crates/$name"
    rm -rf "$work/crates/$name/must-fail"
done
grep -E '^(log_history|byte_fields|log_record|backup_lines|live_positions|restore_planner):' "$top/crates.txt" >"$work/crates.txt"
echo 'plan_bench: restore_planner backup_lines anyhow' >>"$work/crates.txt"
cat >"$work/crates/plan_bench/src/main.rt" <<'TEXT'
#![tactic(auto)]

use std::alloc::{AllocError, Global};
use std::time::Instant;

use anyhow::Result;
use backup_lines::{Archive, FileSpan, Line};
use restore_planner::{PlanFault, needed, plan, spans};

const ROUNDS: u32 = 20;

// Archives in a row, each of level 1 or 2 on the one before it of its space. Only even positions are live at the end.
fn archive(i: u64) -> Archive {
    let level = (i / 16 % 3) as u8;
    Archive {
        space: (i % 16) as u16,
        level,
        at: i / 2 * 2,
        base: 0,
        base_copy: if level == 0 { 0 } else { i.saturating_sub(15) },
        low: i,
        copy: i.saturating_add(1),
    }
}

// A file of one position; each second file begins with a Reset to the position before it.
fn span(i: u64) -> FileSpan {
    FileSpan {
        file: i.saturating_add(1),
        first: i.saturating_add(1),
        last: i.saturating_add(1),
        reset: if i % 2 == 0 { None } else { Some(i.saturating_sub(1)) },
        before: i,
        time: i,
        copy: i.saturating_add(100_000),
        gone: false,
    }
}

// Archives and log files in turn, but mixed up.
fn lines(alloc: Global) -> Result<Vec<Line>, AllocError> {
    let mut lines = Vec::new(alloc);
    for i in 0..65_536u64 {
        let place = i.wrapping_mul(40_503) % 65_536;
        lines.push(if place % 2 == 0 {
            Line::Archive(archive(place / 2))
        } else {
            Line::Log(span(place / 2))
        })?;
    }
    Ok(lines)
}

fn key(line: &Line) -> u64 {
    match line {
        Line::Archive(archive) => archive.copy,
        Line::Log(span) => span.copy,
        Line::Gone { copy } => *copy,
    }
}

fn main(rt: HostRuntime) -> Result<()> {
    let alloc: Global = rt.alloc();
    let lines = lines(alloc)?;
    let (mut sorting, mut spanning, mut planning, mut needing) = (u128::MAX, u128::MAX, u128::MAX, u128::MAX);
    let mut count = 0;
    for _ in 0..ROUNDS {
        let mut sorted = lines.clone()?;
        let start = Instant::now(&rt)?;
        sorted.sort_by_key(|line| key(line))?;
        sorting = sorting.min(start.elapsed(&rt)?.as_micros());
        let start = Instant::now(&rt)?;
        let files = spans(alloc, &lines, &[], 0)?;
        spanning = spanning.min(start.elapsed(&rt)?.as_micros());
        let start = Instant::now(&rt)?;
        let Ok(found) = plan(alloc, &lines, &files, 16, 32_768) else {
            println!(rt; "no plan")?;
            return Ok(());
        };
        planning = planning.min(start.elapsed(&rt)?.as_micros());
        let start = Instant::now(&rt)?;
        let needs = needed(alloc, &found, 1, &[])?;
        needing = needing.min(start.elapsed(&rt)?.as_micros());
        count = needs.len();
    }
    println!(rt; "a sort of the lines: {sorting:>9} us")?;
    println!(rt; "spans:               {spanning:>9} us")?;
    println!(rt; "plan:                {planning:>9} us")?;
    println!(rt; "needed, {count} objects: {needing:>9} us")?;
    Ok(())
}
TEXT

cd "$work/crates/plan_bench"
if ! rt run >"$work/log" 2>&1; then
    cat "$work/log"
    exit 1
fi
out/plan_bench
