#!/bin/bash
# Measures how long the largest placements take: 64 regions of 256 x 16,384 samples with CTUs of 32, each a picture of 8 x 512
# tiles of one CTU, and 64 regions of 2,048 x 2,048. Not a test, because times depend on the machine.
# Usage: scripts/bench-fit.sh   (in the top folder of the repository; first proves what it runs, with the command in RT, by default rt)
set -euo pipefail
work=$(mktemp -d)
trap 'rm -rf "$work"' EXIT

# A program that measures the time around the calls.
. scripts/bench-crate.sh
bench_crate bench_fit 'vx_layout vx_fit anyhow' vx_bits vx_layout vx_fit
cat > "$bench/src/main.rt" <<'RT'
//! Times the calls of `vx_fit`.
#![tactic(auto)]

ghost use Rattle.std.specs.Prelude.{◌≡◌, ◌<◌, ◌≤◌, All, IfOk, length, map};
ghost use Rattle.std.specs.Bool.{OnTrue};
ghost use Rattle.std.specs.List.{AllZip};
ghost use Rattle.vx_fit.specs.Placing.{IsInRange, in_ctus};
ghost use Rattle.vx_fit.specs.Sources.{IsSized};

use std::alloc::{AllocError, Global};
use std::time::Instant;
use vx_fit::{Placed, fit_lines, fit_regions};
use vx_layout::{Numbers, Rect, RectList, tile_bounds};

const CTB: u32 = 32;

// Returns whether a region has numbers that it may have.
fn is_in_range(region: Placed) -> bool
    ensures { OnTrue result (IsInRange region) }
{
    if 16384 < region.x || 16384 < region.y {
        return false;
    }
    if region.w < 1 || 16384 < region.w {
        return false;
    }
    1 <= region.h && region.h <= 16384
}

// Returns whether regions have such numbers.
fn are_in_range(placed: &[Placed]) -> bool
    ensures { OnTrue result (All IsInRange placed.now) }
{
    for region in placed {
        if !is_in_range(*region) {
            return false;
        }
    }
    true
}

// Returns whether a picture has the size of its region.
fn is_sized(region: Rect, part: &Numbers) -> bool
    ensures { OnTrue result (IsSized region part.now) }
{
    if part.columns.len() < 1 || part.rows.len() < 1 {
        return false;
    }
    if region.w < 1 || region.h < 1 {
        return false;
    }
    part.columns.last() == region.w && part.rows.last() == region.h
}

// Returns whether each picture has its region's size.
fn are_sized(corners: &[Rect], parts: &[Numbers]) -> bool
    ensures { OnTrue result (AllZip IsSized corners.now parts.now) }
{
    if corners.len() != parts.len() {
        return false;
    }
    for k in 0..corners.len() {
        if !is_sized(corners[k], &parts[k]) {
            return false;
        }
    }
    true
}

// Returns regions side by side, `across` in a row, of this size in samples.
fn grid(alloc: Global, across: u32, width: u32, height: u32) -> anyhow::Result<Vec<Placed>>
    requires { 0 < across }
{
    let mut placed = Vec::new(alloc);
    for k in 0..64u32 {
        let x = (k % across).wrapping_mul(width);
        let y = (k / across).wrapping_mul(height);
        placed.push(Placed { x, y, w: width, h: height })?;
    }
    Ok(placed)
}

// Returns a picture for each, with tiles of this size.
fn pictures(alloc: Global, corners: &[Rect], size: u32) -> anyhow::Result<Vec<Numbers>>
    requires { 1 ≤ size }
{
    let mut parts = Vec::new(alloc);
    for corner in corners {
        if corner.w < 1 || corner.h < 1 {
            anyhow::bail!("no CTU");
        }
        let part = Numbers {
            columns: tile_bounds(alloc, &[size.min(corner.w)], corner.w)?,
            rows: tile_bounds(alloc, &[size.min(corner.h)], corner.h)?,
            slices: RectList::new(alloc),
            subpics: RectList::new(alloc),
        };
        if parts.push(part).is_err() {
            anyhow::bail!("no memory");
        }
    }
    Ok(parts)
}

// Returns the CTUs of regions.
fn in_ctus(alloc: Global, placed: &[Placed]) -> Result<Vec<Rect>, AllocError>
    ensures { IfOk result (λ corners. corners.items ≡ map (in_ctus CTB) placed.now) }
{
    placed.iter().map(|p| p.in_ctus(CTB)).collect(alloc)
}

// Times both calls.
fn time(rt: &HostRuntime, name: &str, placed: &[Placed], size: u32) -> anyhow::Result<()>
    requires { 1 ≤ size }
{
    if placed.len() < 1 || 64 < placed.len() {
        anyhow::bail!("another count");
    }
    if !are_in_range(placed) {
        anyhow::bail!("out of range");
    }
    let start = Instant::now(rt)?;
    let frame = fit_regions(placed, CTB)?;
    let took = start.elapsed(rt)?.as_micros();
    let (width, height) = frame;
    println!(rt; "{name}: fit_regions {took} us, {width} x {height}")?;
    let corners = in_ctus(rt.alloc(), placed)?;
    let parts = pictures(rt.alloc(), &corners, size)?;
    if !are_sized(&corners, &parts) {
        anyhow::bail!("other sizes");
    }
    let start = Instant::now(rt)?;
    let (columns, rows) = fit_lines(rt.alloc(), &corners, &parts)?;
    let took = start.elapsed(rt)?.as_micros();
    let (across, down) = (columns.len(), rows.len());
    println!(rt; "{name}: fit_lines {took} us, {across} and {down} bounds")?;
    Ok(())
}

fn main(rt: HostRuntime) -> anyhow::Result<()> {
    let tall = grid(rt.alloc(), 64, 256, 16384)?;
    time(&rt, "64 tall regions, tiles of a CTU", &tall, 1)?;
    let square = grid(rt.alloc(), 8, 2048, 2048)?;
    time(&rt, "64 square regions, a tile each", &square, 64)
}
RT

# The proofs of functions that the tests have too, and of why the regions fit.
proofs=$bench/proofs
for name in are_in_range are_sized; do
    cp -r "crates/vx_fit/proofs/tests/$name" "$proofs"
done
sed -i 's/Rattle\.vx_fit\.proofs\.tests\./Rattle.bench_fit.proofs./' "$proofs"/*/*.antt
mkdir "$proofs/time"
cat > "$proofs/time/Answers.antt" <<'ANTT'
use Rattle.std.proofs.Common.{◌∙◌, arith}
use Rattle.bench_fit.proofs.time.Goals as goal

pub fit_lines-requires-clause-fitted : goal.fit_lines-requires-clause-fitted
fit_lines-requires-clause-fitted c = record {
  placed = c.args.placed.now;
  ctb = 32;
  some = omega arith;
  fit = c.in_ok-frame.ensures.fit;
  ctus = c.deref-4.ensures.value ∙ c.in_ok-corners.ensures;
}
ANTT

run_bench
