#!/bin/bash
# Measures how long the largest layouts take: 512 x 512 CTUs with a tile for each, and 1,000 slices and subpictures.
# Entry points are counted without synchronization and then with it. Not a test, because times depend on the machine.
# Usage: scripts/bench-layout.sh   (in the top folder of the repository; first proves what it runs, with the command in RT, by default rt)
set -euo pipefail
work=$(mktemp -d)
trap 'rm -rf "$work"' EXIT

# A program that measures the time around the calls.
. scripts/bench-crate.sh
bench_crate bench_layout 'vx_bits vx_layout anyhow' vx_bits vx_layout
cat > "$bench/src/main.rt" <<'RT'
//! Times the calls of `vx_layout`.
#![tactic(auto)]

ghost use Rattle.std.specs.Prelude.{◌<◌, ◌≤◌, length};
ghost use Rattle.std.specs.Bool.{OnTrue};
ghost use Rattle.vx_layout.specs.Faults.{IsInLimits};

use std::alloc::{AllocError, Global};
use std::time::Instant;
use vx_layout::{Layout, LayoutError, Numbers, Rect, RectList, tile_bounds};

// Returns a picture cut into `across` by `down` parts; the last of each row and column takes the rest.
fn parts(alloc: Global, side: u32, across: u32, down: u32) -> Result<RectList, AllocError>
    requires { (0 < across) × (0 < down) }
{
    let mut list = RectList::new(alloc);
    for row in 0..down {
        for column in 0..across {
            list.push(part(side, across, down, column, row))?;
        }
    }
    Ok(list)
}

// Returns the part in a column and a row.
fn part(side: u32, across: u32, down: u32, column: u32, row: u32) -> Rect
    requires { (0 < across) × (0 < down) × (column < across) × (row < down) }
{
    let (x, w) = span(side, across, column);
    let (y, h) = span(side, down, row);
    Rect { x, y, w, h }
}

// Returns where a part begins, and its size.
fn span(side: u32, count: u32, at: u32) -> (u32, u32)
    requires { (0 < count) × (at < count) }
{
    let size = side / count;
    let from = at.wrapping_mul(size);
    if at + 1 == count {
        (from, side.wrapping_sub(from))
    } else {
        (from, size)
    }
}

// Returns the same list with rectangles without a CTU after it.
fn with_empty(mut list: RectList, count: u32) -> Result<RectList, AllocError> {
    for _i in 0..count {
        list.push(Rect { x: 0, y: 0, w: 0, h: 0 })?;
    }
    Ok(list)
}

// Returns a square picture with tiles of one CTU, and these slices and subpictures.
fn picture(
    alloc: Global,
    side: u32,
    slices: RectList,
    subpics: RectList,
) -> anyhow::Result<Numbers>
    requires { 0 < side }
{
    Ok(Numbers {
        columns: tile_bounds(alloc, &[1], side)?,
        rows: tile_bounds(alloc, &[1], side)?,
        slices,
        subpics,
    })
}

// Returns whether a picture is within the limits that its layout requires.
fn is_in_limits(n: &Numbers) -> bool
    ensures { OnTrue result (IsInLimits n.now) }
{
    if n.columns.len() < 2 || n.rows.len() < 2 {
        return false;
    }
    if 512 < n.columns.last() || 512 < n.rows.last() {
        return false;
    }
    if n.slices.len() < 1 || 1000 < n.slices.len() {
        return false;
    }
    1 <= n.subpics.len() && n.subpics.len() <= 1000
}

fn fault(error: LayoutError) -> u8 {
    match error {
        LayoutError::Fault(k) => k,
        LayoutError::Memory => 1,
    }
}

// Times the fast program, and the entry points of all slices.
fn fast(rt: &HostRuntime, name: &str, n: Numbers) -> anyhow::Result<()> {
    if !is_in_limits(&n) {
        return Ok(());
    }
    let count = n.subpics.len() as u32;
    let start = Instant::now(rt)?;
    let made = Layout::new(rt.alloc(), n);
    let took = start.elapsed(rt)?.as_micros();
    match made {
        Ok(layout) => {
            println!(rt; "{name}: Layout::new {took} us, no fault")?;
            entries(rt, name, &layout, count, false)?;
            entries(rt, name, &layout, count, true)?;
        }
        Err(error) => println!(rt; "{name}: Layout::new {took} us, fault {}", fault(error))?,
    }
    Ok(())
}

// Times the entry points of all slices of all subpictures.
fn entries(rt: &HostRuntime, name: &str, layout: &Layout, subpics: u32, sync: bool) -> anyhow::Result<()>
    requires { subpics ≤ length layout.now.subpics }
{
    let start = Instant::now(rt)?;
    let (mut calls, mut sum) = (0u32, 0u32);
    for subpic in 0..subpics {
        for address in 0..layout.slice_count(subpic) {
            sum = sum.wrapping_add(layout.entry_points(subpic, address, sync));
            calls = calls.wrapping_add(1);
        }
    }
    let took = start.elapsed(rt)?.as_micros();
    println!(rt; "{name}: entry_points {took} us for {calls} slices, {sum} in all")?;
    Ok(())
}

fn main(rt: HostRuntime) -> anyhow::Result<()> {
    let alloc = rt.alloc();
    let each = picture(alloc, 512, parts(alloc, 512, 8, 125)?, parts(alloc, 512, 8, 125)?)?;
    fast(&rt, "1,000 subpictures of a slice", each)?;
    let one = picture(alloc, 512, parts(alloc, 512, 8, 125)?, parts(alloc, 512, 1, 1)?)?;
    fast(&rt, "1 subpicture of 1,000 slices", one)?;
    let bare = picture(alloc, 512, with_empty(parts(alloc, 512, 4, 125)?, 500)?, parts(alloc, 512, 4, 125)?)?;
    fast(&rt, "500 subpictures, 500 slices without a CTU", bare)?;
    let small = picture(alloc, 32, parts(alloc, 32, 8, 8)?, parts(alloc, 32, 8, 8)?)?;
    fast(&rt, "32 x 32 CTUs, 64 subpictures of a slice", small)
}
RT

run_bench
