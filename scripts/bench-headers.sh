#!/bin/bash
# Measures how long it takes to read and to write a picture header (two bytes with its trailing bits) and a slice header (one byte) of a
# picture of two subpictures (128 x 64 samples), in an optimised build. Not a test, because times depend on the machine.
# Usage: scripts/bench-headers.sh   (in the top folder of the repository; first proves what it runs, with the command in RT, by default rt)
set -euo pipefail
work=$(mktemp -d)
trap 'rm -rf "$work"' EXIT

# A program that measures the time around the calls.
. scripts/bench-crate.sh
bench_crate bench_headers 'vx_bits vx_layout vx_sps vx_pps vx_ph vx_sh anyhow' \
    vx_bits vx_fields vx_table vx_ptl vx_rpl vx_layout vx_sps vx_pps vx_ph vx_sh

# What is read can be written.
mkdir "$bench/proofs/write"
cat > "$bench/proofs/write/Answers.antt" <<'ANTT'
use Rattle.bench_headers.proofs.write.Goals as goal

pub write_sh-requires-clause-slice : goal.write_sh-requires-clause-slice
write_sh-requires-clause-slice c = (c.read_can_be_written.ensures _ _ _ _ c.requires.read).apart c.requires.apart _
ANTT

cat > "$bench/src/main.rt" <<'RT'
//! Times the calls of `vx_ph` and of `vx_sh`.
#![tactic(auto)]
ghost use Rattle.std.specs.Prelude.{◌≡◌, ◌≤◌, false, length, IfOk};
ghost use Rattle.std.specs.Bool.{OnTrue};
ghost use Rattle.vx_layout.specs.Faults.{IsInLimits};
ghost use Rattle.vx_sh.specs.InForce.{in_force_at};
ghost use Rattle.vx_sh.specs.Value.{BeginsSlice};

use std::alloc::{AllocError, Global};
use std::time::Instant;
use vx_bits::{BitReader, IdList};
use vx_layout::{Layout, Numbers, Rect, RectList, tile_bounds};
use vx_ph::{PictureHeader, read_ph, write_ph};
use vx_pps::{Pps, read_pps};
use vx_sh::{SliceHeader, SliceNumbers, read_can_be_written, read_sh, write_sh};
use vx_sps::{Sps, read_sps};

const ROUNDS: u32 = 100_000;

// The sets of a picture, and what its headers are read at.
#[derive(Drop)]
struct Sets {
    sps: Sps,
    pps: Pps,
    layout: Layout,
    ids: IdList,
}

// Two CTUs side by side.
fn ctus(alloc: Global) -> Result<RectList, AllocError> {
    let mut rects = RectList::new(alloc);
    for x in 0..2 {
        rects.push(Rect { x, y: 0, w: 1, h: 1 })?;
    }
    Ok(rects)
}

// Returns whether numbers are within the limits of a picture.
fn is_in_limits(n: &Numbers) -> bool
    ensures { OnTrue result (IsInLimits n.now) }
{
    if n.columns.len() < 2 || n.rows.len() < 2 {
        return false;
    }
    if n.columns.last() > 512 || n.rows.last() > 512 {
        return false;
    }
    if n.slices.len() < 1 || n.slices.len() > 1000 {
        return false;
    }
    n.subpics.len() >= 1 && n.subpics.len() <= 1000
}

// Returns the layout of numbers, with an id for each subpicture.
fn layout_with(alloc: Global, numbers: Numbers, ids: &IdList) -> anyhow::Result<Layout>
    ensures { IfOk result (λ layout. length ids.now ≡ length layout.subpics) }
{
    if !is_in_limits(&numbers) {
        anyhow::bail!("too large");
    }
    if ids.len() != numbers.subpics.len() {
        anyhow::bail!("an id for each subpicture");
    }
    match Layout::new(alloc, numbers) {
        Ok(layout) => Ok(layout),
        Err(_) => anyhow::bail!("no layout"),
    }
}

// Returns a slice, a tile and a subpicture for each CTU.
fn numbers_of(alloc: Global) -> anyhow::Result<Numbers> {
    let Ok(columns) = tile_bounds(alloc, &[1], 2) else {
        anyhow::bail!("no columns");
    };
    let Ok(rows) = tile_bounds(alloc, &[1], 1) else {
        anyhow::bail!("no rows");
    };
    Ok(Numbers {
        columns,
        rows,
        slices: ctus(alloc)?,
        subpics: ctus(alloc)?,
    })
}

// All of it.
fn sets_of(alloc: Global, sps: &[u8], pps: &[u8]) -> anyhow::Result<Sets>
    ensures { IfOk result (λ s. length s.ids ≡ length s.layout.subpics) }
{
    if 50000 < sps.len() || 50000 < pps.len() {
        anyhow::bail!("too long");
    }
    let sps = read_sps(alloc, sps)?;
    let pps = read_pps(alloc, pps)?;
    let mut ids = IdList::new(alloc);
    ids.extend_from_slice(&[0, 1])?;
    let numbers = numbers_of(alloc)?;
    let layout = layout_with(alloc, numbers, &ids)?;
    Ok(Sets { sps, pps, layout, ids })
}

// Reads a picture header many times.
fn time_reading_ph(rt: &HostRuntime, sets: &Sets, rbsp: &[u8]) -> anyhow::Result<()> {
    if 50000 < rbsp.len() {
        anyhow::bail!("too long");
    }
    let start = Instant::now(rt)?;
    for _round in 0..ROUNDS {
        read_ph(rt.alloc(), &mut BitReader::new(rbsp), &sets.sps, &sets.pps)?;
    }
    let took = start.elapsed(rt)?.as_micros();
    println!(rt; "read_ph: {ROUNDS} times in {took} us")?;
    Ok(())
}

// Reads a picture header, and writes its unit.
fn both_ways_ph(alloc: Global, sets: &Sets, rbsp: &[u8]) -> anyhow::Result<Vec<u8>> {
    if 50000 < rbsp.len() {
        anyhow::bail!("too long");
    }
    let header = read_ph(alloc, &mut BitReader::new(rbsp), &sets.sps, &sets.pps)?;
    Ok(write_ph(alloc, &header, &sets.sps, &sets.pps)?)
}

// Reads and writes it many times.
fn time_both_ways_ph(rt: &HostRuntime, sets: &Sets, rbsp: &[u8]) -> anyhow::Result<()> {
    let start = Instant::now(rt)?;
    for _round in 0..ROUNDS {
        if both_ways_ph(rt.alloc(), sets, rbsp)?.len() != 2 {
            anyhow::bail!("another length");
        }
    }
    let took = start.elapsed(rt)?.as_micros();
    println!(rt; "read_ph and write_ph: {ROUNDS} times in {took} us")?;
    Ok(())
}

// Returns the bytes of a slice header that was read.
fn write(alloc: Global, rbsp: &[u8], numbers: &SliceNumbers<'_>, slice: &SliceHeader, size: usize) -> Result<Vec<u8>, AllocError>
    requires read { BeginsSlice (in_force_at numbers.now) rbsp.now slice.now size }
    requires apart { slice.now.inside ≡ false }
    requires few { length numbers.now.ids.now ≤ 1000 }
    requires one_each { length numbers.now.ids.now ≡ length numbers.now.layout.now.subpics }
{
    read_can_be_written();
    write_sh(alloc, slice, numbers)
}

// Reads a slice header, and writes it.
fn both_ways(alloc: Global, rbsp: &[u8], numbers: &SliceNumbers<'_>) -> anyhow::Result<Vec<u8>>
    requires size { length rbsp.now ≤ 1000 }
    requires few { length numbers.now.ids.now ≤ 1000 }
    requires one_each { length numbers.now.ids.now ≡ length numbers.now.layout.now.subpics }
{
    let (slice, size) = read_sh(alloc, rbsp, numbers)?;
    if slice.inside {
        anyhow::bail!("a picture header inside");
    }
    Ok(write(alloc, rbsp, numbers, &slice, size)?)
}

// Reads a slice header many times.
fn time_reading_sh(rt: &HostRuntime, rbsp: &[u8], numbers: &SliceNumbers<'_>) -> anyhow::Result<()>
    requires size { length rbsp.now ≤ 1000 }
    requires few { length numbers.now.ids.now ≤ 1000 }
    requires one_each { length numbers.now.ids.now ≡ length numbers.now.layout.now.subpics }
{
    let start = Instant::now(rt)?;
    for _round in 0..ROUNDS {
        read_sh(rt.alloc(), rbsp, numbers)?;
    }
    let took = start.elapsed(rt)?.as_micros();
    println!(rt; "read_sh: {ROUNDS} times in {took} us")?;
    Ok(())
}

// Reads and writes it many times.
fn time_both_ways(rt: &HostRuntime, rbsp: &[u8], numbers: &SliceNumbers<'_>) -> anyhow::Result<()>
    requires size { length rbsp.now ≤ 1000 }
    requires few { length numbers.now.ids.now ≤ 1000 }
    requires one_each { length numbers.now.ids.now ≡ length numbers.now.layout.now.subpics }
{
    let start = Instant::now(rt)?;
    for _round in 0..ROUNDS {
        if both_ways(rt.alloc(), rbsp, numbers)?.len() != 1 {
            anyhow::bail!("another length");
        }
    }
    let took = start.elapsed(rt)?.as_micros();
    println!(rt; "read_sh and write_sh: {ROUNDS} times in {took} us")?;
    Ok(())
}

// Times both calls.
fn time_slices(rt: &HostRuntime, sets: &Sets, header: &PictureHeader, rbsp: &[u8]) -> anyhow::Result<()>
    requires { length sets.now.ids ≡ length sets.now.layout.subpics }
{
    if 1000 < sets.ids.len() || 1000 < rbsp.len() {
        anyhow::bail!("too long");
    }
    let numbers = SliceNumbers {
        nal_type: 8,
        sps: &sets.sps,
        pps: &sets.pps,
        header,
        layout: &sets.layout,
        ids: &sets.ids,
    };
    time_reading_sh(rt, rbsp, &numbers)?;
    time_both_ways(rt, rbsp, &numbers)
}

fn main(rt: HostRuntime) -> anyhow::Result<()> {
    let sps: &[u8] = &[
        0x00, 0x03, 0x02, 0x33, 0x80, 0x00, 0x00, 0x40, 0x81, 0x05, 0x53, 0x40, 0x07, 0xbc, 0x00,
        0x60, 0x0c, 0x10, 0x00, 0x20,
    ];
    let pps: &[u8] = &[
        0x00, 0x00, 0x20, 0x40, 0x82, 0x05, 0x7a, 0x53, 0x08, 0x01,
    ];
    let sets = sets_of(rt.alloc(), sps, pps)?;
    let header = read_ph(rt.alloc(), &mut BitReader::new(&[0x88, 0x40]), &sets.sps, &sets.pps)?;
    time_reading_ph(&rt, &sets, &[0x88, 0x40])?;
    time_both_ways_ph(&rt, &sets, &[0x88, 0x40])?;
    time_slices(&rt, &sets, &header, &[0x18, 0x5a, 0xa7, 0x80])
}
RT

run_bench
