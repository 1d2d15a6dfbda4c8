#!/bin/bash
# Measures how long it takes to read and to write the SPS (20 bytes) and the PPS (10 bytes) of a picture of two subpictures
# (128 x 64 samples), in an optimised build. Not a test, because times depend on the machine.
# Usage: scripts/bench-sets.sh   (in the top folder of the repository; first proves what it runs, with the command in RT, by default rt)
set -euo pipefail
work=$(mktemp -d)
trap 'rm -rf "$work"' EXIT

# A program that measures the time around the calls.
. scripts/bench-crate.sh
bench_crate bench_sets 'vx_bits vx_sps vx_pps anyhow' \
    vx_bits vx_fields vx_table vx_ptl vx_rpl vx_layout vx_sps vx_pps

# The two functions that time a set of this kind.
timings() {
    cat <<RT

// Reads the set many times.
fn time_reading_$1(rt: &HostRuntime, rbsp: &[u8]) -> anyhow::Result<()> {
    if 50000 < rbsp.len() {
        anyhow::bail!("too long");
    }
    let start = Instant::now(rt)?;
    for _round in 0..ROUNDS {
        read_$1(rt.alloc(), rbsp)?;
    }
    let took = start.elapsed(rt)?.as_micros();
    println!(rt; "read_$1: {ROUNDS} times in {took} us")?;
    Ok(())
}

// Writes it many times.
fn time_writing_$1(rt: &HostRuntime, rbsp: &[u8]) -> anyhow::Result<()> {
    if 50000 < rbsp.len() {
        anyhow::bail!("too long");
    }
    let set = read_$1(rt.alloc(), rbsp)?;
    let start = Instant::now(rt)?;
    for _round in 0..ROUNDS {
        if write_$1(rt.alloc(), &set)?.len() != rbsp.len() {
            anyhow::bail!("another length");
        }
    }
    let took = start.elapsed(rt)?.as_micros();
    println!(rt; "write_$1: {ROUNDS} times in {took} us")?;
    Ok(())
}
RT
}

{
    cat <<'RT'
//! Times the calls of `vx_sps` and of `vx_pps`.
#![tactic(auto)]

use std::time::Instant;
use vx_pps::{read_pps, write_pps};
use vx_sps::{read_sps, write_sps};

const ROUNDS: u32 = 10_000;
RT
    timings sps
    timings pps
    cat <<'RT'

fn main(rt: HostRuntime) -> anyhow::Result<()> {
    let sps: &[u8] = &[
        0x00, 0x03, 0x02, 0x33, 0x80, 0x00, 0x00, 0x40, 0x81, 0x05, 0x53, 0x40, 0x07, 0xbc, 0x00,
        0x60, 0x0c, 0x10, 0x00, 0x20,
    ];
    let pps: &[u8] = &[
        0x00, 0x00, 0x20, 0x40, 0x82, 0x05, 0x7a, 0x53, 0x08, 0x01,
    ];
    time_reading_sps(&rt, sps)?;
    time_writing_sps(&rt, sps)?;
    time_reading_pps(&rt, pps)?;
    time_writing_pps(&rt, pps)
}
RT
} > "$bench/src/main.rt"

run_bench
