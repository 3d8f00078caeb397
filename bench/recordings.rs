//! Recordings of the line, two bytes for each tick, and the row of a table that compares two runs
//! over one.

#[path = "../tests/frames.rs"]
#[allow(dead_code)]
mod frames;

use crate::rounds::{by_turns, Measured};
use frames::{sealed, Xorshift};
use std::hint::black_box;

pub const SILENCE: [u8; 2] = [0, 0];
const CHARACTER: u8 = 0x20;

pub type Run = fn(&[u8], &mut [u8]) -> usize;

/// Five preambles, the bytes from delimiter to the last data byte, and the check byte.
pub fn frame(body: &[u8]) -> Vec<u8> {
    sealed(5, body)
        .into_iter()
        .flat_map(|byte| [CHARACTER, byte])
        .collect()
}

pub fn silent(ticks: usize) -> Vec<u8> {
    SILENCE.repeat(ticks)
}

/// Every kind and every character, at random.
pub fn noise(ticks: usize) -> Vec<u8> {
    Xorshift(0x2545_F491_4F6C_DD1D).bytes(2 * ticks)
}

pub fn head() {
    println!("                   million ticks/s  throughput archive/oracle");
    println!("line               archive  oracle  median  smallest  largest");
}

/// Sees that both give the same numbers, measures the two by turns and prints one row.
pub fn compare(name: &str, calls: usize, archive: Run, oracle: Run, recording: &[u8]) {
    let ticks = recording.len() / 2;
    let mut archive_events = vec![0; ticks];
    let mut oracle_events = vec![0; ticks];
    archive(recording, &mut archive_events);
    oracle(recording, &mut oracle_events);
    assert!(archive_events == oracle_events, "{name}: they differ");
    let measured = by_turns(
        calls,
        || {
            black_box(archive(
                black_box(recording),
                black_box(&mut archive_events),
            ));
        },
        || {
            black_box(oracle(black_box(recording), black_box(&mut oracle_events)));
        },
    );
    row(name, ticks, &measured);
}

pub fn row(name: &str, ticks: usize, measured: &Measured) {
    let millions = |nanoseconds: f64| ticks as f64 / nanoseconds * 1e3;
    println!(
        "{:<17}  {:>7.1}  {:>6.1}  {:>6.2}  {:>8.2}  {:>7.2}",
        name,
        millions(measured.archive),
        millions(measured.oracle),
        measured.median,
        measured.smallest,
        measured.largest,
    );
}
