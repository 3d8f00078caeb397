//! Two taps of one line joined: the archive against plain Rust, and against a copy of as many bytes.

#[path = "../tests/join_archive.rs"]
mod join_archive;
#[path = "../tests/join_oracle.rs"]
mod join_oracle;
#[path = "../tests/oracles.rs"]
mod oracles;
#[allow(dead_code)]
mod recordings;
mod rounds;

use recordings::{frame, head, row, silent, SILENCE};
use rounds::{by_turns, Measured};
use std::hint::black_box;

const TICKS: usize = 1_000_000;
const CALLS: usize = 5;

/// What a tap recorded of a line: of 100 ticks it misses 3 and damages 2, drawn by its seed.
fn tap(line: &[u8], mut seed: u32) -> Vec<u8> {
    let mut recorded = line.to_vec();
    for tick in recorded.chunks_exact_mut(2).filter(|tick| tick[0] != 0) {
        seed ^= seed << 13;
        seed ^= seed >> 17;
        seed ^= seed << 5;
        match seed % 100 {
            0..3 => tick.copy_from_slice(&SILENCE),
            3..5 => *tick.first_mut().expect("two bytes") = 0x40 + 0x20 * (seed / 100 % 3) as u8,
            _ => {}
        }
    }
    recorded
}

/// Frames with so many silent ticks behind each.
fn line(gap: usize) -> Vec<u8> {
    (0..=u8::MAX)
        .cycle()
        .flat_map(|command| {
            [
                frame(&[0x82, 0xA6, 0x12, 0x34, 0x56, 0x78, command, 0]),
                silent(gap),
            ]
            .concat()
        })
        .take(2 * TICKS)
        .collect()
}

/// Sees that both join to the line, measures them by turns, and then the archive and a copy.
fn measure(name: &str, line: &[u8]) -> Measured {
    let (first, second) = (tap(line, 1), tap(line, 2));
    let (mut out, mut other) = (vec![0; line.len()], vec![0; line.len()]);
    let (mut tick, mut other_tick) = (0, 0);
    assert!(join_archive::join(&first, &second, &mut out, &mut tick) == 0);
    assert!(join_oracle::join(&first, &second, &mut other, &mut other_tick) == 0);
    assert!(out == other, "{name}: they differ");
    let measured = by_turns(
        CALLS,
        || {
            join_archive::join(
                black_box(&first),
                black_box(&second),
                black_box(&mut out),
                &mut tick,
            );
        },
        || {
            join_oracle::join(
                black_box(&first),
                black_box(&second),
                black_box(&mut other),
                &mut other_tick,
            );
        },
    );
    row(name, TICKS, &measured);
    by_turns(
        CALLS,
        || {
            join_archive::join(
                black_box(&first),
                black_box(&second),
                black_box(&mut out),
                &mut tick,
            );
        },
        || black_box(&mut other).copy_from_slice(black_box(&first)),
    )
}

fn main() {
    head();
    let lines = [
        ("busy", line(2)),
        ("mixed", line(30)),
        ("silent", silent(TICKS)),
    ];
    let copies = lines.map(|(name, line)| (name, measure(name, &line)));
    println!("beside a copy of the joined bytes");
    for (name, measured) in copies {
        row(name, TICKS, &measured);
    }
}
