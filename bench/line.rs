//! Ticks per second of the tick reader over long recordings, through the archive and by the oracle
//! in plain Rust. The events show neither fields nor data of a frame, so the compiler need not keep
//! them up on either side.

#[path = "../tests/called.rs"]
mod called;
#[path = "../tests/line_archive.rs"]
mod line_archive;
#[path = "../tests/oracles.rs"]
mod oracles;
mod recordings;
mod rounds;

use oracles::tick_oracle;
use recordings::{frame, head, noise, silent, SILENCE};

const TICKS: usize = 1_000_000;
const CALLS: usize = 5;

/// A request by unique address and its answer with 12 data bytes, with the silence around them.
fn transaction(command: u8) -> Vec<u8> {
    let request = [0x82, 0xA6, 0x12, 0x34, 0x56, 0x78, command, 0];
    let mut answer = [0; 20];
    answer[..8].copy_from_slice(&[0x86, 0xA6, 0x12, 0x34, 0x56, 0x78, command, 12]);
    for (at, byte) in answer[8..].iter_mut().enumerate() {
        *byte = (at as u8).wrapping_mul(37) ^ command;
    }
    let mut ticks = SILENCE.repeat(8);
    ticks.extend(frame(&request));
    ticks.extend(SILENCE.repeat(2));
    ticks.extend(frame(&answer));
    ticks
}

fn busy() -> Vec<u8> {
    (0..=u8::MAX)
        .cycle()
        .flat_map(transaction)
        .take(2 * TICKS)
        .collect()
}

fn main() {
    head();
    let compare = |name, recording: &[u8]| {
        recordings::compare(
            name,
            CALLS,
            line_archive::ticks,
            tick_oracle::ticks,
            recording,
        );
    };
    compare("busy", &busy());
    compare("silent", &silent(TICKS));
    compare("noise", &noise(TICKS));
}
