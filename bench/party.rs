//! Ticks per second of a master and of a device of libnengapiko.a over long recordings, one call a tick,
//! against the oracles in plain Rust, a master in plain C, and the same in plain C whose state stands in
//! words.

#[path = "../tests/called.rs"]
mod called;
#[path = "../tests/calls.rs"]
mod calls;
#[path = "../tests/oracles.rs"]
mod oracles;
#[path = "../tests/engine_archive.rs"]
mod engine_archive;
#[path = "../tests/ticked.rs"]
mod ticked;
mod recordings;
mod rounds;

use called::over;
use oracles::{device_oracle, master_oracle};
use recordings::{compare, frame, head, noise, silent, Run, SILENCE};

#[link(name = "plain_master", kind = "static")]
extern "C" {
    fn plain_master_ticks(from: *const u8, size: usize, to: *mut u8, room: usize) -> usize;
    fn plain_words_ticks(from: *const u8, size: usize, to: *mut u8, room: usize) -> usize;
}

fn plain_c(recording: &[u8], events: &mut [u8]) -> usize {
    over(plain_master_ticks, recording, events)
}

fn plain_c_words(recording: &[u8], events: &mut [u8]) -> usize {
    over(plain_words_ticks, recording, events)
}

const TICKS: usize = 200_000;
const CALLS: usize = 1;

const CALL: [u8; 2] = [1, 0];

/// The master's STX and the device's ACK have so many characters.
const STX_LENGTH: usize = 14;
const ACK_LENGTH: usize = 16;

/// Requests directly behind each other, each answered: what a master hears in each tick.
fn busy_master() -> Vec<u8> {
    let mut ticks = CALL.to_vec();
    ticks.extend(SILENCE.repeat(32));
    while ticks.len() < 2 * TICKS {
        // it sends, hears a silent tick, the answer, and silence until its window
        ticks.extend(SILENCE.repeat(STX_LENGTH + 2));
        ticks.extend(frame(&[0x86, 0x80, 0, 0, 0, 2, 3, 4, 0, 0, 1, 2]));
        let told = ticks.len() - 2;
        ticks[told] |= CALL[0];
        ticks.extend(SILENCE.repeat(8));
    }
    ticks.truncate(2 * TICKS);
    ticks
}

/// Requests to a device, each answered in the tick behind it: what it hears in each tick.
fn busy_device() -> Vec<u8> {
    let mut ticks = SILENCE.repeat(2);
    while ticks.len() < 2 * TICKS {
        ticks.extend(frame(&[0x82, 0x80, 0, 0, 0, 2, 3, 0]));
        ticks.extend(CALL);
        ticks.extend(SILENCE.repeat(ACK_LENGTH + 8));
    }
    ticks.truncate(2 * TICKS);
    ticks
}

/// A call in every tick.
fn called_always() -> Vec<u8> {
    CALL.repeat(TICKS)
}

/// A master's lines, and a device's.
fn masters(name: &str, archive: Run, other: Run) {
    let lines = [
        ("busy", busy_master()),
        ("unanswered", called_always()),
        ("silent", silent(TICKS)),
        ("noise", noise(TICKS)),
    ];
    for (line, recording) in lines {
        compare(&format!("{name} {line}"), CALLS, archive, other, &recording);
    }
}

fn devices(name: &str, archive: Run, other: Run) {
    let lines = [
        ("busy", busy_device()),
        ("silent", silent(TICKS)),
        ("noise", noise(TICKS)),
    ];
    for (line, recording) in lines {
        compare(&format!("{name} {line}"), CALLS, archive, other, &recording);
    }
}

fn main() {
    head();
    println!("against the oracles");
    masters("master", ticked::master, master_oracle::ticks);
    devices("device", ticked::device, device_oracle::ticks);
    println!("against plain C");
    masters("master", ticked::master, plain_c);
    println!("against plain C over words");
    masters("master", ticked::master, plain_c_words);
    println!("plain C over words, against a struct");
    masters("master", plain_c_words, plain_c);
}
