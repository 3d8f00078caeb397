//! Ticks per second of the list of a recording, document 02, item 9: with room for one pass and with the
//! exact room, which takes two, beside the archive's tick reader and plain Rust by jumps in one pass. All
//! are measured by turns in one process, in processor time; the tick reader writes an event for each
//! tick and no list.

#[path = "../tests/called.rs"]
mod called;
#[path = "../tests/line_archive.rs"]
mod line_archive;
#[path = "../tests/list_archive.rs"]
mod list_archive;
#[path = "../tests/oracles.rs"]
mod oracles;
#[allow(dead_code)]
mod recordings;
mod rounds;

use oracles::list_oracle::{by_jumps, is_bad, ENTRY};
use recordings::{frame, silent, SILENCE};
use rounds::median;
use std::hint::black_box;

const TICKS: usize = 1_000_000;
const CALLS: usize = 3;
const ROUNDS: usize = 15;

/// So many ticks of what a number makes, over and over.
fn line(part: impl Fn(usize) -> Vec<u8>) -> Vec<u8> {
    (0..).flat_map(part).take(2 * TICKS).collect()
}

/// An ACK by unique address with so many data bytes.
fn answer(number: usize, count: u8) -> Vec<u8> {
    let command = number as u8;
    let mut body = vec![0x86, 0xA6, 0x12, 0x34, 0x56, 0x78, command, count];
    body.extend((0..count).map(|at| at.wrapping_mul(37) ^ command));
    frame(&body)
}

/// A request and its answer with 12 data bytes, with the silence around them.
fn transaction(number: usize) -> Vec<u8> {
    let mut ticks = SILENCE.repeat(8);
    ticks.extend(frame(&[0x82, 0xA6, 0x12, 0x34, 0x56, 0x78, number as u8, 0]));
    ticks.extend(SILENCE.repeat(2));
    ticks.extend(answer(number, 12));
    ticks
}

fn long(number: usize) -> Vec<u8> {
    [SILENCE.repeat(2), answer(number, 255)].concat()
}

/// The same with a silent tick before each twentieth character.
fn gapped(number: usize) -> Vec<u8> {
    let mut ticks = SILENCE.repeat(2);
    for (at, character) in answer(number, 255).chunks_exact(2).enumerate() {
        if at % 20 == 19 {
            ticks.extend(SILENCE);
        }
        ticks.extend(character);
    }
    ticks
}

/// Any character, of each kind, one tick in five silent.
fn noise(number: usize) -> Vec<u8> {
    let mixed = (number as u64).wrapping_mul(0x9E37_79B9_7F4A_7C15) >> 32;
    let kind = (mixed % 5) as u8;
    vec![kind << 5, if kind == 0 { 0 } else { (mixed >> 8) as u8 }]
}

/// The worst line: short requests that say 255 data bytes and are cut behind the byte count, so that the
/// search for 256 characters at once is in vain every eight ticks.
fn cut(_: usize) -> Vec<u8> {
    let mut ticks: Vec<u8> = [0xFF, 0xFF, 0x02, 0x80, 0x00, 0xFF]
        .into_iter()
        .flat_map(|character| [0x20, character])
        .collect();
    ticks.extend(SILENCE.repeat(2));
    ticks
}

#[repr(C)]
struct Time {
    seconds: i64,
    nanoseconds: i64,
}

extern "C" {
    fn clock_gettime(clock: i32, time: *mut Time) -> i32;
}

const PROCESS_TIME: i32 = 2;

/// Nanoseconds of processor time of one call.
fn nanoseconds(mut call: impl FnMut()) -> f64 {
    let now = || {
        let mut time = Time {
            seconds: 0,
            nanoseconds: 0,
        };
        // SAFETY: the time outlives the call, and is as the C library has it on this target.
        unsafe { clock_gettime(PROCESS_TIME, &mut time) };
        time.seconds as f64 * 1e9 + time.nanoseconds as f64
    };
    let start = now();
    for _ in 0..CALLS {
        call();
    }
    (now() - start) / CALLS as f64
}

fn measure(name: &str, recording: &[u8]) {
    assert!(!is_bad(recording));
    let list = by_jumps(recording);
    let mut ample = vec![0; (recording.len() / 4 + 1) * ENTRY];
    let mut exact = vec![0; list.len()];
    let mut events = vec![0; recording.len() / 2];
    let mut entries = 0;
    let mut times: [Vec<f64>; 4] = Default::default();
    for _ in 0..ROUNDS {
        times[0].push(nanoseconds(|| {
            black_box(list_archive::list(black_box(recording), &mut ample, &mut entries));
        }));
        times[1].push(nanoseconds(|| {
            black_box(list_archive::list(black_box(recording), &mut exact, &mut entries));
        }));
        times[2].push(nanoseconds(|| {
            black_box(line_archive::ticks(black_box(recording), &mut events));
        }));
        times[3].push(nanoseconds(|| {
            black_box((!is_bad(black_box(recording))).then(|| by_jumps(recording)));
        }));
    }
    assert!(exact == list && ample[..list.len()] == list, "{name}: they differ");
    let ratio = |of: usize, to: usize| median((0..ROUNDS).map(|i| times[to][i] / times[of][i]).collect());
    let millions = |row: usize| recording.len() as f64 / 2.0 / median(times[row].clone()) * 1e3;
    println!(
        "{name:<12}  {:>8.0}  {:>8.0}  {:>11.0}  {:>6.0}  {:>10.2}  {:>10.2}  {:>9.2}",
        millions(0),
        millions(1),
        millions(2),
        millions(3),
        ratio(0, 2),
        ratio(1, 2),
        ratio(0, 3),
    );
}

fn main() {
    println!("              million ticks/s                          throughput, medians");
    println!("line          one pass  two pass  tick reader   plain  one/reader  two/reader  one/plain");
    measure("busy", &line(transaction));
    measure("long frames", &line(long));
    measure("gapped", &line(gapped));
    measure("silent", &silent(TICKS));
    measure("noise", &line(noise));
    measure("cut frames", &line(cut));
}
