//! Compares the archive's list of a recording with the lists in plain Rust, by jumps and by the tick
//! reader, and with the archive's own nengapiko_ticks: over the cases of tests/data/item-09, which were
//! worked out by others, and over random recordings, the same in every run: busy, with gaps, damaged,
//! cut, of noise, and with bytes that no recording has. The room is exact, a byte short, ample for one
//! pass, and none; the bytes behind the list, and all of them where it is refused, must stay.

mod called;
#[allow(dead_code)]
mod frames;
mod line_archive;
mod list_archive;
#[path = "oracles.rs"]
mod oracles;

use frames::{body, delimiter, sealed, Xorshift};
use oracles::list_oracle::{by_jumps, by_ticks, is_bad, ENTRY};
use oracles::tick_oracle;
use std::process::ExitCode;

const PATTERN: u8 = 0xA5;
const NO_ENTRIES: usize = usize::MAX;
const RECORDINGS: u64 = 40_000;

const BAD_RECORDING: u32 = 21;
const BUFFER_SHORT: u32 = 15;

/// Whether the archive answers as it must with this room.
fn lists(recording: &[u8], room: usize, refusal: u32, list: &[u8]) -> bool {
    let mut out = vec![PATTERN; room];
    let mut entries = NO_ENTRIES;
    let answer = list_archive::list(recording, &mut out, &mut entries);
    let mut expected = vec![PATTERN; room];
    let mut number = NO_ENTRIES;
    if refusal == 0 {
        expected[..list.len()].copy_from_slice(list);
        number = list.len() / ENTRY;
    }
    answer == refusal && out == expected && entries == number
}

/// With every room that makes a difference.
fn differs(recording: &[u8]) -> bool {
    let ample = (recording.len() / 4 + 1) * ENTRY;
    if is_bad(recording) {
        return [0, ENTRY, ample]
            .iter()
            .any(|&room| !lists(recording, room, BAD_RECORDING, &[]));
    }
    let list = by_jumps(recording);
    let mut events = vec![0; recording.len() / 2];
    tick_oracle::ticks(recording, &mut events);
    if by_ticks(&events) != list {
        return true;
    }
    line_archive::ticks(recording, &mut events);
    let short = list.len() > 0 && !lists(recording, list.len() - 1, BUFFER_SHORT, &[]);
    let none = list.len() > 0 && !lists(recording, 0, BUFFER_SHORT, &[]);
    let taken = [list.len(), list.len() + 5, ample + 3]
        .iter()
        .all(|&room| lists(recording, room, 0, &list));
    by_ticks(&events) != list || short || none || !taken
}

fn bytes_of(hex: &str) -> Vec<u8> {
    let digits = hex.as_bytes().chunks_exact(2);
    digits
        .filter(|_| hex != "-")
        .map(|two| u8::from_str_radix(std::str::from_utf8(two).unwrap(), 16).unwrap())
        .collect()
}

/// A case: name, room, recording, 0 or the refusal's number, list.
fn case_differs(case: &str) -> bool {
    let fields: Vec<&str> = case.split('|').collect();
    let [_, room, recording, refusal, list] = fields[..] else {
        panic!("a case has five fields: {case}");
    };
    let (room, refusal) = (room.parse().unwrap(), refusal.parse().unwrap());
    !lists(&bytes_of(recording), room, refusal, &bytes_of(list))
}

struct Odds {
    gap: usize,
    damage: usize,
    other: usize,
    cut: usize,
}

fn one_in(random: &mut Xorshift, odds: usize) -> bool {
    odds > 0 && random.below(odds) == 0
}

/// A frame's ticks, with single silent ticks, damage, other characters and a cut so often.
fn frame(random: &mut Xorshift, odds: &Odds) -> Vec<u8> {
    let count = random.pick(&[0, 1, 2, 3, 14, 60, 255]);
    let delimiter = delimiter(random);
    let preambles = 1 + random.below(7);
    let characters = sealed(preambles, &body(random, delimiter, count));
    let kept = if one_in(random, odds.cut) {
        random.below(characters.len() + 1)
    } else {
        characters.len()
    };
    let mut ticks = Vec::new();
    for character in &characters[..kept] {
        if one_in(random, odds.gap) {
            ticks.extend([0, 0]);
        }
        let kind = if one_in(random, odds.damage) {
            random.pick(&[0x40, 0x60, 0x80])
        } else {
            0x20
        };
        let other = one_in(random, odds.other);
        ticks.extend([kind, if other { random.byte() } else { *character }]);
    }
    ticks
}

fn recording(random: &mut Xorshift, odds: &Odds) -> Vec<u8> {
    let mut ticks = [0, 0].repeat(random.below(3));
    for _ in 0..random.below(6) {
        ticks.extend(frame(random, odds));
        ticks.extend([0, 0].repeat(random.pick(&[0, 0, 1, 1, 2, 3, 9])));
    }
    ticks
}

/// Ticks of every kind, mostly 0xFF, delimiters and small numbers.
fn noise(random: &mut Xorshift) -> Vec<u8> {
    let ticks = random.below(60);
    let mut bytes = Vec::new();
    for _ in 0..ticks {
        let character = random.pick(&[0xFF, 0xFF, 0xFF, 0x02, 0x06, 0x82, 0, 1, 2]);
        bytes.extend(match random.below(8) {
            0 => [0, 0],
            1 => [random.pick(&[0x40, 0x60, 0x80]), character],
            _ => [0x20, character],
        });
    }
    bytes
}

/// The same with a byte that may make it bad, or one byte less.
fn spoilt(random: &mut Xorshift, mut recording: Vec<u8>) -> Vec<u8> {
    if recording.is_empty() || random.flag() {
        recording.push(random.byte());
        return recording;
    }
    let at = random.below(recording.len());
    recording[at] = random.byte();
    recording
}

fn main() -> ExitCode {
    let mut differences = 0u64;
    let cases = include_str!("data/item-09/lists.txt");
    let cases: Vec<&str> = cases.lines().filter(|line| !line.starts_with('#')).collect();
    for case in &cases {
        differences += u64::from(case_differs(case));
    }
    let odds = [
        Odds { gap: 0, damage: 0, other: 0, cut: 0 },
        Odds { gap: 12, damage: 0, other: 0, cut: 0 },
        Odds { gap: 3, damage: 0, other: 0, cut: 0 },
        Odds { gap: 0, damage: 20, other: 0, cut: 0 },
        Odds { gap: 20, damage: 40, other: 40, cut: 4 },
        Odds { gap: 0, damage: 0, other: 25, cut: 2 },
    ];
    let mut random = Xorshift(0x9E37_79B9_7F4A_7C15);
    let mut ticks = 0;
    for number in 0..RECORDINGS {
        let mut recording = match random.below(odds.len() + 1) {
            kind if kind < odds.len() => recording(&mut random, &odds[kind]),
            _ => noise(&mut random),
        };
        if number % 16 == 0 {
            recording = spoilt(&mut random, recording);
        }
        ticks += recording.len() / 2;
        differences += u64::from(differs(&recording));
    }
    println!(
        "lists: {} cases and {RECORDINGS} recordings of {ticks} ticks, {differences} differences",
        cases.len()
    );
    ExitCode::from(u8::from(differences > 0))
}
