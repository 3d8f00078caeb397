//! Compares the compiled join of two taps with the one in plain Rust: all pairs of ticks of a few
//! characters, random taps of one recording, and each refusal, with the bytes of the buffer behind the
//! joined recording and the tick of 23. Then it runs the cases of tests/data/item-10, which others made.

#[allow(dead_code)]
mod frames;
mod join_archive;
mod join_oracle;
#[path = "oracles.rs"]
mod oracles;

use frames::Xorshift;
use std::process::ExitCode;

/// What stands in a buffer, and in the place of the tick, before a call.
const PATTERN: u8 = 0xA5;
const NO_TICK: usize = 0xA5A5;

#[derive(Default)]
struct Compared {
    calls: u64,
    differences: u64,
    answers: std::collections::BTreeMap<u32, u64>,
}

impl Compared {
    fn check(&mut self, same: bool, what: &str) {
        self.calls += 1;
        if !same {
            self.differences += 1;
            println!("different: {what}");
        }
    }

    /// One call of each; the joined recording where it is one.
    fn call(&mut self, first: &[u8], second: &[u8], room: usize) -> Option<Vec<u8>> {
        let (mut given, mut wanted) = (vec![PATTERN; room], vec![PATTERN; room]);
        let (mut tick, mut wanted_tick) = (NO_TICK, NO_TICK);
        let a = join_archive::join(first, second, &mut given, &mut tick);
        let b = join_oracle::join(first, second, &mut wanted, &mut wanted_tick);
        *self.answers.entry(b).or_default() += 1;
        self.check(
            a == b && tick == wanted_tick && given == wanted,
            &format!("{first:02x?} and {second:02x?}, {room} bytes: {a}, wanted {b}"),
        );
        given.truncate(first.len());
        (a == 0).then_some(given)
    }

    /// A stored case: room, taps, answer, tick and joined recording.
    fn stored(&mut self, line: &str) {
        let fields: Vec<&str> = line.split('|').collect();
        let [name, room, first, second, answer, tick, joined] = fields[..] else {
            panic!("no case: {line}");
        };
        let room = room.parse().expect("a room");
        let mut wanted = vec![PATTERN; room];
        if answer == "0" {
            let joined = bytes(joined);
            wanted[..joined.len()].copy_from_slice(&joined);
        }
        let mut given = vec![PATTERN; room];
        let mut named = NO_TICK;
        let a = join_archive::join(&bytes(first), &bytes(second), &mut given, &mut named);
        self.check(
            a.to_string() == answer && named == tick.parse().unwrap_or(NO_TICK) && given == wanted,
            name,
        );
    }
}

/// The bytes of a field in hex; - has none.
fn bytes(field: &str) -> Vec<u8> {
    let digits: Vec<u32> = field.chars().filter_map(|c| c.to_digit(16)).collect();
    digits
        .chunks(2)
        .map(|two| (two[0] * 16 + two[1]) as u8)
        .collect()
}

/// A tick that a recording may have.
fn tick(random: &mut Xorshift) -> [u8; 2] {
    match random.below(5) as u8 {
        0 => [0, 0],
        kind => [kind << 5, random.byte()],
    }
}

/// What a tap has of a recording: some characters are missed, some damaged.
fn tap(random: &mut Xorshift, line: &[[u8; 2]]) -> Vec<u8> {
    let heard = |&[kind, c]: &[u8; 2]| match random.below(8) {
        0 => [0, 0],
        1 => [0x40 + 0x20 * random.below(3) as u8, random.byte()],
        _ => [kind, c],
    };
    line.iter().flat_map(heard).collect()
}

/// Each kind with each of a few characters, in both taps, good or not.
fn pairs(compared: &mut Compared) {
    let kinds = [0x00, 0x20, 0x40, 0x60, 0x80, 0xA0, 0xE0, 0x01, 0x21, 0x90];
    let ticks: Vec<[u8; 2]> = kinds
        .iter()
        .flat_map(|&kind| [0x00, 0x07, 0xFF].map(|c| [kind, c]))
        .collect();
    for first in &ticks {
        for second in &ticks {
            for room in [1, 2, 3] {
                compared.call(first, second, room);
            }
        }
    }
}

/// Taps of one recording: the joined one is joined again with either, with itself and with silence.
fn taps_of_one(compared: &mut Compared, random: &mut Xorshift) {
    let ticks = random.below(200);
    let line: Vec<[u8; 2]> = (0..ticks)
        .map(|_| match random.below(3) {
            0 => [0, 0],
            _ => [join_oracle::CHARACTER, random.byte()],
        })
        .collect();
    let (first, second) = (tap(random, &line), tap(random, &line));
    let joined = compared.call(&first, &second, 2 * ticks + random.below(4));
    let joined = joined.expect("taps of one recording");
    for other in [&first, &second, &joined, &vec![0; 2 * ticks]] {
        let again = compared.call(&joined, other, 2 * ticks);
        compared.check(again.as_ref() == Some(&joined), "joined again");
    }
}

/// Recordings of any ticks, now and then cut, spoiled or without room.
fn any_taps(compared: &mut Compared, random: &mut Xorshift) {
    let ticks = random.below(40);
    let mut any = || -> Vec<u8> { (0..ticks).flat_map(|_| tick(random)).collect() };
    let (mut first, mut second) = (any(), any());
    match random.below(8) {
        0 => first.truncate(random.below(first.len() + 1)),
        1 => second.truncate(random.below(second.len() + 1)),
        2 if ticks > 0 => first[random.below(2 * ticks)] = random.byte(),
        3 if ticks > 0 => second[random.below(2 * ticks)] = random.byte(),
        4..6 => {
            second = first
                .iter()
                .map(|&byte| if byte == 0x20 { 0x40 } else { byte })
                .collect()
        }
        _ => {}
    }
    let room = match random.below(4) {
        0 => random.below(2 * ticks + 1),
        _ => 2 * ticks + random.below(3),
    };
    compared.call(&first, &second, room);
}

fn main() -> ExitCode {
    let mut compared = Compared::default();
    pairs(&mut compared);
    let mut random = Xorshift(0x2545_F491_4F6C_DD1D);
    for _ in 0..3_000 {
        taps_of_one(&mut compared, &mut random);
    }
    for _ in 0..30_000 {
        any_taps(&mut compared, &mut random);
    }
    let text = include_str!("data/item-10/cases.txt");
    let mut cases = 0;
    for line in text.lines().filter(|line| !line.starts_with('#')) {
        compared.stored(line);
        cases += 1;
    }
    let answers: Vec<u32> = compared.answers.keys().copied().collect();
    println!(
        "join_compare: {} comparisons with answers {answers:?}, {cases} stored cases, {} differences",
        compared.calls, compared.differences
    );
    if compared.differences == 0 && cases == 95 && answers == [0, 15, 21, 22, 23] {
        ExitCode::SUCCESS
    } else {
        ExitCode::FAILURE
    }
}
