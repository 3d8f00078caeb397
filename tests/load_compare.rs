//! Compares the compiled writer of loads with the one in plain Rust: some thousand seeds and counts,
//! the refusals, and that nothing changes behind the script or on a refusal. Then it runs the loads of
//! tests/data/item-04, which others made: the script must be theirs, and what the player prints for it,
//! in the old form and turned into the new one.

mod link_archive;
mod load_archive;
mod load_oracle;

use std::process::ExitCode;

/// What stands in a buffer before a call.
const PATTERN: u8 = 0xA5;
/// More bytes than the longest listing has.
const LONGEST: usize = 1_638_405;

#[derive(Default)]
struct Compared {
    calls: u64,
    differences: u64,
}

impl Compared {
    fn check(&mut self, same: bool, what: &str) {
        self.calls += 1;
        if !same {
            self.differences += 1;
            println!("different: {what}");
        }
    }

    /// One call of each, over buffers of so many bytes.
    fn call(&mut self, seed: u32, count: u32, room: usize) {
        let mut given = vec![PATTERN; room];
        let mut wanted = vec![PATTERN; room];
        let a = load_archive::load(seed, count, &mut given);
        let b = load_oracle::load(seed, count, &mut wanted);
        self.check(
            a == b && given == wanted,
            &format!("seed {seed}, {count} records, {room} bytes: {a}, wanted {b}"),
        );
    }

    /// A recorded load: its script, and what the player prints for it.
    fn recorded(&mut self, line: &str, out: &mut [u8]) {
        let fields: Vec<&str> = line.split('|').collect();
        let [load, script, listing] = fields[..] else {
            panic!("no load: {line}");
        };
        let numbers: Vec<u32> = load.split(' ').filter_map(|n| n.parse().ok()).collect();
        let [seed, count] = numbers[..] else {
            panic!("no seed and count: {load}");
        };
        let mut given = vec![0; 4 * count as usize];
        let refused = load_archive::load(seed, count, &mut given);
        let hex: String = given.iter().map(|byte| format!("{byte:02x}")).collect();
        self.check(
            refused == 0 && (script == "-" || script == hex),
            &format!("script of {load}"),
        );
        let end = link_archive::play(&given, out);
        let printed = listing.replace(';', "\n") + "\n";
        self.check(out[..end] == *printed.as_bytes(), &format!("play of {load}"));
        let mut long = vec![0; 6 * count as usize];
        let turned = link_archive::convert(4, &given, &mut long);
        let end = link_archive::play_sized(6, &long, out);
        self.check(
            turned == Ok(long.len()) && out[..end] == *printed.as_bytes(),
            &format!("play of {load} in the new form"),
        );
    }
}

fn main() -> ExitCode {
    let mut compared = Compared::default();
    // every count up to 300 for a few seeds, with room and without
    for seed in [1, 2, 2_147_483_648, 2_463_534_242, u32::MAX] {
        for count in 1..=300 {
            let room = 4 * count as usize;
            for room in [room, room + 7, room - 1] {
                compared.call(seed, count, room);
            }
        }
    }
    // drawn seeds and counts
    let mut x = 0x1234_5678;
    for _ in 0..3000 {
        let seed = load_oracle::draw(x);
        x = load_oracle::draw(seed);
        let count = x % 2000;
        compared.call(seed, count, 8000);
    }
    for count in [65_535, 65_536, 65_537, 65_538, 131_072, u32::MAX] {
        for room in [0, 262_140, 262_143, 262_144, 262_150] {
            compared.call(x, count, room);
        }
    }
    // refused with 18 before 15
    for (seed, count) in [(0, 0), (0, 1), (0, 64), (0, 65_537), (1, 0), (1, 65_537)] {
        for room in [0, 3, 256, 262_148] {
            compared.call(seed, count, room);
        }
    }
    let mut out = vec![0; LONGEST];
    let mut loads = 0;
    let text = include_str!("data/item-04/loads.txt");
    for line in text.lines().filter(|line| !line.starts_with('#')) {
        compared.recorded(line, &mut out);
        loads += 1;
    }
    println!(
        "load_compare: {} comparisons, {loads} recorded loads, {} differences",
        compared.calls, compared.differences
    );
    if compared.differences == 0 && loads == 75 {
        ExitCode::SUCCESS
    } else {
        ExitCode::FAILURE
    }
}
