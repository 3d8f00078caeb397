//! Scripts in both forms: the conversions and plays of tests/data/item-11, which others made; every
//! conversion that is taken goes back to the same bytes and plays to the same listing, and a refusal
//! changes nothing.

mod link_archive;

use std::fs;
use std::process::ExitCode;

/// What stands in a buffer before a call.
const PATTERN: u8 = 0xA5;

/// More bytes than any listing here has.
const ROOM: usize = 1 << 20;

#[derive(Default)]
struct Compared {
    calls: u64,
    differences: u64,
}

impl Compared {
    fn check(&mut self, same: bool, what: &str) {
        self.calls += 1;
        if !same {
            self.differences += 1;
            println!("different: {what}");
        }
    }

    /// A conversion: size, room and script, then "to", length and bytes, or the refusal.
    fn conversion(&mut self, line: &str) {
        let Some((given, wanted)) = line.split_once(" = ") else {
            panic!("no conversion: {line}");
        };
        let fields: Vec<&str> = given.split(' ').collect();
        let [record, room, script] = fields[..] else {
            panic!("no conversion: {line}");
        };
        let record: usize = record.parse().unwrap();
        let script = bytes_of(script);
        let mut out = vec![PATTERN; room.parse().unwrap()];
        let mut expected = out.clone();
        let answer = link_archive::convert(record, &script, &mut out);
        match wanted.strip_prefix("to ") {
            Some(result) => {
                let bytes = bytes_of(result.split_once(' ').unwrap().1);
                expected[..bytes.len()].copy_from_slice(&bytes);
                self.check(answer == Ok(bytes.len()) && out == expected, line);
                self.turned(record, &script, &bytes, line);
            }
            None => {
                let why = wanted.parse().unwrap();
                self.check(answer == Err(why) && out == expected, line);
            }
        }
    }

    /// Back it is the same script, and both forms play to one listing.
    fn turned(&mut self, record: usize, script: &[u8], result: &[u8], line: &str) {
        let mut back = vec![PATTERN; script.len()];
        let answer = link_archive::convert(10 - record, result, &mut back);
        self.check(answer == Ok(script.len()) && back == script, line);
        let (mut one, mut other) = (vec![0; ROOM], vec![0; ROOM]);
        let end = link_archive::play_sized(record, script, &mut one);
        let end_turned = link_archive::play_sized(10 - record, result, &mut other);
        self.check(one[..end] == other[..end_turned], line);
    }

    /// A script of the new form and its listing. The first bytes of a listing fill a short buffer.
    fn play(&mut self, name: &str) {
        let script = fs::read(format!("tests/data/item-11/plays/{name}.bin")).unwrap();
        let listing = fs::read(format!("tests/data/item-11/plays/{name}.txt")).unwrap();
        let mut out = vec![PATTERN; ROOM];
        let end = link_archive::play_sized(6, &script, &mut out);
        self.check(out[..end] == listing[..], name);
        self.check(out[end..].iter().all(|&byte| byte == PATTERN), name);
    }

    /// Another record size prints 24, before 16.
    fn other_sizes(&mut self) {
        for record in [0, 1, 2, 3, 5, 7, 8, 12, 255, 1 << 32 | 4, usize::MAX] {
            for script in [&[][..], &[0; 4], &[0; 6], &[1, 2, 3]] {
                let mut out = [PATTERN; 8];
                let end = link_archive::play_sized(record, script, &mut out);
                self.check(&out[..end] == b"24\n", &format!("size {record}"));
                let answer = link_archive::convert(record, script, &mut out);
                self.check(answer == Err(24), &format!("size {record}"));
            }
        }
    }
}

fn bytes_of(hex: &str) -> Vec<u8> {
    let digits = hex.trim_matches('-').as_bytes();
    let value = |digit: u8| (digit as char).to_digit(16).unwrap() as u8;
    digits
        .chunks_exact(2)
        .map(|pair| value(pair[0]) << 4 | value(pair[1]))
        .collect()
}

fn main() -> ExitCode {
    let mut compared = Compared::default();
    let text = include_str!("data/item-11/turns.txt");
    let mut turns = 0;
    for line in text.lines().filter(|line| !line.starts_with('#')) {
        compared.conversion(line);
        turns += 1;
    }
    let mut plays = 0;
    for line in include_str!("data/item-11/plays/INDEX.txt").lines() {
        compared.play(line.split([' ', ':']).next().unwrap());
        plays += 1;
    }
    compared.other_sizes();
    println!(
        "script_compare: {} comparisons, {turns} recorded conversions, {plays} recorded plays, {} differences",
        compared.calls, compared.differences
    );
    if compared.differences == 0 && turns == 242 && plays == 29 {
        ExitCode::SUCCESS
    } else {
        ExitCode::FAILURE
    }
}
