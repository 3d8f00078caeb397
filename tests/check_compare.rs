//! Compares the exclusive-or of the archive, by words and byte by byte, and that of plain Rust by words
//! with a plain loop: every start 0 to 63 with every length 0 to 600, parts that run past the end, and
//! the cases of tests/data/item-03, which were worked out by others.

mod check_archive;
mod check_oracle;

use std::process::ExitCode;

type Check = fn(u8, &[u8], usize, usize) -> u8;

const FORMS: [(&str, Check); 3] = [
    ("archive by words", check_archive::by_words),
    ("archive by bytes", check_archive::by_bytes),
    ("plain Rust by words", check_oracle::by_words),
];

/// The numbers that the exclusive-or begins with.
const FIRST: [u8; 3] = [0x00, 0x5A, 0xFF];

#[derive(Default)]
struct Compared {
    calls: u64,
    differences: u64,
}

impl Compared {
    fn with(&mut self, x: u8, bytes: &[u8], start: usize, count: usize, wanted: u8) {
        for (name, check) in FORMS {
            self.calls += 1;
            let given = check(x, bytes, start, count);
            if given != wanted {
                self.differences += 1;
                println!("{name}: {x:02X} {start} {count}: {given:02X}, wanted {wanted:02X}");
            }
        }
    }

    fn with_loop(&mut self, bytes: &[u8], start: usize, count: usize) {
        for x in FIRST {
            self.with(
                x,
                bytes,
                start,
                count,
                check_oracle::by_bytes(x, bytes, start, count),
            );
        }
    }
}

/// Bytes that differ from place to place, by Marsaglia's xorshift32.
fn some_bytes(count: usize) -> Vec<u8> {
    let mut state = 0x2545_F491_u32;
    (0..count)
        .map(|_| {
            state ^= state << 13;
            state ^= state >> 17;
            state ^= state << 5;
            state as u8
        })
        .collect()
}

fn starts_and_lengths(compared: &mut Compared) {
    let bytes = some_bytes(700);
    for start in 0..=63 {
        for count in 0..=600 {
            compared.with_loop(&bytes, start, count);
        }
    }
}

fn single_bits(compared: &mut Compared) {
    for place in 0..200 {
        let mut bytes = [0; 200];
        bytes[place] = 0x80;
        for count in 0..=200 {
            compared.with_loop(&bytes, 0, count);
        }
    }
}

fn past_the_end(compared: &mut Compared) {
    let bytes = some_bytes(80);
    for start in (0..=90).chain([usize::MAX - 1, usize::MAX]) {
        for count in (0..=90).chain([usize::MAX - 1, usize::MAX]) {
            compared.with_loop(&bytes, start, count);
        }
    }
    compared.with_loop(&[], 0, 0);
    compared.with_loop(&[], 0, 1);
}

/// The first line is the bytes; each other one is the number, start, count and the exclusive-or.
fn recorded(compared: &mut Compared) {
    let text = include_str!("data/item-03/xors.txt");
    let mut lines = text.lines().filter(|line| !line.starts_with('#'));
    let hexadecimal = |digits: &str| u8::from_str_radix(digits, 16).expect("two digits");
    let first = lines.next().expect("the bytes");
    let bytes: Vec<u8> = (0..first.len() / 2)
        .map(|place| hexadecimal(&first[place * 2..place * 2 + 2]))
        .collect();
    for line in lines {
        let fields: Vec<&str> = line.split(' ').collect();
        let [x, start, count, "=", wanted] = fields[..] else {
            panic!("no case: {line}");
        };
        let number = |digits: &str| digits.parse().expect("a number");
        let (start, count): (usize, usize) = (number(start), number(count));
        assert!(start + count <= bytes.len(), "inside: {line}");
        compared.with(hexadecimal(x), &bytes, start, count, hexadecimal(wanted));
    }
}

fn main() -> ExitCode {
    let mut differences = 0;
    let parts: [(&str, fn(&mut Compared)); 4] = [
        ("starts_and_lengths", starts_and_lengths),
        ("single_bits", single_bits),
        ("past_the_end", past_the_end),
        ("recorded", recorded),
    ];
    for (name, compare) in parts {
        let mut compared = Compared::default();
        compare(&mut compared);
        differences += compared.differences;
        println!(
            "check_compare: {name}, {} calls, {} differences",
            compared.calls, compared.differences
        );
    }
    match differences {
        0 => ExitCode::SUCCESS,
        _ => ExitCode::FAILURE,
    }
}
