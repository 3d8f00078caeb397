//! Runs accesses of the modem chip whose values were worked out beforehand through the archive: the
//! value of every read, every refusal and what goes out in each tick must be as stored.
//! tests/data/item-05/registers.txt says in its first lines what a line means.

mod called;
mod modem_archive;

use std::process::ExitCode;

/// The operations of a script, in bits 7 to 4 of an access.
const READ: u8 = 0;
const READ_REFUSED: u8 = 1;
const WRITE: u8 = 2;
const SILENCE: u8 = 3;
const CHARACTER: u8 = 4;
const END: u8 = 5;
const GOES_OUT: u8 = 6;
const COUNT: u8 = 8;

/// Low parts from 10 on stand for registers from 255 on.
const FAR: u32 = 245;

/// A script, and the number that each of its accesses must give.
#[derive(Default)]
struct Scenario {
    script: Vec<u8>,
    numbers: Vec<u8>,
}

impl Scenario {
    fn access(&mut self, operation: u8, low: u8, value: u8, number: u8) {
        self.script.extend([operation << 4 | low, value]);
        self.numbers.push(number);
    }

    fn passes(&self) -> bool {
        let mut numbers = vec![0xA5; self.numbers.len()];
        modem_archive::modem(&self.script, &mut numbers) == self.numbers.len()
            && numbers == self.numbers
    }
}

fn hexadecimal(field: &str) -> u8 {
    u8::from_str_radix(field, 16).expect("two hexadecimal digits")
}

fn register(field: &str) -> u8 {
    let number: u32 = field.parse().expect("a register");
    let low = if number < 10 { number } else { number - FAR };
    u8::try_from(low).expect("a low part")
}

/// The refusal, or none.
fn refusal(field: &str) -> u8 {
    field
        .strip_prefix('!')
        .map_or(0, |number| number.parse().expect("a refusal"))
}

/// The ninth bit and the mark.
fn ninth_and_mark(bit: &str, mark: &str) -> u8 {
    let mark = match mark {
        "0" => 0,
        "2" => 1,
        "3" => 2,
        _ => panic!("no mark: {mark}"),
    };
    u8::from(bit == "1") + 2 * mark
}

fn add(scenario: &mut Scenario, line: &str) {
    let fields: Vec<&str> = line.split(' ').collect();
    match fields[..] {
        ["count", number] => {
            let count: u32 = number.parse().expect("a count");
            for byte in count.to_be_bytes() {
                scenario.access(COUNT, 0, byte, 0);
            }
        }
        ["t", "-"] => scenario.access(SILENCE, 0, 0, 0),
        ["t", c, bit, mark] => {
            scenario.access(CHARACTER, ninth_and_mark(bit, mark), hexadecimal(c), 0);
        }
        ["r", n, "=", value] => {
            let refused = refusal(value);
            scenario.access(READ_REFUSED, register(n), 0, refused);
            let shown = if refused == 0 { hexadecimal(value) } else { 0 };
            scenario.access(READ, register(n), 0, shown);
        }
        ["w", n, v, "=", answer] => {
            scenario.access(WRITE, register(n), hexadecimal(v), refusal(answer));
        }
        ["e", "=", "-"] => {
            scenario.access(GOES_OUT, 0, 0, 0);
            scenario.access(END, 0, 0, 0);
        }
        ["e", "=", c, bit, "0"] => {
            scenario.access(GOES_OUT, 0, 0, hexadecimal(c));
            scenario.access(END, 0, 0, 1 + u8::from(bit == "1"));
        }
        _ => panic!("no access: {line}"),
    }
}

fn scenarios(text: &str) -> Vec<Scenario> {
    let mut all = Vec::new();
    let mut scenario = Scenario::default();
    for line in text.lines().filter(|line| !line.starts_with('#')) {
        match line {
            "start" => {}
            "s" => all.push(std::mem::take(&mut scenario)),
            _ => add(&mut scenario, line),
        }
    }
    all
}

/// The count goes from its largest value back to 0, across all four bytes.
const WRAP: &str =
    "count 4294967295\nt -\nr 4 = FF\nr 7 = FF\ne = -\nr 4 = 00\nr 5 = 00\nr 6 = 00\nr 7 = 00\ns";
const CARRY: &str =
    "count 305419775\nr 4 = 12\nr 5 = 34\nr 6 = 55\nr 7 = FF\ne = -\nr 6 = 56\nr 7 = 00\ns";

fn main() -> ExitCode {
    let mut all = scenarios(include_str!("data/item-05/registers.txt"));
    all.extend(scenarios(WRAP));
    all.extend(scenarios(CARRY));
    let accesses: usize = all.iter().map(|scenario| scenario.numbers.len()).sum();
    let failed = all.iter().filter(|scenario| !scenario.passes()).count();
    println!(
        "registers: {} scenarios, {accesses} accesses, {failed} failed",
        all.len()
    );
    if failed == 0 {
        ExitCode::SUCCESS
    } else {
        ExitCode::FAILURE
    }
}
