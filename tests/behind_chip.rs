//! Runs a primary and a device of libnengapiko.a behind modem chips, by a driver, through recordings
//! and compares what each sends, tells and answers with what it does without a chip, as independent
//! simulations of the item gave it. tests/data/item-05/parties.txt says in its first lines what a
//! line means.

mod called;
mod calls;
mod chip_driver;
mod engine_archive;
mod modem_archive;

use calls::{Given, Request};
use chip_driver::{ninth, Chip};
use engine_archive::{device_2, primary, Results};
use std::process::ExitCode;

const TAKEN: u8 = 255;
/// The call that gives a device its burst content.
const CONTENT: u8 = 4;

#[derive(Clone, Copy, PartialEq)]
enum Party {
    Primary,
    Device,
}

/// What is heard and called in a tick.
struct Tick {
    heard: (u8, u8),
    call: u8,
}

/// What a party does in a tick: what it sends, the number and the value of what it tells (of an
/// answer its byte count, of a message that was given up the attempts, of a request its command), and
/// what its call came to.
#[derive(PartialEq)]
struct Done {
    sent: Option<u8>,
    told: u8,
    value: u64,
    answer: u8,
}

/// A party's ticks, and what must come of each.
struct Run {
    party: Party,
    ticks: Vec<Tick>,
    done: Vec<Done>,
}

fn hexadecimal(field: &str) -> u8 {
    u8::from_str_radix(field, 16).expect("two hexadecimal digits")
}

/// The kind of what is heard, and its character.
fn heard(field: &str) -> (u8, u8) {
    match field.split_once('/') {
        _ if field == "-" => (0, 0),
        None => (1, hexadecimal(field)),
        Some((c, kind)) => (1 + hexadecimal(kind), hexadecimal(c)),
    }
}

fn call(field: &str) -> u8 {
    match field {
        "-" => 0,
        "long" | "answer" => 1,
        "short" | "on" => 2,
        "broadcast" | "off" => 3,
        _ => panic!("no call: {field}"),
    }
}

/// The number of what is told, and its value.
fn told(field: &str) -> (u8, u64) {
    let (name, value) = field.split_once(':').unwrap_or((field, "0"));
    let number = match name {
        "-" => 0,
        "answered" | "request" => 1,
        "given-up" | "broadcast" => 2,
        "broadcast-sent" => 3,
        _ => panic!("no tell: {field}"),
    };
    (number, value.parse().expect("a value"))
}

fn answer(field: &str) -> u8 {
    match field.strip_prefix('!') {
        None if field == "-" => 0,
        None => TAKEN,
        Some(number) => number.parse().expect("a refusal"),
    }
}

/// What a call came to, by what its function returned.
fn answered(call: u8, refusal: u32) -> u8 {
    match refusal {
        0 if call == 0 => 0,
        0 => TAKEN,
        _ => refusal as u8,
    }
}

fn request(call: u8) -> Option<Request<'static>> {
    let (long_address, address, command) = match call {
        1 => (true, 2, 3),
        2 => (false, 0, 0),
        3 => (true, 0, 3),
        _ => return None,
    };
    Some(Request {
        preamble: 5,
        revision: 7,
        long_address,
        address,
        command,
        data: &[],
    })
}

/// The number and the value of what a master tells.
fn told_by_master(results: &Results) -> (u8, u64) {
    match results.told() {
        1 => (1, results.count()),
        2 => (2, results.attempts()),
        other => (other, 0),
    }
}

fn told_by_device(results: &Results) -> (u8, u64) {
    match results.told() {
        0 => (0, 0),
        told => (told, results.command()),
    }
}

/// A party of libnengapiko.a: what it does in a tick.
fn engine(party: Party) -> Box<dyn FnMut((u8, u8), u8) -> Done> {
    let (mut master, mut device) = (primary(), device_2());
    match party {
        Party::Primary => Box::new(move |heard, call| {
            let answer = answered(call, master.tick(heard, request(call)));
            let (told, value) = told_by_master(&master.results);
            let sent = master.results.sent();
            Done {
                sent,
                told,
                value,
                answer,
            }
        }),
        Party::Device => Box::new(move |heard, call| {
            let (command, data) = (3, &[0, 0]);
            let given = Given {
                call,
                command,
                data,
            };
            let answer = answered(call, device.tick(heard, given));
            let (told, value) = told_by_device(&device.results);
            let sent = device.results.sent();
            Done {
                sent,
                told,
                value,
                answer,
            }
        }),
    }
}

impl Run {
    fn new(party: Party) -> Run {
        Run {
            party,
            ticks: Vec::new(),
            done: Vec::new(),
        }
    }

    fn add(&mut self, line: &str) {
        let fields: Vec<&str> = line.split(' ').collect();
        let [carried, called, "|", sent, tells, answers] = fields[..] else {
            panic!("no tick: {line}");
        };
        let gives_content = self.party == Party::Device && self.ticks.is_empty();
        let (told, value) = told(tells);
        self.ticks.push(Tick {
            heard: heard(carried),
            call: if gives_content { CONTENT } else { call(called) },
        });
        self.done.push(Done {
            sent: (sent != "-").then(|| hexadecimal(sent)),
            told,
            value,
            answer: if gives_content {
                TAKEN
            } else {
                answer(answers)
            },
        });
    }

    /// Whether each tick behind the driver comes to what it must.
    fn passes(&self) -> bool {
        let mut chip = Chip::default();
        let mut party = engine(self.party);
        self.ticks.iter().zip(&self.done).all(|(tick, expected)| {
            chip.begin(tick.heard);
            let done = party(chip.heard(), tick.call);
            chip.send(done.sent);
            chip.end() == expected.sent.map(|c| (c, ninth(c))) && done == *expected
        })
    }
}

fn runs(text: &str) -> Vec<Run> {
    let mut all: Vec<Run> = Vec::new();
    for line in text.lines().filter(|line| !line.starts_with('#')) {
        match line {
            "primary" => all.push(Run::new(Party::Primary)),
            "device" => all.push(Run::new(Party::Device)),
            "s" => {}
            _ => all.last_mut().expect("a party before its ticks").add(line),
        }
    }
    all
}

fn main() -> ExitCode {
    let all = runs(include_str!("data/item-05/parties.txt"));
    let ticks: usize = all.iter().map(|run| run.ticks.len()).sum();
    let failed = all.iter().filter(|run| !run.passes()).count();
    println!(
        "behind_chip: {} runs, {ticks} ticks, {failed} failed",
        all.len()
    );
    if failed == 0 {
        ExitCode::SUCCESS
    } else {
        ExitCode::FAILURE
    }
}
