//! What nengapiko_master_tick returns to a request, by a master that nengapiko_master_start started:
//! the cases of tests/data/item-02, which were worked out by others, and every revision with every
//! polling address, and requests at each limit, against the rules of documents 01 and 02 in plain
//! Rust.

mod calls;
mod engine_archive;

use calls::Request;
use engine_archive::primary;
use std::process::ExitCode;

const CASES: &str = "tests/data/item-02/requests.txt";

const TAKEN: u32 = 0;
const PREAMBLE_LENGTH: u32 = 3;
const ADDRESS: u32 = 4;
const COMMAND: u32 = 5;
const DATA_LONG: u32 = 6;
const MESSAGE_IN_HAND: u32 = 7;
const REVISION: u32 = 17;

const SILENCE: (u8, u8) = (0, 0);

/// Data of any length up to one byte too many.
static ZEROS: [u8; 256] = [0; 256];

/// A request, and whether the master has a message already.
#[derive(Clone, Copy, Debug)]
struct Case {
    request: Request<'static>,
    message_in_hand: bool,
}

/// Command 0 of polling address 0: a master that has it has a message in hand in the next tick.
const FIRST: Request = Request {
    preamble: 5,
    revision: 7,
    long_address: false,
    address: 0,
    command: 0,
    data: &[],
};

fn answer(case: &Case) -> u32 {
    let mut master = primary();
    if case.message_in_hand {
        assert_eq!(master.tick(SILENCE, Some(FIRST)), TAKEN);
    }
    master.tick(SILENCE, Some(case.request))
}

/// "3; 17, checked after 3; 4; 5; 6; 7".
fn by_rules(case: &Case) -> u32 {
    let request = &case.request;
    let largest = match (request.long_address, request.revision) {
        (true, _) => (1 << 38) - 1,
        (false, ..=5) => 15,
        (false, _) => 63,
    };
    if !(5..=20).contains(&request.preamble) {
        PREAMBLE_LENGTH
    } else if !(3..=7).contains(&request.revision) {
        REVISION
    } else if request.address > largest {
        ADDRESS
    } else if request.command == 254 || (!request.long_address && request.command != 0) {
        COMMAND
    } else if request.data.len() > 255 {
        DATA_LONG
    } else if case.message_in_hand {
        MESSAGE_IN_HAND
    } else {
        TAKEN
    }
}

#[derive(Default)]
struct Compared {
    requests: u64,
    differences: u64,
}

impl Compared {
    fn with(&mut self, case: &Case, wanted: u32) {
        self.requests += 1;
        let given = answer(case);
        if given != wanted {
            self.differences += 1;
            println!("{case:?}: {given}, wanted {wanted}");
        }
    }
}

/// A line of the cases: "preamble revision form address command data-bytes master = answer".
fn case(line: &str) -> (Case, u32) {
    let words: Vec<&str> = line.split(' ').collect();
    let [preamble, revision, form, address, command, count, master, "=", wanted] = words[..] else {
        panic!("a case has nine words: {line}");
    };
    let number = |word: &str| word.parse::<u64>().expect("a number");
    let request = Request {
        preamble: number(preamble) as usize,
        revision: number(revision) as u8,
        long_address: form == "long",
        address: number(address),
        command: number(command) as u8,
        data: &ZEROS[..number(count) as usize],
    };
    let message_in_hand = master == "busy";
    let case = Case {
        request,
        message_in_hand,
    };
    (case, number(wanted) as u32)
}

/// Requests at each limit and beside it.
fn at_limits(compared: &mut Compared) {
    for revision in 0..=9 {
        for address in 0..=70 {
            for preamble in [4, 5, 20, 21] {
                for (command, message_in_hand) in [(0, false), (0, true), (1, false), (254, true)] {
                    let request = Request {
                        preamble,
                        revision,
                        address,
                        command,
                        ..FIRST
                    };
                    let short = Case {
                        request,
                        message_in_hand,
                    };
                    compared.with(&short, by_rules(&short));
                }
            }
        }
        for address in [0, 2, 63, 64, (1 << 38) - 1, 1 << 38, u64::MAX] {
            for count in [0, 255, 256] {
                for command in [0, 253, 254, 255] {
                    let request = Request {
                        revision,
                        long_address: true,
                        address,
                        command,
                        data: &ZEROS[..count],
                        ..FIRST
                    };
                    let long = Case {
                        request,
                        message_in_hand: false,
                    };
                    compared.with(&long, by_rules(&long));
                }
            }
        }
    }
}

fn main() -> ExitCode {
    let mut stored = Compared::default();
    let text = std::fs::read_to_string(CASES).expect("the stored cases");
    for line in text.lines().filter(|line| !line.starts_with('#')) {
        let (case, wanted) = case(line);
        stored.with(&case, wanted);
    }
    let mut limits = Compared::default();
    at_limits(&mut limits);
    println!(
        "request_compare: {} stored cases, {} at the limits, {} differences",
        stored.requests,
        limits.requests,
        stored.differences + limits.differences
    );
    match stored.differences + limits.differences {
        0 => ExitCode::SUCCESS,
        _ => ExitCode::FAILURE,
    }
}
