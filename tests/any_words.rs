//! Every content of the words of a master, a device and a tick reader is some state: a tick of the
//! archive on any words is that on the words that are written for the same state, by the fields of
//! crates/state_words/specs/Fields.antt, crates/master_c/specs/Words.antt and crates/device_c/specs/Words.antt.
//! Compared are the words behind the tick, what it returns and tells, and the lent buffers.

mod calls;
mod engine_archive;
#[allow(dead_code)]
mod frames;
#[path = "oracles.rs"]
mod oracles;

use calls::{Given, Request};
use engine_archive::{device_2, primary, Reader};
use frames::Xorshift;
use std::process::ExitCode;
use Field::{Bits, Case, Flag, Wish};

const ROUNDS: usize = 200_000;

/// What a word holds: a number's lowest bits, a flag, a wish, or a case's number and 16 times a
/// number of so many bits where the case has one.
#[derive(Clone, Copy)]
enum Field {
    Bits(u32),
    Flag,
    Wish,
    Case {
        last: u64,
        with_number: &'static [u64],
        bits: u32,
    },
}

fn lowest(word: u64, bits: u32) -> u64 {
    word & (u64::MAX >> (64 - bits))
}

impl Field {
    /// The word that is written for the value that this word is.
    fn same_value(self, word: u64) -> u64 {
        match self {
            Bits(bits) => lowest(word, bits),
            Flag => u64::from(word == 1),
            Wish => [0, 1, 2]
                .into_iter()
                .find(|&wish| wish == word)
                .unwrap_or(0),
            Case {
                last,
                with_number,
                bits,
            } => {
                let number = Some(word % 16).filter(|&case| case <= last).unwrap_or(0);
                let held = lowest(word / 16, bits);
                number
                    + if with_number.contains(&number) {
                        16 * held
                    } else {
                        0
                    }
            }
        }
    }

    /// Any word, or one that may be written.
    fn any(self, random: &mut Xorshift) -> u64 {
        match random.below(3) {
            0 => random.next(),
            1 => random.below(40) as u64,
            _ => self.same_value(random.below(5000) as u64),
        }
    }
}

const HEADER: [Field; 6] = [Bits(8), Flag, Flag, Flag, Bits(64), Bits(8)];

const READER: [Field; 16] = [
    Bits(8),
    Flag,
    Flag,
    Flag,
    Bits(64),
    Bits(8),
    Case {
        last: 9,
        with_number: &[2, 4, 5, 8],
        bits: 8,
    },
    Bits(8),
    Bits(8),
    Bits(8),
    Flag,
    Flag,
    Flag,
    Flag,
    Flag,
    Flag,
];

const STAGE: Field = Case {
    last: 3,
    with_number: &[2, 3],
    bits: 16,
};

const TURN: Field = Case {
    last: 6,
    with_number: &[1, 4, 6],
    bits: 16,
};

fn master_fields() -> Vec<Field> {
    let settings = [
        Flag,
        Bits(16),
        Bits(16),
        Bits(16),
        Bits(16),
        Bits(16),
        Bits(8),
    ];
    let timers = [Flag, Flag, Bits(32), Bits(32), Bits(32)];
    let noted = [Flag, Bits(64)];
    let message_and_limit = [STAGE, Bits(16), Bits(16), Bits(8)];
    [
        &settings[..],
        &timers,
        &READER,
        &noted,
        &HEADER,
        &message_and_limit,
    ]
    .concat()
}

fn device_fields() -> Vec<Field> {
    let profile = [Bits(16); 5];
    let settings = [Bits(8), Bits(8), Bits(64)];
    let answering = [Flag, TURN, Wish, Bits(16)];
    let bursting_and_limit = [Flag, Flag, Bits(32), Flag, Bits(8), Bits(8), Bits(8)];
    [
        &profile[..],
        &settings,
        &READER,
        &answering,
        &HEADER,
        &bursting_and_limit,
    ]
    .concat()
}

/// Any words, and those that are written for the same state.
fn words<const N: usize>(fields: &[Field], random: &mut Xorshift) -> [[u64; N]; 2] {
    assert_eq!(fields.len(), N);
    let any: [u64; N] = std::array::from_fn(|at| fields[at].any(random));
    [
        any,
        std::array::from_fn(|at| fields[at].same_value(any[at])),
    ]
}

fn heard(random: &mut Xorshift) -> (u8, u8) {
    (
        random.below(6) as u8,
        random.pick(&[0xFF, 0x82, 0x02, 0x06, 0, 1, 2, 3]),
    )
}

fn masters_differ(random: &mut Xorshift) -> bool {
    let states = words::<40>(&master_fields(), random);
    let heard = heard(random);
    let requests = random.flag();
    let (long_address, address) = (random.flag(), random.below(70) as u64);
    let data = [0; 3];
    let done = states.map(|state| {
        let mut master = primary();
        master.state = state;
        let request = Request {
            preamble: 5,
            revision: 7,
            long_address,
            address,
            command: 0,
            data: &data,
        };
        let returned = master.tick(heard, requests.then_some(request));
        let buffers = (master.frame, master.data);
        (returned, master.state, master.results.all(), buffers)
    });
    let fields = master_fields();
    let written = (0..40).all(|at| done[0].1[at] == fields[at].same_value(done[0].1[at]));
    done[0] != done[1] || !written
}

fn devices_differ(random: &mut Xorshift) -> bool {
    let states = words::<41>(&device_fields(), random);
    let heard = heard(random);
    let call = random.below(6) as u8;
    let count = random.below(4);
    let data = [0; 3];
    let done = states.map(|state| {
        let mut device = device_2();
        device.state = state;
        let given = Given {
            call,
            command: 3,
            data: &data[..count],
        };
        let returned = device.tick(heard, given);
        let buffers = (device.frame, device.data, device.content);
        (returned, device.state, device.results.all(), buffers)
    });
    let fields = device_fields();
    let written = (0..41).all(|at| done[0].1[at] == fields[at].same_value(done[0].1[at]));
    done[0] != done[1] || !written
}

fn readers_differ(random: &mut Xorshift) -> bool {
    let states = words::<16>(&READER, random);
    let heard = heard(random);
    let done = states.map(|state| {
        let mut reader = Reader::start();
        reader.state = state;
        reader.tick(heard);
        (reader.state, reader.results.all(), reader.data)
    });
    let written = (0..16).all(|at| done[0].0[at] == READER[at].same_value(done[0].0[at]));
    done[0] != done[1] || !written
}

fn main() -> ExitCode {
    let mut random = Xorshift(0x2545_F491_4F6C_DD1D);
    let masters = (0..ROUNDS).filter(|_| masters_differ(&mut random)).count();
    let devices = (0..ROUNDS).filter(|_| devices_differ(&mut random)).count();
    let readers = (0..ROUNDS).filter(|_| readers_differ(&mut random)).count();
    println!(
        "any_words: {ROUNDS} ticks of a master on any words, {masters} differences; as many of a \
         device, {devices} differences, and of a tick reader, {readers} differences"
    );
    match masters + devices + readers {
        0 => ExitCode::SUCCESS,
        _ => ExitCode::FAILURE,
    }
}
