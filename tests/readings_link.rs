//! A latest readings table beside a link of the archive's masters and devices, one call a tick: both
//! masters poll, a device bursts by turns, some characters are damaged, and both hosts enter what their
//! own master's tick told. The table is held to a plain history of what the tick reader in plain Rust
//! hears on the same line.

mod calls;
mod engine_archive;
#[allow(dead_code)]
mod frames;
mod oracle_ticks;
#[path = "oracles.rs"]
mod oracles;
mod readings_archive;
mod readings_oracle;

use calls::{Given, Request, NOTHING};
use engine_archive::{Device, Heard, Master, Profile, Results, NO_LIMIT};
use frames::Xorshift;
use oracle_ticks::{heard_of, numbers};
use oracles::tick_oracle::Reader;
use readings_oracle::{History, Reading, Row};
use std::process::ExitCode;

const TICKS: u64 = 40_000;
const CLEARED_EVERY: u64 = 5_000;
const CONTENT_EVERY: u64 = 60;
/// One character in so many is damaged.
const DAMAGED: usize = 400;

const FSK: Profile = [28, 2, 8, 33, 41];
const RETRIES: u8 = 3;
const PREAMBLE: usize = 5;

const UNIQUES: [u64; 3] = [0x26_1234_5678, 0x26_0000_00A1, 0x2A];
/// The one that bursts, and the command of its BACKs.
const BURSTING: usize = 2;
const BURST_COMMAND: u8 = 9;
const BURST_CONTROL: u8 = 109;

/// One row fewer than there are keys, so that now and then a frame finds the table full.
const ROWS: usize = 6;

/// What the masters ask for by turns: long or short, address, command, data.
type Asked = (bool, u64, u8, &'static [u8]);
const PRIMARY_ASKS: [Asked; 4] = [
    (true, UNIQUES[0], 3, &[]),
    (true, UNIQUES[1], 3, &[]),
    (true, UNIQUES[2], 3, &[]),
    (true, UNIQUES[0], 1, &[]),
];
const SECONDARY_ASKS: [Asked; 6] = [
    (true, UNIQUES[1], 2, &[]),
    (true, UNIQUES[BURSTING], BURST_CONTROL, &[1]),
    (false, 0, 0, &[]),
    (true, UNIQUES[1], 2, &[]),
    (true, UNIQUES[1], 3, &[]),
    (true, UNIQUES[BURSTING], BURST_CONTROL, &[0]),
];

/// A master and its host, which asks again some ticks after each message ends.
struct Polling {
    master: Master,
    asks: &'static [Asked],
    asked: usize,
    next: u64,
}

impl Polling {
    fn new(primary: bool, asks: &'static [Asked]) -> Polling {
        let master = Master::start(FSK, primary, RETRIES, NO_LIMIT);
        Polling {
            master: master.expect("FSK and 3 retries are taken"),
            asks,
            asked: 0,
            next: 0,
        }
    }

    /// A tick; what is sent.
    fn tick(&mut self, tick: u64, heard: Heard, random: &mut Xorshift) -> Option<u8> {
        let (long_address, address, command, data) = self.asks[self.asked % self.asks.len()];
        let request = (tick == self.next).then_some(Request {
            preamble: PREAMBLE,
            revision: 7,
            long_address,
            address,
            command,
            data,
        });
        if self.master.tick(heard, request) != 0 {
            panic!("tick {tick}: a request is refused");
        }
        if self.master.results.told() != 0 {
            self.asked += 1;
            self.next = tick + 1 + random.below(200) as u64;
        }
        self.master.results.sent()
    }
}

/// A device and its host.
struct Answering {
    device: Device,
    bursts: bool,
    answers_at: Option<u64>,
    call: u8,
}

/// Status and a reading of any length; bit 7 of the first byte says of few that they are none.
fn random_data(random: &mut Xorshift) -> Vec<u8> {
    let count = 2 + random.below(12);
    let mut data = random.bytes(count);
    data[0] &= random.pick(&[0x7F, 0x7F, 0x7F, 0x7F, 0x7F, 0x7F, 0x7F, 0xFF]);
    data
}

impl Answering {
    fn new(at: usize) -> Answering {
        let device = Device::start(FSK, PREAMBLE, at as u8, UNIQUES[at], NO_LIMIT);
        Answering {
            device: device.expect("these addresses are taken"),
            bursts: at == BURSTING,
            answers_at: None,
            call: 1,
        }
    }

    fn tick(&mut self, tick: u64, heard: Heard, random: &mut Xorshift) -> Option<u8> {
        let data = random_data(random);
        let given = if self.answers_at == Some(tick) {
            Given {
                call: self.call,
                command: 0,
                data: &data,
            }
        } else if self.bursts && tick % CONTENT_EVERY == 0 {
            Given {
                call: 4,
                command: BURST_COMMAND,
                data: &data,
            }
        } else {
            NOTHING
        };
        self.device.tick(heard, given);
        let results = &self.device.results;
        if results.told() == 1 {
            self.answers_at = Some(tick + 1 + random.below(26) as u64);
            self.call = match (results.command() as u8, self.device.data[0]) {
                (BURST_CONTROL, 1) => 2,
                (BURST_CONTROL, _) => 3,
                _ => 1,
            };
        }
        results.sent()
    }
}

/// What the line carries of what is sent, now and then damaged.
fn carried(sent: &[u8], random: &mut Xorshift) -> Heard {
    match *sent {
        [] => (0, 0),
        [character] if random.below(DAMAGED) > 0 => (1, character),
        [character] => (random.pick(&[2, 3, 4]), character),
        _ => (4, 0),
    }
}

/// A table of the archive, and the history that it is held to.
struct Kept {
    rows: [Row; ROWS],
    area: [u8; 255 * ROWS],
    history: History,
    differences: u64,
}

/// What stands in the area at first.
const LENT: [u8; 255 * ROWS] = [0xA5; 255 * ROWS];

impl Kept {
    fn new() -> Kept {
        Kept {
            rows: [Row::default(); ROWS],
            area: LENT,
            history: History::new(ROWS),
            differences: 0,
        }
    }

    fn clear(&mut self) {
        readings_archive::clear(&mut self.rows);
        self.history.clear();
    }

    /// A host enters what its master's tick told; what that returns.
    fn enter(&mut self, tick: u64, results: &Results, data: &[u8; 255]) -> u32 {
        readings_archive::enter(&mut self.rows, &mut self.area, tick, &results.all(), data)
    }

    fn compare(&mut self, tick: u64, returned: &[u32], refusal: u32) {
        let same_rows = self.rows[..] == self.history.rows();
        let same_area = self.area[..] == self.history.area(&LENT);
        let same_answers = returned.iter().all(|&number| number == refusal);
        if !(same_rows && same_area && same_answers) {
            self.differences += 1;
            println!("readings_link: tick {tick} differs, {returned:?}, wanted {refusal}");
        }
    }
}

/// How many frames were heard, and what became of them.
#[derive(Debug, Default)]
struct Seen {
    acks_to_primary: u64,
    acks_to_secondary: u64,
    backs: u64,
    entered: u64,
    superseded: u64,
    not_entered: u64,
    full: u64,
}

impl Seen {
    fn count(&mut self, results: &[u64; 17], is_reading: bool, is_new: bool, refusal: u32) {
        match (results[4], results[6]) {
            (6, 1) => self.acks_to_primary += 1,
            (6, _) => self.acks_to_secondary += 1,
            (1, _) => self.backs += 1,
            _ => {}
        }
        match (refusal, is_reading, is_new) {
            (20, ..) => self.full += 1,
            (_, false, _) => self.not_entered += 1,
            (_, true, true) => self.entered += 1,
            (_, true, false) => self.superseded += 1,
        }
    }

    fn has_all(&self) -> bool {
        let Seen {
            acks_to_primary,
            acks_to_secondary,
            backs,
            entered,
            superseded,
            not_entered,
            full,
        } = *self;
        let answers = acks_to_primary.min(acks_to_secondary).min(backs);
        answers > 100 && entered.min(superseded).min(not_entered).min(full) > 10
    }
}

/// The parties, and what the line carried in the tick before.
struct Link {
    masters: [Polling; 2],
    devices: Vec<Answering>,
    heard: Heard,
    random: Xorshift,
}

impl Link {
    fn start() -> Link {
        Link {
            masters: [
                Polling::new(true, &PRIMARY_ASKS),
                Polling::new(false, &SECONDARY_ASKS),
            ],
            devices: (0..UNIQUES.len()).map(Answering::new).collect(),
            heard: (0, 0),
            random: Xorshift(0x2545_F491_4F6C_DD1D),
        }
    }

    /// A tick of all, in which each master's host enters what it is told; what that returns.
    fn tick(&mut self, tick: u64, kept: &mut Kept) -> Vec<u32> {
        let mut sent = Vec::new();
        let mut returned = Vec::new();
        for polling in &mut self.masters {
            sent.extend(polling.tick(tick, self.heard, &mut self.random));
            let master = &polling.master;
            if master.results.is_whole() {
                returned.push(kept.enter(tick - 1, &master.results, &master.data));
            }
        }
        for answering in &mut self.devices {
            sent.extend(answering.tick(tick, self.heard, &mut self.random));
        }
        self.heard = carried(&sent, &mut self.random);
        returned
    }
}

fn main() -> ExitCode {
    let mut link = Link::start();
    let mut reader = Reader::start();
    let mut kept = Kept::new();
    let mut seen = Seen::default();
    for tick in 0..TICKS {
        let (kind, character) = link.heard;
        let event = numbers([0; 3], &reader.take(heard_of(kind, character)));
        let returned = link.tick(tick, &mut kept);
        if event[3] == 3 || !returned.is_empty() {
            let reading = Reading::told(tick - 1, &event, reader.data());
            let is_reading = reading.is_some();
            let keys = kept.history.keys();
            let refusal = reading.map_or(0, |reading| kept.history.enter(reading));
            seen.count(&event, is_reading, kept.history.keys() > keys, refusal);
            kept.compare(tick, &returned, refusal);
        }
        if tick % CLEARED_EVERY == CLEARED_EVERY - 1 {
            kept.clear();
            kept.compare(tick, &[], 0);
        }
    }
    println!(
        "readings_link: {TICKS} ticks, {seen:?}, {} differences",
        kept.differences
    );
    match kept.differences == 0 && seen.has_all() {
        true => ExitCode::SUCCESS,
        false => ExitCode::FAILURE,
    }
}
