//! Compares the master and the device of libnengapiko.a with the oracles where command 11 goes by
//! broadcast, called once a tick, over recordings: what both_ticks.rs says. The recordings are the same
//! in every run.

mod both_ticks;
mod calls;
mod engine_archive;
#[allow(dead_code)]
mod frames;
mod oracle_ticks;
#[path = "oracles.rs"]
mod oracles;

use both_ticks::{DeviceSettings, Difference, MasterSettings, Seen};
use frames::{sealed, Xorshift};
use oracles::master_oracle::Master;
use oracles::party_oracle::{FSK, NO_LIMIT, SENDS};
use oracles::tick_oracle::Recorded;
use std::collections::VecDeque;
use std::process::ExitCode;

const RECORDINGS: usize = 5_000;
const TICKS: usize = 1_000;

const KIND: u8 = 0x20;

/// The two bytes of a tick.
type Tick = [u8; 2];

struct Party {
    name: &'static str,
    recording: fn(&mut Xorshift) -> Vec<u8>,
    differ: fn(&[u8], &mut Seen) -> Option<Difference>,
    /// What it tells, by its number; each must occur.
    told: &'static [(usize, &'static str)],
}

const PARTIES: [Party; 4] = [
    Party {
        name: "master with command 11 alone",
        recording: |random| master_recording(random, &[2]),
        differ: masters_differ,
        told: &[(1, "answered"), (3, "broadcast sent")],
    },
    Party {
        name: "master",
        recording: |random| master_recording(random, &[1, 2]),
        differ: masters_differ,
        told: &[(1, "answered"), (2, "given up"), (3, "broadcast sent")],
    },
    Party {
        name: "device that hears broadcasts alone",
        recording: |random| device_recording(random, &[0]),
        differ: devices_differ,
        told: &[(1, "request"), (2, "broadcast")],
    },
    Party {
        name: "device",
        recording: |random| device_recording(random, &[0, 2, 2, 3]),
        differ: devices_differ,
        told: &[(1, "request"), (2, "broadcast")],
    },
];

/// The master and the device that recordings are for.
fn masters_differ(recording: &[u8], seen: &mut Seen) -> Option<Difference> {
    let primary = MasterSettings {
        profile: FSK,
        primary: true,
        retries: 3,
        limit: NO_LIMIT,
    };
    primary.difference(recording, seen)
}

fn devices_differ(recording: &[u8], seen: &mut Seen) -> Option<Difference> {
    let device = DeviceSettings {
        profile: FSK,
        preamble: 5,
        polling: 0,
        unique: 2,
        limit: NO_LIMIT,
    };
    device.difference(recording, seen)
}

fn long_frame(
    random: &mut Xorshift,
    delimiter: u8,
    first: u8,
    address: u8,
    rest: &[u8],
) -> Vec<u8> {
    let mut body = vec![delimiter, first, 0, 0, 0, address];
    body.extend(rest);
    sealed(2 + random.below(4), &body)
}

/// An ACK or a BACK, most often an ACK to the master that repeats the address of command 11.
fn answer(random: &mut Xorshift) -> Vec<u8> {
    let delimiter = random.pick(&[0x86, 0x86, 0x86, 0x86, 0x86, 0x81]);
    let first = random.pick(&[0x80, 0x80, 0x80, 0x80, 0xC0, 0x00, 0x40]);
    let address = random.pick(&[0, 0, 0, 0, 2, 3]);
    let command = random.pick(&[11, 11, 11, 11, 3]);
    let status = random.pick(&[0, 0, 0, 0x80]);
    long_frame(random, delimiter, first, address, &[command, 2, status, 0])
}

/// An STX, most often with command 11, now and then with expansion bytes or the burst flag.
fn request(random: &mut Xorshift, addresses: &[u8]) -> Vec<u8> {
    let first = random.pick(&[0x80, 0x80, 0x00, 0xC0]);
    let address = random.pick(addresses);
    let command = random.pick(&[11, 11, 11, 3, 0]);
    match random.below(8) {
        0 => long_frame(random, 0xA2, first, address, &[9, command, 1, 7]),
        _ => long_frame(random, 0x82, first, address, &[command, 1, 7]),
    }
}

/// The ticks of a frame; once in so many a character is damaged or lost.
fn ticks_of(random: &mut Xorshift, frame: &[u8], ticks_to_damage: usize) -> Vec<Tick> {
    let mut ticks = Vec::new();
    for &character in frame {
        let kind = match random.below(ticks_to_damage) {
            0 => random.pick(&[0, 2, 3, 4]),
            _ => 1,
        };
        ticks.push([kind * KIND, character]);
    }
    ticks
}

fn silent(ticks: usize) -> Vec<Tick> {
    vec![[0, 0]; ticks]
}

/// A frame behind most STX that the oracle's master sends, and now and then at any other time.
fn master_recording(random: &mut Xorshift, calls: &[u8]) -> Vec<u8> {
    let ticks_to_damage = random.pick(&[20, 200, 100_000]);
    let ticks_to_call = random.pick(&[1, 10, 200]);
    let ticks_to_frame = random.pick(&[30, 300, 100_000]);
    let mut master = Master::start(true);
    let mut was_sending = false;
    let mut coming = VecDeque::new();
    let mut ticks = Vec::new();
    for _ in 0..TICKS {
        let mut tick: Tick = coming.pop_front().unwrap_or([0, 0]);
        if random.below(ticks_to_call) == 0 {
            tick[0] |= random.pick(calls);
        }
        let sends = master.tick(Recorded::of(&tick)) == SENDS;
        let behind_stx = was_sending && !sends && random.below(8) > 0;
        if behind_stx || coming.is_empty() && random.below(ticks_to_frame) == 0 {
            coming = silent(random.pick(&[0, 1, 2, 10, 31, 32, 33])).into();
            let frame = answer(random);
            coming.extend(ticks_of(random, &frame, ticks_to_damage));
        }
        was_sending = sends;
        ticks.push(tick);
    }
    ticks.concat()
}

/// Requests with silence between them, and the host's calls.
fn device_recording(random: &mut Xorshift, addresses: &[u8]) -> Vec<u8> {
    let ticks_to_damage = random.pick(&[20, 200, 100_000]);
    let ticks_to_call = random.pick(&[1, 5, 20]);
    let pauses = random.pick(&[[0, 1, 2, 9], [2, 17, 29, 30], [30, 40, 67, 80]]);
    let mut ticks = Vec::new();
    while ticks.len() < TICKS {
        ticks.extend(silent(random.pick(&pauses)));
        let frame = match random.below(8) {
            0 => answer(random),
            _ => request(random, addresses),
        };
        ticks.extend(ticks_of(random, &frame, ticks_to_damage));
    }
    for tick in &mut ticks {
        if random.below(ticks_to_call) == 0 {
            tick[0] |= random.pick(&[1, 1, 1, 2, 3, 4]);
        }
    }
    ticks.concat()
}

/// Whether both do the same in every recording, send, and tell each thing.
fn agrees(party: &Party) -> bool {
    let mut random = Xorshift(0x2545_F491_4F6C_DD1D);
    let mut seen = Seen::default();
    let mut differences = 0;
    for _ in 0..RECORDINGS {
        let recording = (party.recording)(&mut random);
        if let Some((tick, what)) = (party.differ)(&recording, &mut seen) {
            differences += 1;
            println!("{}: difference at tick {tick} in {what}", party.name);
        }
    }
    print!("tag_compare: {}, {RECORDINGS} recordings", party.name);
    for &(number, name) in party.told {
        print!(", {} {name}", seen.told[number]);
    }
    println!(
        ", {} sending of {} ticks, {differences} differences",
        seen.sent, seen.ticks
    );
    let occurs = |&(number, _): &(usize, &str)| seen.told[number] > 0;
    differences == 0 && seen.sent > 0 && party.told.iter().all(occurs)
}

fn main() -> ExitCode {
    match PARTIES.iter().filter(|party| !agrees(party)).count() {
        0 => ExitCode::SUCCESS,
        _ => ExitCode::FAILURE,
    }
}
