//! The infrared port's master and device of libnengapiko.a and those in plain Rust, each over the same
//! random ticks: frames, wake-ups, noise, damage, and silence up to and beyond the ticks after which a
//! device dozes. Compared are in every tick what the call returns, its 17 results and the lent buffers,
//! and the starts at their limits.

#[allow(dead_code)]
mod calls;
#[allow(dead_code)]
mod frames;
#[allow(dead_code)]
mod oracle_ticks;
#[path = "oracles.rs"]
mod oracles;
mod port_archive;
mod port_oracle;

use calls::{given, request, GIVEN, REFUSED_REQUESTS, TAKEN_REQUESTS};
use frames::{body, random_frame, sealed, Xorshift};
use oracle_ticks::{heard_of, Ticked};
use oracles::frame_oracle::{ACK, LONG, PREAMBLE, STX};
use port_archive::BEFORE;
use port_oracle::Ear;
use std::collections::VecDeque;
use std::process::ExitCode;

const RECORDINGS: usize = 250;
const PARTS: usize = 60;
const QUIET_TICKS: usize = 20_946;
const LIMITS: [usize; 6] = [0, 1, 2, 255, 256, usize::MAX];

/// The number of what was heard, and the character.
type Heard = (u8, u8);

fn characters(bytes: Vec<u8>) -> Vec<Heard> {
    bytes.into_iter().map(|byte| (1, byte)).collect()
}

fn wake_up(length: usize) -> Vec<u8> {
    (0..length)
        .map(|at| if at % 2 == 0 { 0x00 } else { 0xFF })
        .collect()
}

/// An STX to device 2, or its answer.
fn own_frame(random: &mut Xorshift, frame_type: u8) -> Vec<u8> {
    let command = random.pick(&[0, 3, 11, 48]);
    let count = random.pick(&[0, 2, 5]);
    let mut bytes = vec![
        LONG | frame_type,
        0x80,
        0,
        0,
        0,
        random.pick(&[0, 2, 2]),
        command,
    ];
    let data = random.bytes(if frame_type == STX {
        count
    } else {
        count.max(2)
    });
    bytes.push(data.len() as u8);
    bytes.extend(data);
    sealed(5, &bytes)
}

/// Characters from these alone, in any order.
fn noise(random: &mut Xorshift) -> Vec<Heard> {
    let count = 1 + random.below(6);
    (0..count)
        .map(|_| {
            (
                random.pick(&[0, 1, 1, 1, 2, 3, 4]),
                random.pick(&[0x00, 0xFF, 0xFF, 0x55]),
            )
        })
        .collect()
}

fn silence(random: &mut Xorshift) -> Vec<Heard> {
    let ticks = match random.below(12) {
        0 => QUIET_TICKS - 2 + random.below(5),
        1 => 456 - 2 + random.below(5),
        2..=4 => 40 + random.below(60),
        _ => random.below(16),
    };
    vec![(0, 0); ticks]
}

fn part(random: &mut Xorshift) -> Vec<Heard> {
    let mut part = match random.below(9) {
        0 => characters(random_frame(random)),
        1 => characters(own_frame(random, ACK)),
        2 => characters(own_frame(random, STX)),
        3 | 4 => {
            let mut bytes = wake_up(random.pick(&[3, 4, 57, 358]));
            bytes.extend(own_frame(random, STX));
            characters(bytes)
        }
        5 => noise(random),
        6 => characters(body(random, LONG | ACK, 2)),
        _ => silence(random),
    };
    // now and then a character is lost or damaged
    if random.below(4) == 0 && !part.is_empty() {
        let at = random.below(part.len());
        part[at].0 = random.pick(&[0, 2, 3, 4]);
    }
    part
}

fn recording(random: &mut Xorshift) -> Vec<Heard> {
    (0..PARTS).flat_map(|_| part(random)).collect()
}

/// What occurred in the ticks compared.
#[derive(Default)]
struct Seen {
    ticks: u64,
    sent: u64,
    told: [u64; 4],
    events: [u64; 5],
    returned: [u64; 18],
    wake_ups: u64,
    dozes: u64,
    passes_over: u64,
}

impl Seen {
    fn tick(&mut self, ticked: &Ticked) {
        let [sent, told, _, event, ..] = ticked.results;
        self.ticks += 1;
        self.sent += u64::from(sent != 0);
        self.told[told as usize] += 1;
        self.events[event as usize] += 1;
        self.returned[ticked.returned as usize] += 1;
    }

    fn has(&self, told: usize, refusals: &[usize]) -> bool {
        self.told[..told].iter().all(|&ticks| ticks > 0)
            && self.events.iter().all(|&ticks| ticks > 0)
            && refusals.iter().all(|&number| self.returned[number] > 0)
            && self.sent > 0
    }
}

fn same(engine: &Ticked, plain: &Ticked) -> bool {
    engine.returned == plain.returned && engine.results == plain.results
}

/// Silence, then an ACK to the STX that was sent last; now and then with bit 7 of its first data byte.
fn answer(random: &mut Xorshift, stx: &[u8]) -> Vec<Heard> {
    let body = stx.iter().copied().skip_while(|&byte| byte == PREAMBLE);
    let mut body: Vec<u8> = body.collect();
    let head = if body[0] & LONG != 0 { 7 } else { 3 };
    body.truncate(head);
    body[0] |= ACK;
    body.extend([2, random.pick(&[0x00, 0x00, 0x80]), 0x00]);
    let mut ticks = vec![(0, 0); 1 + random.below(20)];
    ticks.extend(characters(sealed(5, &body)));
    ticks
}

/// The first tick in which something differs.
fn master_difference(random: &mut Xorshift, seen: &mut Seen) -> Option<usize> {
    let (primary, retries) = (random.flag(), random.pick(&[3, 4, 15]));
    let mut engine = port_archive::Master::start(primary, retries, 255).1;
    let mut plain = port_oracle::Master::start(primary, retries);
    let often = random.pick(&[5, 300, 3000]);
    let mut answers = VecDeque::new();
    let mut sent_before = false;
    recording(random).into_iter().position(|heard| {
        let heard = answers.pop_front().unwrap_or(heard);
        let call = match random.below(often) {
            0 => random.pick(&TAKEN_REQUESTS),
            1 => random.pick(&REFUSED_REQUESTS),
            _ => 0,
        };
        let found = engine.tick(heard, request(call));
        let wanted = plain.tick(heard_of(heard.0, heard.1), request(call));
        seen.tick(&wanted);
        seen.wake_ups += u64::from(plain.is_waking());
        let sends = wanted.results[0] != 0;
        if sent_before && !sends && random.flag() {
            answers.extend(answer(random, plain.party.out().frame()));
        }
        sent_before = sends;
        let buffers = engine.data == *plain.data() && engine.frame == *plain.party.out().buffer();
        !same(&found, &wanted) || !buffers
    })
}

fn device_difference(random: &mut Xorshift, seen: &mut Seen) -> Option<usize> {
    let mut engine = port_archive::Device::start(5, 0, 2, 255).1;
    let mut plain = port_oracle::Device::start(0, 2);
    let often = random.pick(&[3, 20, 60]);
    recording(random).into_iter().position(|heard| {
        let call = match random.below(often) {
            0 => random.pick(&GIVEN),
            _ => 0,
        };
        let found = engine.tick(heard, given(call));
        let wanted = plain.tick(heard_of(heard.0, heard.1), given(call));
        seen.tick(&wanted);
        seen.dozes += u64::from(plain.ear == Ear::Dozes);
        seen.passes_over += u64::from(plain.ear == Ear::PassesOver);
        let buffers = engine.data == *plain.data() && engine.frame == *plain.party.out().buffer();
        !same(&found, &wanted) || !buffers
    })
}

/// The first that applies of these, or 0.
fn first_of(refusals: &[(bool, u32)]) -> u32 {
    let refused = refusals.iter().find(|(applies, _)| *applies);
    refused.map_or(0, |&(_, number)| number)
}

/// How many starts return another number than the item's, or change words though they are refused.
fn starts_that_differ() -> usize {
    let mut differ = 0;
    for limit in LIMITS {
        let bad_limit = (!(2..=255).contains(&limit), 9);
        for retries in 0..=20 {
            let (returned, master) = port_archive::Master::start(true, retries, limit);
            let wanted = first_of(&[(!(3..=15).contains(&retries), 2), bad_limit]);
            let left = master.state == [BEFORE; 40] && master.port == [BEFORE; 2];
            differ += usize::from(returned != wanted || left != (wanted != 0));
        }
        for preamble in [0, 4, 5, 6, 20, 21] {
            for (polling, unique) in [
                (0, 2),
                (63, 1),
                (64, 2),
                (0, 0),
                (5, (1 << 38) - 1),
                (5, 1 << 38),
            ] {
                let (returned, device) =
                    port_archive::Device::start(preamble, polling, unique, limit);
                let bad_address = polling > 63 || unique == 0 || unique >= 1 << 38;
                let wanted = first_of(&[(preamble != 5, 3), (bad_address, 4), bad_limit]);
                let left = device.state == [BEFORE; 41] && device.port == [BEFORE; 6];
                differ += usize::from(returned != wanted || left != (wanted != 0));
            }
        }
    }
    differ
}

fn main() -> ExitCode {
    let mut random = Xorshift(0x1F2E_3D4C_5B6A_7988);
    let (mut masters, mut devices) = (Seen::default(), Seen::default());
    let mut differences = starts_that_differ();
    for number in 0..RECORDINGS {
        if let Some(tick) = master_difference(&mut random, &mut masters) {
            println!("port master, recording {number}: differs in tick {tick}");
            differences += 1;
        }
        if let Some(tick) = device_difference(&mut random, &mut devices) {
            println!("port device, recording {number}: differs in tick {tick}");
            differences += 1;
        }
    }
    println!(
        "port: {} ticks of a master, {} of them of a wake-up; {} ticks of a device, {} of them dozing, {} passing over; {differences} differences",
        masters.ticks, masters.wake_ups, devices.ticks, devices.dozes, devices.passes_over,
    );
    let all = masters.has(4, &[3, 4, 5, 6, 7, 17])
        && devices.has(3, &[8, 9, 10])
        && masters.wake_ups > 0
        && devices.dozes > 0
        && devices.passes_over > 0;
    if !all {
        println!("port: something that is compared did not occur");
    }
    match differences {
        0 if all => ExitCode::SUCCESS,
        _ => ExitCode::FAILURE,
    }
}
