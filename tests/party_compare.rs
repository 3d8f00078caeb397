//! Compares the masters and devices of libnengapiko.a with the oracles, called once a tick, over
//! recordings: what both_ticks.rs says, of a primary and a device with the settings and the calls of
//! ticked.rs, and of masters and devices with several settings and all calls of calls.rs. The
//! recordings are the same in every run.

mod both_ticks;
mod calls;
mod engine_archive;
#[allow(dead_code)]
mod frames;
mod oracle_ticks;
#[path = "oracles.rs"]
mod oracles;

use both_ticks::{DeviceSettings, Difference, MasterSettings, Seen};
use calls::{GIVEN, REFUSED_REQUESTS, TAKEN_REQUESTS};
use frames::{random_frame, sealed, Xorshift};
use oracle_ticks::heard_of;
use oracles::frame_oracle::{ACK, LONG, PREAMBLE};
use oracles::party_oracle::{Profile, C8PSK, FSK, NO_LIMIT};
use std::collections::VecDeque;
use std::process::ExitCode;

const RECORDINGS: usize = 5_000;
const TICKS: usize = 1_000;

const KIND: u8 = 0x20;

/// Calls of ticked.rs: a request; an answer, with burst on, with burst off, and burst content.
const REQUESTS: [u8; 1] = [1];
const ANSWERS: [u8; 4] = [1, 2, 3, 4];

/// The settings of ticked.rs.
const PRIMARY: MasterSettings = MasterSettings {
    profile: FSK,
    primary: true,
    retries: 3,
    limit: NO_LIMIT,
};
const DEVICE_2: DeviceSettings = DeviceSettings {
    profile: FSK,
    preamble: 5,
    polling: 0,
    unique: 2,
    limit: NO_LIMIT,
};

/// The shortest that the check takes.
const SHORTEST: Profile = Profile {
    sto: 1,
    hold: 1,
    rt2: 2,
    rt1_primary: 3,
    rt1_secondary: 5,
};

/// Data limits: none, and at or one below a length that calls.rs has.
const LIMITS: [usize; 8] = [NO_LIMIT, NO_LIMIT, NO_LIMIT, 254, 17, 16, 3, 2];

/// What a reader tells, by its number.
const EVENTS: [&str; 5] = [
    "no event",
    "passed over",
    "frame broken",
    "frame whole",
    "frame damaged",
];

/// The two bytes of a tick.
type Tick = [u8; 2];

/// The answer that a master waits for behind its STX; now and then with the burst flag, with bit 7 of
/// the first data byte, or long.
fn own_ack(random: &mut Xorshift, stx: &[u8]) -> Vec<u8> {
    let preambles = stx.iter().take_while(|&&c| c == PREAMBLE).count();
    let stx = &stx[preambles..];
    let command = if stx[0] & LONG != 0 { 6 } else { 2 };
    let mut body = stx[..=command].to_vec();
    body[0] = stx[0] & LONG | ACK;
    body[1] |= random.pick(&[0, 0, 0, 0x40]);
    let count = random.pick(&[2, 2, 2, 5, 255]);
    body.push(count);
    body.push(random.pick(&[0, 0, 0, 0x80]));
    body.extend(random.bytes(usize::from(count) - 1));
    sealed(2 + random.below(4), &body)
}

/// An answer to the master or a bursting device's frame, or one that is not for it.
fn answer(random: &mut Xorshift) -> Vec<u8> {
    let delimiter = random.pick(&[0x86, 0x86, 0x86, 0x82, 0x81, 0x06]);
    let first = random.pick(&[0x80, 0x80, 0x00, 0xC0, 0x40]);
    let status = random.pick(&[0, 0, 0, 0x80]);
    let mut body = vec![delimiter, first];
    if delimiter & 0x80 != 0 {
        body.extend([0, 0, 0, random.pick(&[2, 2, 2, 3])]);
    }
    body.extend([random.pick(&[3, 3, 3, 0]), 2, status, 0]);
    sealed(2 + random.below(4), &body)
}

/// A request to the device, a broadcast, or a frame that is not for it.
fn request(random: &mut Xorshift, to: &DeviceSettings) -> Vec<u8> {
    let delimiter = random.pick(&[0x82, 0x82, 0x82, 0x02, 0x02, 0xA2, 0x86]);
    let flags = random.pick(&[0x80, 0x80, 0x00, 0x80]);
    let polling = to.polling ^ random.pick(&[0, 0, 0, 1]);
    let unique = random.pick(&[to.unique, to.unique, to.unique, 0, 3]);
    let mut body = vec![delimiter];
    match delimiter & LONG {
        0 => body.push(flags | polling),
        _ => {
            body.extend(&unique.to_be_bytes()[3..]);
            body[1] |= flags;
        }
    }
    body.push(random.pick(&[0, 0, 3, 3, 11, 255]));
    let count = random.pick(&[0, 1, 2, 2, 2, 7, 40, 255]);
    body.push(count);
    body.extend(random.bytes(count.into()));
    sealed(2 + random.below(4), &body)
}

/// How often a character of a frame is damaged or lost, how often silence stands before one, and
/// how often the host calls: once in so many ticks.
struct Rates {
    damage: usize,
    silence: usize,
    call: usize,
}

impl Rates {
    fn pick(random: &mut Xorshift) -> Rates {
        Rates {
            damage: random.pick(&[20, 200, 100_000]),
            silence: random.pick(&[5, 50, 100_000]),
            call: random.pick(&[1, 10, 200]),
        }
    }

    /// The ticks of a frame.
    fn frame(&self, random: &mut Xorshift, frame: &[u8]) -> Vec<Tick> {
        let mut ticks = Vec::new();
        for &character in frame {
            if random.below(self.silence) == 0 {
                ticks.extend(silent(random.pick(&[1, 1, 1, 1, 1, 1, 2, 3])));
            }
            let kind = match random.below(self.damage) {
                0 => random.pick(&[0, 2, 3, 4]),
                _ => 1,
            };
            ticks.push([kind * KIND, character]);
        }
        ticks
    }

    fn with_call(&self, random: &mut Xorshift, mut tick: Tick, calls: &[u8]) -> Tick {
        if random.below(self.call) == 0 {
            tick[0] |= random.pick(calls);
        }
        tick
    }
}

fn silent(ticks: usize) -> Vec<Tick> {
    vec![[0, 0]; ticks]
}

/// Frames with silence between them, now and then damaged, cut or with silent ticks inside, and the
/// host's calls.
fn frames(
    random: &mut Xorshift,
    frame: impl Fn(&mut Xorshift) -> Vec<u8>,
    calls: &[u8],
) -> Vec<u8> {
    let rates = Rates::pick(random);
    let pauses = random.pick(&[[0, 1, 2, 9], [9, 17, 34, 35], [30, 40, 67, 80]]);
    let mut ticks = Vec::new();
    while ticks.len() < TICKS {
        ticks.extend(silent(random.pick(&pauses)));
        let frame = match random.below(8) {
            0 => random_frame(random),
            _ => frame(random),
        };
        ticks.extend(rates.frame(random, &frame));
    }
    let called = ticks
        .into_iter()
        .map(|tick| rates.with_call(random, tick, calls));
    called.collect::<Vec<Tick>>().concat()
}

/// A frame behind most STX that the oracle's master sends, now and then damaged, cut or with silent
/// ticks inside, and the host's calls.
fn answers(random: &mut Xorshift, settings: &MasterSettings, calls: &[u8]) -> Vec<u8> {
    let rates = Rates::pick(random);
    let mut master = settings.oracle();
    let mut was_sending = false;
    let mut coming = VecDeque::new();
    let mut ticks = Vec::new();
    for _ in 0..TICKS {
        let tick = coming.pop_front().unwrap_or([0, 0]);
        let tick = rates.with_call(random, tick, calls);
        let [first, character] = tick;
        let ticked = master.tick(
            heard_of(first / KIND, character),
            calls::request(first % KIND),
        );
        let sends = ticked.results[0] != 0;
        if was_sending && !sends && random.below(8) > 0 {
            let frame = match random.flag() {
                true => own_ack(random, master.party.out().frame()),
                false => answer(random),
            };
            coming = silent(random.pick(&[0, 1, 2, 10, 30, 31, 32, 33])).into();
            coming.extend(rates.frame(random, &frame));
        }
        was_sending = sends;
        ticks.push(tick);
    }
    ticks.concat()
}

fn recording_for(random: &mut Xorshift, settings: &MasterSettings, calls: &[u8]) -> Vec<u8> {
    match random.flag() {
        true => frames(random, answer, calls),
        false => answers(random, settings, calls),
    }
}

/// A recording for the primary of ticked.rs, and the first difference in it.
fn primaries_differ(random: &mut Xorshift, seen: &mut Seen) -> Option<Difference> {
    let recording = recording_for(random, &PRIMARY, &REQUESTS);
    PRIMARY.difference(&recording, seen)
}

/// The same for its device.
fn devices_2_differ(random: &mut Xorshift, seen: &mut Seen) -> Option<Difference> {
    let recording = frames(random, |random| request(random, &DEVICE_2), &ANSWERS);
    DEVICE_2.difference(&recording, seen)
}

/// A recording for a master of some settings, and the first difference in it. The calls are most often
/// those that a free master takes.
fn masters_differ(random: &mut Xorshift, seen: &mut Seen) -> Option<Difference> {
    let settings = MasterSettings {
        profile: random.pick(&[FSK, FSK, C8PSK, SHORTEST]),
        primary: random.flag(),
        retries: random.pick(&[3, 3, 4, 15]),
        limit: random.pick(&LIMITS),
    };
    let calls = match random.flag() {
        true => TAKEN_REQUESTS.to_vec(),
        false => [&TAKEN_REQUESTS[..], &REFUSED_REQUESTS].concat(),
    };
    let recording = recording_for(random, &settings, &calls);
    settings.difference(&recording, seen)
}

/// The same for a device. Every other time no call is refused for its data or its command.
fn devices_differ(random: &mut Xorshift, seen: &mut Seen) -> Option<Difference> {
    let settings = DeviceSettings {
        profile: random.pick(&[FSK, FSK, C8PSK, SHORTEST]),
        preamble: random.pick(&[5, 5, 6, 20]),
        polling: random.pick(&[0, 0, 1, 63]),
        unique: random.pick(&[2, 2, 1, (1 << 38) - 1]),
        limit: random.pick(&LIMITS),
    };
    let calls = random.pick(&[&GIVEN[..9], &GIVEN]);
    let recording = frames(random, |random| request(random, &settings), calls);
    settings.difference(&recording, seen)
}

/// Whether no tick differs, and each thing told, each refusal, every event, BURST and both silent ticks
/// inside frames occur.
fn ticks_agree(
    name: &str,
    differ: fn(&mut Xorshift, &mut Seen) -> Option<Difference>,
    told: &[&str],
    refusals: &[usize],
) -> bool {
    let mut random = Xorshift(0x2545_F491_4F6C_DD1D);
    let mut seen = Seen::default();
    let mut differences = 0;
    for _ in 0..RECORDINGS {
        if let Some((tick, what)) = differ(&mut random, &mut seen) {
            differences += 1;
            println!("{name}: difference at tick {tick} in {what}");
        }
    }
    print!("party_compare: {name}, {} ticks", seen.ticks);
    print!(", {} sending, {} in burst", seen.sent, seen.burst);
    for (what, ticks) in told.iter().zip(seen.told) {
        print!(", {ticks} {what}");
    }
    for (event, ticks) in EVENTS.iter().zip(seen.events) {
        print!(", {ticks} {event}");
    }
    for &number in refusals {
        print!(", {} refused with {number}", seen.returned[number]);
    }
    println!(
        ", in frames {} silent ticks to pass over and {} that break, {differences} differences",
        seen.inside.passed_over, seen.inside.breaks
    );
    differences == 0 && seen.has_all(told.len(), refusals)
}

fn main() -> ExitCode {
    let agree = [
        ticks_agree(
            "the primary of recordings",
            primaries_differ,
            &["tell nothing", "answered", "given up"],
            &[7],
        ),
        ticks_agree(
            "the device of recordings",
            devices_2_differ,
            &["tell nothing", "request", "broadcast"],
            &[8, 10],
        ),
        ticks_agree(
            "masters",
            masters_differ,
            &["tell nothing", "answered", "given up", "broadcast sent"],
            &[3, 4, 5, 6, 7, 17],
        ),
        ticks_agree(
            "devices",
            devices_differ,
            &["tell nothing", "request", "broadcast"],
            &[5, 8, 9, 10],
        ),
    ];
    match agree == [true; 4] {
        true => ExitCode::SUCCESS,
        false => ExitCode::FAILURE,
    }
}
