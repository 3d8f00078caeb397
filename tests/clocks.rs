//! The link in plain Rust with clocks that differ, which every promise leaves out: in each silence every
//! party's timers count up to d silent ticks more or fewer than the line has, for d from 0 to 7, with
//! FSK and with C8PSK. Both masters are busy and start together, six devices answer at random ticks up
//! to T+STO, and one of them bursts part of the time. No two parties may send in one tick while the
//! profile has room for d, and with the largest d some must, or the test would not see them. The runs
//! are the same each time, and docs/WHY.md has the table that is printed.

#[allow(dead_code)]
mod frames;
#[path = "oracles.rs"]
mod oracles;

use frames::Xorshift;
use oracles::device_oracle::{Device, Told, Wish};
use oracles::frame_oracle::{ACK, STX, TAKEN};
use oracles::link_oracle::{Link, DEVICES, MASTERS, PARTIES};
use oracles::master_oracle::Master;
use oracles::party_oracle::{Profile, C8PSK, FSK, NO_LIMIT, PREAMBLES};
use oracles::tick_oracle::Heard;
use std::process::ExitCode;

const LARGEST: usize = 7;
const TICKS: usize = 2_000_000;
const RETRIES: u32 = 3;

/// The device that bursts part of the time.
const BURSTING: usize = 0;

/// Whether an ACK begins before the primary's window opens, and the window that timer 1 opens is shut
/// before RT2 ends, with the one party d silent ticks late and the other d early.
fn has_room(profile: &Profile, d: usize) -> bool {
    let apart = 2 * d as u32;
    profile.sto + apart <= profile.rt1_primary && 1 + profile.hold + apart <= profile.rt2
}

/// A party's count of silent ticks. The error of a silence is drawn from -d to d with its first tick;
/// a silence that ends before the error is there whole has a part of it.
struct Clock {
    d: usize,
    profile: Profile,
    in_silence: bool,
    is_fast: bool,
    /// What is left of the error, and of the silent ticks over which it is spread.
    error: usize,
    span: usize,
}

impl Clock {
    fn start(profile: Profile, d: usize) -> Clock {
        Clock {
            d,
            profile,
            in_silence: false,
            is_fast: false,
            error: 0,
            span: 0,
        }
    }

    /// The silent ticks that the timers count where they should count so many; none ends a silence. The
    /// first of a silence count as they are: a reader waits for them. Of the ticks behind them that the
    /// error is spread over, each is as likely as the others to count twice, if the clock is fast, or
    /// not at all.
    fn counted(&mut self, silent_ticks: u32, random: &mut Xorshift) -> u32 {
        let was_in_silence = std::mem::replace(&mut self.in_silence, silent_ticks > 0);
        match (was_in_silence, self.in_silence) {
            (_, false) => 0,
            (false, true) => {
                self.draw(random);
                silent_ticks
            }
            (true, true) if self.is_off(random) => match self.is_fast {
                true => 2 * silent_ticks,
                false => 0,
            },
            (true, true) => silent_ticks,
        }
    }

    /// The error is spread over as many ticks as it has, or over up to RT2 or RT1 primary more: it is
    /// there whole before the shortest timers end, or comes slowly.
    fn draw(&mut self, random: &mut Xorshift) {
        let drawn = random.below(2 * self.d + 1);
        self.is_fast = drawn > self.d;
        self.error = drawn.abs_diff(self.d);
        let Profile {
            rt2, rt1_primary, ..
        } = self.profile;
        let more = random.pick(&[1, rt2, rt1_primary]);
        self.span = self.error + random.below(more as usize);
    }

    fn is_off(&mut self, random: &mut Xorshift) -> bool {
        if self.error == 0 {
            return false;
        }
        let is_off = random.below(self.span) < self.error;
        self.span -= 1;
        self.error -= usize::from(is_off);
        is_off
    }
}

fn master_takes(master: &mut Master, clock: &mut Clock, heard: Heard, random: &mut Xorshift) {
    if master.is_deaf() {
        clock.counted(0, random);
        return;
    }
    let event = master.read(heard);
    let silent_ticks = clock.counted(master.reader().silent_ticks(heard, &event), random);
    master.take_counted(heard, event, silent_ticks);
}

/// What the host is told, and the silent ticks that were counted.
fn device_takes(
    device: &mut Device,
    clock: &mut Clock,
    heard: Heard,
    random: &mut Xorshift,
) -> (Told, u32) {
    if device.is_deaf() {
        return (Told::Nothing, clock.counted(0, random));
    }
    let event = device.read(heard);
    let silent_ticks = clock.counted(device.reader().silent_ticks(heard, &event), random);
    let told = device.take_counted(heard, event, silent_ticks);
    (told, silent_ticks)
}

/// A link whose parties have clocks of their own, and its hosts.
struct Run {
    profile: Profile,
    link: Link,
    clocks: [Clock; PARTIES],
    random: Xorshift,
    /// Whether a master's host asks when it likes, and the ticks until a device's host answers, which
    /// counts with its device.
    is_idle: [bool; MASTERS],
    answers_in: [Option<u32>; DEVICES],
}

impl Run {
    fn start(profile: Profile, d: usize) -> Run {
        let mut link = Link::start_with(profile, RETRIES, [PREAMBLES; DEVICES], NO_LIMIT);
        link.devices[BURSTING].burst_content(3, &[0, 0]);
        Run {
            profile,
            link,
            clocks: std::array::from_fn(|_| Clock::start(profile, d)),
            random: Xorshift(0x2545_F491_4F6C_DD1D),
            is_idle: [false; MASTERS],
            answers_in: [None; DEVICES],
        }
    }

    fn tick(&mut self) -> [Option<u8>; PARTIES] {
        let heard = self.link.heard;
        for party in 0..MASTERS {
            let master = &mut self.link.masters[party];
            master_takes(master, &mut self.clocks[party], heard, &mut self.random);
            self.ask(party);
        }
        for at in 0..DEVICES {
            let device = &mut self.link.devices[at];
            let clock = &mut self.clocks[MASTERS + at];
            let taken = device_takes(device, clock, heard, &mut self.random);
            self.answer(at, taken);
        }
        self.link.send()
    }

    /// Asks one of the devices, or one that is not there, by its unique or its polling address. The next
    /// message is then asked for as soon as this one is over, or when the host likes.
    fn ask(&mut self, party: usize) {
        if self.is_idle[party] && !self.likes_to_ask(party) {
            return;
        }
        let at = self.random.below(DEVICES + 1) as u64;
        let master = &mut self.link.masters[party];
        let answer = match self.random.below(4) {
            0 => master.request(false, at, 0),
            _ => master.request(true, at + MASTERS as u64, 3),
        };
        if answer == TAKEN {
            self.is_idle[party] = self.random.flag();
        }
    }

    /// Mostly in a silence behind an ACK or a BACK to the other master: its own window comes first
    /// there, and a message may also begin in the last tick of it.
    fn likes_to_ask(&mut self, party: usize) -> bool {
        let frame = self.link.masters[party].reader().frame();
        let to_other = frame.frame_type != STX && frame.primary != (party == 0);
        let is_silent = matches!(self.link.heard, Heard::Silence);
        let rate = if to_other && is_silent { 4 } else { 200 };
        self.random.below(rate) == 0
    }

    /// Answers what it was told in T+1 in one of the ticks T+1 to T+STO, often in the last.
    fn answer(&mut self, at: usize, (told, silent_ticks): (Told, u32)) {
        let device = &mut self.link.devices[at];
        if matches!(told, Told::Request) {
            let any = self.random.below(self.profile.sto as usize) as u32;
            self.answers_in[at] = Some(self.random.pick(&[any, any, self.profile.sto - 1]));
        } else if let Some(left) = &mut self.answers_in[at] {
            *left = left.saturating_sub(silent_ticks);
        }
        if self.answers_in[at] == Some(0) {
            let wish = match device.request().command {
                3 if at == BURSTING => self.random.pick(&[Wish::AsItIs, Wish::On, Wish::Off]),
                _ => Wish::AsItIs,
            };
            device.answer(&[0, 0], wish);
            self.answers_in[at] = None;
        }
    }
}

/// What was seen of a run.
#[derive(Default)]
struct Seen {
    stx: usize,
    acks: usize,
    backs: usize,
    /// Ticks in which two or more parties sent.
    meetings: usize,
}

impl Seen {
    fn frame(&mut self, frame: &[u8]) {
        match frame[PREAMBLES] & 0x07 {
            STX => self.stx += 1,
            ACK => self.acks += 1,
            _ => self.backs += 1,
        }
    }

    /// Nobody meets where there is room, and somebody does with the largest d.
    fn is_as_said(&self, room: bool, d: usize) -> bool {
        let all_occur = self.stx > 0 && self.acks > 0 && self.backs > 0;
        let met = self.meetings > 0;
        all_occur && if room { !met } else { met || d < LARGEST }
    }
}

fn run(profile: Profile, d: usize) -> Seen {
    let mut run = Run::start(profile, d);
    let mut seen = Seen::default();
    for _ in 0..TICKS {
        let sent = run.tick();
        let senders = || (0..PARTIES).filter(|&party| sent[party].is_some());
        seen.meetings += usize::from(senders().count() > 1);
        for out in senders().map(|party| run.link.out(party)) {
            if out.at_last() {
                seen.frame(out.frame());
            }
        }
    }
    seen
}

fn main() -> ExitCode {
    let paper = include_str!("../docs/WHY.md").replace(',', "");
    let mut other = 0;
    let mut missing = 0;
    println!(
        "clocks: d; with FSK and with C8PSK whether there is room, frames, ticks with two senders"
    );
    for d in 0..=LARGEST {
        let mut row = format!("| {d} |");
        for profile in [FSK, C8PSK] {
            let seen = run(profile, d);
            let room = has_room(&profile, d);
            let frames = seen.stx + seen.acks + seen.backs;
            let answer = if room { "yes" } else { "no" };
            row += &format!(" {answer} | {frames} | {} |", seen.meetings);
            other += usize::from(!seen.is_as_said(room, d));
        }
        println!("{row}");
        missing += usize::from(!paper.contains(&row));
    }
    println!(
        "clocks: {other} runs that are not as said, {missing} rows that docs/WHY.md does not have"
    );
    match other == 0 && missing == 0 {
        true => ExitCode::SUCCESS,
        false => ExitCode::FAILURE,
    }
}
