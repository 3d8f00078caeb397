//! Compares the archives' tick readers with the oracle: over recordings the number of ticks, and the
//! whole buffer of events; and of a reader that is called once a tick, over some of them, the event, the
//! frame's fields and damage, the data and the state, as both_ticks.rs says. The recordings are the same
//! in every run.

mod both_ticks;
mod called;
mod calls;
mod engine_archive;
mod frames;
mod line_archive;
mod oracle_ticks;
#[path = "oracles.rs"]
mod oracles;

use both_ticks::readers_differ;
use frames::*;
use oracles::frame_oracle::PREAMBLE;
use oracles::tick_oracle::{self, Silences};
use std::process::ExitCode;

const EVENTS: [&str; 5] = ["nothing", "passed over", "broken", "whole", "damaged"];

const SILENCE: [u8; 2] = [0, 0];
const CHARACTER: u8 = 1;
/// The kinds of a recording: parity, overrun and framing.
const DAMAGES: [u8; 3] = [2, 3, 4];

/// What stands in the events before a run, and behind those that it takes.
const PATTERN: u8 = 0xA5;
/// Room behind a recording's last tick that must stay as it was.
const SPARE: usize = 8;

const DIFFERENCES_SHOWN: u64 = 5;

/// Of so many recordings one is for the reader that is called once a tick.
const TICKED: u64 = 4;

/// The two bytes of a tick.
fn tick(kind: u8, character: u8) -> [u8; 2] {
    [kind << 5, character]
}

fn characters(bytes: &[u8]) -> Vec<u8> {
    bytes
        .iter()
        .flat_map(|&byte| tick(CHARACTER, byte))
        .collect()
}

struct Family {
    name: &'static str,
    recordings: u64,
    ticks: u64,
}

#[derive(Default)]
struct Comparison {
    families: Vec<Family>,
    events: [u64; EVENTS.len()],
    silences: Silences,
    /// Recordings and ticks of the reader that is called once a tick.
    ticked_recordings: u64,
    ticked: u64,
    differences: u64,
}

impl Comparison {
    fn family(&mut self, name: &'static str) {
        self.families.push(Family {
            name,
            recordings: 0,
            ticks: 0,
        });
    }

    fn ticks(&self) -> u64 {
        self.families.iter().map(|family| family.ticks).sum()
    }

    fn run(&mut self, recording: &[u8]) {
        self.run_in(recording, recording.len() / 2 + SPARE);
    }

    fn run_in(&mut self, recording: &[u8], room: usize) {
        let mut by_archive = vec![PATTERN; room];
        let mut by_oracle = by_archive.clone();
        let archive_ticks = line_archive::ticks(recording, &mut by_archive);
        let oracle_ticks = tick_oracle::ticks(recording, &mut by_oracle);
        if let Some(family) = self.families.last_mut() {
            family.recordings += 1;
            family.ticks += oracle_ticks as u64;
            let number = family.recordings;
            self.run_ticks(recording, number);
        }
        for &event in &by_oracle[..oracle_ticks] {
            self.events[usize::from(event)] += 1;
        }
        let silences = tick_oracle::silences(&recording[..2 * oracle_ticks]);
        self.silences.passed_over += silences.passed_over;
        self.silences.breaks += silences.breaks;
        if (archive_ticks, &by_archive) != (oracle_ticks, &by_oracle) {
            self.difference(
                recording,
                (archive_ticks, &by_archive),
                (oracle_ticks, &by_oracle),
            );
        }
    }

    /// The reader that is called once a tick, over every fourth recording.
    fn run_ticks(&mut self, recording: &[u8], number: u64) {
        if number % TICKED != 0 {
            return;
        }
        self.ticked_recordings += 1;
        self.ticked += recording.len() as u64 / 2;
        if let Some((tick, what)) = readers_differ(recording) {
            self.differences += 1;
            if self.differences <= DIFFERENCES_SHOWN {
                println!("difference at tick {tick} in {what}: {recording:02x?}");
            }
        }
    }

    fn difference(&mut self, recording: &[u8], archive: (usize, &[u8]), oracle: (usize, &[u8])) {
        self.differences += 1;
        if self.differences <= DIFFERENCES_SHOWN {
            println!("difference");
            println!("  recording {recording:02x?}");
            println!("  archive   {} ticks {:?}", archive.0, archive.1);
            println!("  oracle    {} ticks {:?}", oracle.0, oracle.1);
        }
    }

    /// Prints the counts; tells whether all agreed, and every event and both silences occurred.
    fn report(&self) -> bool {
        println!("{:<44}{:>10}{:>12}", "family", "runs", "ticks");
        for family in &self.families {
            println!(
                "{:<44}{:>10}{:>12}",
                family.name, family.recordings, family.ticks
            );
        }
        println!("{:<44}{:>22}", "event", "ticks");
        let mut all = true;
        for (event, ticks) in EVENTS.iter().zip(self.events) {
            println!("{event:<44}{ticks:>22}");
            if ticks == 0 {
                println!("tick_compare: no tick told {event}");
                all = false;
            }
        }
        let Silences {
            passed_over,
            breaks,
        } = self.silences;
        println!(
            "{:<44}{passed_over:>22}",
            "silence inside a frame, passed over"
        );
        println!("{:<44}{breaks:>22}", "silence that breaks a frame");
        all &= passed_over > 0 && breaks > 0;
        println!(
            "tick_compare: {} ticks, and {} recordings with {} ticks called one by one, {} differences",
            self.ticks(),
            self.ticked_recordings,
            self.ticked,
            self.differences
        );
        all && self.ticked > 0 && self.differences == 0
    }
}

/// A character as it stands in frames: often 0xFF, a delimiter or a small number.
fn likely_character(random: &mut Xorshift) -> u8 {
    match random.below(8) {
        0..=2 => PREAMBLE,
        3 | 4 => delimiter(random),
        5 | 6 => random.byte() & 0x03,
        _ => random.byte(),
    }
}

fn random_ticks(comparison: &mut Comparison, random: &mut Xorshift) {
    comparison.family("random ticks, rich in 0xFF and delimiters");
    for _ in 0..20_000 {
        let ticks_to_silence = random.pick(&[3, 10, 30, 100]);
        let ticks_to_damage = random.pick(&[5, 50, 1000]);
        let ticks = random.below(400);
        let mut recording = Vec::with_capacity(2 * ticks);
        for _ in 0..ticks {
            let kind = match random.below(ticks_to_damage) {
                0 => random.pick(&DAMAGES),
                _ => CHARACTER,
            };
            recording.extend(match random.below(ticks_to_silence) {
                0 => SILENCE,
                _ => tick(kind, likely_character(random)),
            });
        }
        comparison.run(&recording);
    }
}

fn random_bytes(comparison: &mut Comparison, random: &mut Xorshift) {
    comparison.family("random bytes, odd lengths, every kind");
    for _ in 0..20_000 {
        let size = random.below(200);
        comparison.run(&random.bytes(size));
    }
}

fn rooms(comparison: &mut Comparison, random: &mut Xorshift) {
    comparison.family("room for 0 events and more");
    for _ in 0..500 {
        let recording = [&SILENCE, &characters(&random_frame(random))[..], &[0x20]].concat();
        let ticks = recording.len() / 2;
        for room in [0, 1, 2, ticks / 2, ticks - 1, ticks, ticks + 1] {
            comparison.run_in(&recording, room);
            comparison.run_in(&recording[..recording.len() - 1], room);
        }
    }
    comparison.run_in(&[], 0);
    comparison.run_in(&[], 3);
}

/// A frame whose places are tried one by one, with at most 40 data bytes to keep the runs short.
fn short_frame(random: &mut Xorshift) -> Vec<u8> {
    let count = 2 + random.below(39) as u8;
    let delimiter = delimiter(random);
    sealed(2 + random.below(6), &body(random, delimiter, count))
}

/// Silence, a frame with something done to one of its ticks, perhaps silence, and a sound frame.
fn frame_with_change(
    random: &mut Xorshift,
    frame: &[u8],
    change: impl FnOnce(&mut Vec<u8>),
) -> Vec<u8> {
    let mut recording = characters(frame);
    change(&mut recording);
    let gap = SILENCE.repeat(random.below(3));
    [
        &SILENCE,
        &recording[..],
        &gap,
        &characters(&short_frame(random)),
    ]
    .concat()
}

fn damage_at_each_place(comparison: &mut Comparison, random: &mut Xorshift) {
    comparison.family("a frame with one damaged character");
    for _ in 0..400 {
        let frame = short_frame(random);
        for at in 0..frame.len() {
            for kind in DAMAGES {
                for turned in [0, random.byte()] {
                    let damaged = tick(kind, frame[at] ^ turned);
                    let recording = frame_with_change(random, &frame, |recording| {
                        recording[2 * at..2 * at + 2].copy_from_slice(&damaged);
                    });
                    comparison.run(&recording);
                }
            }
        }
    }
}

fn wrong_at_each_place(comparison: &mut Comparison, random: &mut Xorshift) {
    comparison.family("a frame with one wrong character");
    for _ in 0..400 {
        let frame = short_frame(random);
        for at in 0..frame.len() {
            for character in [random.byte(), PREAMBLE, 0, 1] {
                let recording = frame_with_change(random, &frame, |recording| {
                    recording[2 * at + 1] = character;
                });
                comparison.run(&recording);
            }
        }
    }
}

fn silence_at_each_place(comparison: &mut Comparison, random: &mut Xorshift) {
    comparison.family("a frame cut by silence");
    for _ in 0..400 {
        let frame = short_frame(random);
        for at in 0..=frame.len() {
            for silent in 1..=3 {
                let recording = frame_with_change(random, &frame, |recording| {
                    recording.splice(2 * at..2 * at, SILENCE.repeat(silent));
                });
                comparison.run(&recording);
            }
            let recording = frame_with_change(random, &frame, |recording| {
                recording[2 * at.min(frame.len() - 1)] = 0;
            });
            comparison.run(&recording);
        }
    }
}

fn silence_at_random_places(comparison: &mut Comparison, random: &mut Xorshift) {
    comparison.family("frames with silent ticks at several places");
    for _ in 0..20_000 {
        let ticks_to_silence = random.pick(&[1, 2, 5, 20]);
        let ticks_to_second = random.pick(&[5, 30, 1000]);
        let mut recording = SILENCE.to_vec();
        for _ in 0..1 + random.below(4) {
            for character in short_frame(random) {
                if random.below(ticks_to_silence) == 0 {
                    let second = random.below(ticks_to_second) == 0;
                    recording.extend(SILENCE.repeat(1 + usize::from(second)));
                }
                recording.extend(tick(CHARACTER, character));
            }
        }
        comparison.run(&recording);
    }
}

fn back_to_back(comparison: &mut Comparison, random: &mut Xorshift) {
    comparison.family("frames back to back");
    for _ in 0..5_000 {
        let mut recording = SILENCE.repeat(usize::from(random.flag()));
        for _ in 0..2 + random.below(8) {
            recording.extend(characters(&random_frame(random)));
            recording.extend(SILENCE.repeat(random.pick(&[0, 0, 0, 1, 2])));
        }
        comparison.run(&recording);
    }
}

fn headers(comparison: &mut Comparison, random: &mut Xorshift) {
    comparison.family("every delimiter with every count");
    for delimiter in 0..=u8::MAX {
        for count in 0..=u8::MAX {
            let frame = sealed(2, &body(random, delimiter, count));
            comparison.run(&[&SILENCE, &characters(&frame)[..]].concat());
        }
    }
}

fn preambles(comparison: &mut Comparison, random: &mut Xorshift) {
    comparison.family("preambles 0-30, 255-258 and 1000");
    for _ in 0..500 {
        let (delimiter, count) = (delimiter(random), count(random));
        let body = body(random, delimiter, count);
        for preamble in (0..=30).chain(255..=258).chain([1000]) {
            comparison.run(&[&SILENCE, &characters(&sealed(preamble, &body))[..]].concat());
        }
    }
}

fn main() -> ExitCode {
    let mut comparison = Comparison::default();
    let mut random = Xorshift(0x2545_F491_4F6C_DD1D);
    random_ticks(&mut comparison, &mut random);
    random_bytes(&mut comparison, &mut random);
    rooms(&mut comparison, &mut random);
    damage_at_each_place(&mut comparison, &mut random);
    wrong_at_each_place(&mut comparison, &mut random);
    silence_at_each_place(&mut comparison, &mut random);
    silence_at_random_places(&mut comparison, &mut random);
    back_to_back(&mut comparison, &mut random);
    headers(&mut comparison, &mut random);
    preambles(&mut comparison, &mut random);
    match comparison.report() {
        true => ExitCode::SUCCESS,
        false => ExitCode::FAILURE,
    }
}
