//! The masters, devices and tick readers of libnengapiko.a and those in plain Rust, each over the same
//! recording, whose calls are those of calls.rs. Compared are in every tick what the call returns, its
//! 17 results, the lent buffers, and the words of the state behind it.

#![allow(dead_code)]

use crate::calls::{given, request};
use crate::engine_archive;
use crate::oracle_ticks::{self, heard_of, numbers, Ticked};
use crate::oracles::party_oracle::Profile;
use crate::oracles::tick_oracle::{silences, Reader, Silences};

/// How many ticks were compared, and what occurred in them, by its number.
#[derive(Default)]
pub struct Seen {
    pub ticks: u64,
    pub sent: u64,
    pub told: [u64; 4],
    pub events: [u64; 5],
    pub returned: [u64; 18],
    /// A master whose BURST is set, or a device that bursts.
    pub burst: u64,
    /// In the frames of the recordings.
    pub inside: Silences,
}

impl Seen {
    fn recording(&mut self, recording: &[u8]) {
        let Silences {
            passed_over,
            breaks,
        } = silences(recording);
        self.inside.passed_over += passed_over;
        self.inside.breaks += breaks;
    }

    fn tick(&mut self, ticked: &Ticked, burst: bool) {
        let [sent, told, _, event, ..] = ticked.results;
        self.ticks += 1;
        self.sent += u64::from(sent != 0);
        self.told[told as usize] += 1;
        self.events[event as usize] += 1;
        self.returned[ticked.returned as usize] += 1;
        self.burst += u64::from(burst);
    }

    /// Whether each thing of so many was told, and each of these refusals, every event, sending, BURST
    /// and both silent ticks inside frames occurred.
    pub fn has_all(&self, told: usize, refusals: &[usize]) -> bool {
        self.told[..told].iter().all(|&ticks| ticks > 0)
            && refusals.iter().all(|&number| self.returned[number] > 0)
            && self.events.iter().all(|&ticks| ticks > 0)
            && self.sent > 0
            && self.burst > 0
            && self.inside.passed_over > 0
            && self.inside.breaks > 0
    }
}

/// The tick and what differs there.
pub type Difference = (usize, &'static str);

/// The first of these that is not the same.
fn first_other(parts: &[(bool, &'static str)]) -> Option<&'static str> {
    let other = parts.iter().find(|(same, _)| !same);
    other.map(|&(_, name)| name)
}

/// The first tick of a recording in which something differs.
fn first_difference(
    recording: &[u8],
    mut tick: impl FnMut(&[u8]) -> Option<&'static str>,
) -> Option<Difference> {
    let mut ticks = recording.chunks_exact(2).enumerate();
    ticks.find_map(|(at, bytes)| tick(bytes).map(|what| (at, what)))
}

fn words_of(profile: &Profile) -> engine_archive::Profile {
    profile.words().map(|ticks| ticks as u16)
}

#[derive(Clone, Copy)]
pub struct MasterSettings {
    pub profile: Profile,
    pub primary: bool,
    pub retries: u8,
    pub limit: usize,
}

impl MasterSettings {
    pub fn oracle(&self) -> oracle_ticks::Master {
        oracle_ticks::Master::start(self.profile, self.primary, self.retries, self.limit)
    }

    fn engine(&self) -> engine_archive::Master {
        let profile = words_of(&self.profile);
        engine_archive::Master::start(profile, self.primary, self.retries, self.limit)
            .expect("these settings are taken")
    }

    pub fn difference(&self, recording: &[u8], seen: &mut Seen) -> Option<Difference> {
        let (mut engine, mut oracle) = (self.engine(), self.oracle());
        seen.recording(recording);
        first_difference(recording, |bytes| {
            let (kind, character, call) = (bytes[0] / 32, bytes[1], bytes[0] % 32);
            let returned = engine.tick((kind, character), request(call));
            let ticked = oracle.tick(heard_of(kind, character), request(call));
            let words = oracle.party.words();
            seen.tick(&ticked, words[8] == 1);
            first_other(&[
                (returned == ticked.returned, "what is returned"),
                (engine.results.all() == ticked.results, "the results"),
                (engine.data == *oracle.data(), "the data"),
                (engine.frame == *oracle.party.out().buffer(), "the frame"),
                (engine.state == words, "the state"),
            ])
        })
    }
}

#[derive(Clone, Copy)]
pub struct DeviceSettings {
    pub profile: Profile,
    pub preamble: usize,
    pub polling: u8,
    pub unique: u64,
    pub limit: usize,
}

impl DeviceSettings {
    fn oracle(&self) -> oracle_ticks::Device {
        oracle_ticks::Device::start(
            self.profile,
            self.preamble,
            self.polling,
            self.unique,
            self.limit,
        )
    }

    fn engine(&self) -> engine_archive::Device {
        let profile = words_of(&self.profile);
        let (preamble, polling, unique) = (self.preamble, self.polling, self.unique);
        engine_archive::Device::start(profile, preamble, polling, unique, self.limit)
            .expect("these settings are taken")
    }

    pub fn difference(&self, recording: &[u8], seen: &mut Seen) -> Option<Difference> {
        let (mut engine, mut oracle) = (self.engine(), self.oracle());
        seen.recording(recording);
        first_difference(recording, |bytes| {
            let (kind, character, call) = (bytes[0] / 32, bytes[1], bytes[0] % 32);
            let returned = engine.tick((kind, character), given(call));
            let ticked = oracle.tick(heard_of(kind, character), given(call));
            let words = oracle.party.words();
            seen.tick(&ticked, words[34] == Some(1));
            let mut both = words.iter().zip(&engine.state);
            let content = oracle.party.content();
            first_other(&[
                (returned == ticked.returned, "what is returned"),
                (engine.results.all() == ticked.results, "the results"),
                (engine.data == *oracle.data(), "the data"),
                (engine.frame == *oracle.party.out().buffer(), "the frame"),
                (engine.content.starts_with(content), "the content"),
                (
                    both.all(|(word, state)| word.is_none_or(|word| word == *state)),
                    "the state",
                ),
            ])
        })
    }
}

/// The same of two tick readers.
pub fn readers_differ(recording: &[u8]) -> Option<Difference> {
    let mut engine = engine_archive::Reader::start();
    let mut oracle = Reader::start();
    first_difference(recording, |bytes| {
        let (kind, character) = (bytes[0] / 32, bytes[1]);
        engine.tick((kind, character));
        let event = oracle.take(heard_of(kind, character));
        first_other(&[
            (
                engine.results.all() == numbers([0; 3], &event),
                "the results",
            ),
            (engine.data == *oracle.data(), "the data"),
            (engine.state == oracle.words(), "the state"),
        ])
    })
}
