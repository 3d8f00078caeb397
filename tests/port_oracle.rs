//! A master and a device of document 02's item 13, the infrared port, in plain Rust: those of document
//! 01 with the port's numbers and what the item says of them, kept by what was heard and when. They
//! share nothing with the archive.

#![allow(dead_code)]

use crate::calls::{Given, Request};
use crate::oracle_ticks::{numbers, Ticked};
use crate::oracles::device_oracle::{self, Wish};
use crate::oracles::frame_oracle::{ACK, BACK, REFUSED_PREAMBLE};
use crate::oracles::master_oracle::{self, Told};
use crate::oracles::party_oracle::{Profile, NO_LIMIT, PREAMBLES, REFUSED_NO_REQUEST};
use crate::oracles::tick_oracle::{Event, Frame, Harm, Heard};

pub const INFRARED: Profile = Profile {
    sto: 87,
    hold: 5,
    rt2: 13,
    rt1_primary: 456,
    rt1_secondary: 456,
};

/// STO for commands 0 and 11.
const IDENTITY_STO: u64 = 52;

/// A device dozes after so many quiet ticks, and a master looks for an answer in as many.
const QUIET_TICKS: u64 = 20_946;

const WAKE_UP: usize = 358;

fn sent_number(character: Option<u8>) -> u64 {
    character.map_or(0, |character| 256 + u64::from(character))
}

/// A BACK counts as a damaged frame.
fn counted(event: Event) -> Event {
    match event {
        Event::Whole(frame) if frame.frame_type == BACK => Event::Damaged(frame, Harm::default()),
        event => event,
    }
}

pub struct Master {
    pub party: master_oracle::Master,
    /// The number of this tick.
    now: u64,
    /// The line's tick of the last answer's last character.
    answer: Option<u64>,
    /// The characters of a wake-up that were sent, until its STX begins.
    wake_up: usize,
}

impl Master {
    pub fn start(primary: bool, retries: u8) -> Master {
        Master {
            party: master_oracle::Master::start_with(INFRARED, retries.into(), primary, NO_LIMIT),
            now: 0,
            answer: None,
            wake_up: 0,
        }
    }

    fn take(&mut self, heard: Heard) -> (Event, Told) {
        if self.party.is_deaf() {
            return (Event::Nothing, Told::Nothing);
        }
        let event = counted(self.party.read(heard));
        if matches!(event, Event::Whole(frame) if frame.frame_type == ACK) {
            self.answer = Some(self.now - 1);
        }
        // no frame sets BURST
        let without_flag = match event {
            Event::Whole(frame) => Event::Whole(Frame {
                burst: false,
                ..frame
            }),
            event => event,
        };
        (event, self.party.take_found(heard, without_flag))
    }

    fn ask(&mut self, request: Request) -> u32 {
        if request.preamble != PREAMBLES {
            return REFUSED_PREAMBLE;
        }
        self.party.ask(
            request.preamble,
            request.revision,
            request.long_address,
            request.address,
            request.command,
            request.data,
        )
    }

    fn wakes(&self) -> bool {
        let answered = self
            .answer
            .is_some_and(|answer| self.now - answer <= QUIET_TICKS);
        match self.wake_up {
            0 => self.party.begins() && !answered,
            sent => sent < WAKE_UP,
        }
    }

    fn send(&mut self) -> Option<u8> {
        if !self.wakes() {
            self.wake_up = 0;
            return self.party.send();
        }
        self.wake_up += 1;
        self.party.sends_other();
        Some(if self.wake_up % 2 == 1 { 0x00 } else { 0xFF })
    }

    pub fn tick(&mut self, heard: Heard, request: Option<Request>) -> Ticked {
        let (event, told) = self.take(heard);
        let attempts = match told {
            Told::GivenUp => self.party.attempts(),
            _ => 0,
        };
        let returned = request.map_or(0, |request| self.ask(request));
        let sent = sent_number(self.send());
        self.now += 1;
        let results = numbers([sent, told as u64, attempts.into()], &event);
        Ticked { returned, results }
    }

    /// Whether it sends its wake-up.
    pub fn is_waking(&self) -> bool {
        self.wake_up > 0
    }

    pub fn data(&self) -> &[u8; 255] {
        self.party.reader().data()
    }
}

/// What a device does with what it hears.
#[derive(Clone, Copy, PartialEq, Debug)]
pub enum Ear {
    Reads,
    PassesOver,
    Dozes,
}

pub struct Device {
    pub party: device_oracle::Device,
    pub ear: Ear,
    /// What it heard in the two ticks before, since its ear changed.
    before: [Heard; 2],
    quiet: u64,
    now: u64,
    /// The line's tick of the last character of the request that was told last.
    request: u64,
}

fn is_undamaged(heard: Heard, wanted: u8) -> bool {
    matches!(heard, Heard::Character(character) if character == wanted)
}

/// A character other than 0xFF, damaged or not.
fn is_other(heard: Heard) -> bool {
    match heard {
        Heard::Silence => false,
        Heard::Character(character) | Heard::Damaged(character, _) => character != 0xFF,
    }
}

impl Device {
    pub fn start(polling: u8, unique: u64) -> Device {
        Device {
            party: device_oracle::Device::start_with(
                INFRARED,
                PREAMBLES,
                polling.into(),
                unique,
                NO_LIMIT,
            ),
            ear: Ear::Reads,
            before: [Heard::Silence; 2],
            quiet: 0,
            now: 0,
            request: 0,
        }
    }

    fn turns(&mut self, ear: Ear) {
        self.ear = ear;
        self.before = [Heard::Silence; 2];
    }

    fn take(&mut self, heard: Heard) -> (Event, device_oracle::Told) {
        if self.party.is_deaf() {
            return (Event::Nothing, device_oracle::Told::Nothing);
        }
        self.quiet = match heard {
            Heard::Silence => self.quiet + 1,
            _ => 0,
        };
        let taken = match self.ear {
            Ear::Reads => self.reads(heard),
            Ear::PassesOver => (self.passes_over(heard), device_oracle::Told::Nothing),
            Ear::Dozes => (self.dozes(heard), device_oracle::Told::Nothing),
        };
        if self.quiet >= QUIET_TICKS {
            self.turns(Ear::Dozes);
        }
        taken
    }

    fn reads(&mut self, heard: Heard) -> (Event, device_oracle::Told) {
        if is_undamaged(heard, 0x00) && self.party.is_between_frames() {
            self.party.drops_request();
            self.turns(Ear::PassesOver);
            return (Event::PassedOver, device_oracle::Told::Nothing);
        }
        let event = self.party.read(heard);
        let told = self.party.take_found(heard, event);
        if matches!(told, device_oracle::Told::Request) {
            self.request = self.now - 1;
        }
        (counted(event), told)
    }

    /// Until two 0xFF in successive ticks.
    fn passes_over(&mut self, heard: Heard) -> Event {
        if is_undamaged(self.before[1], 0xFF) && is_undamaged(heard, 0xFF) {
            self.turns(Ear::Reads);
            self.party.hears_preamble();
            return Event::Nothing;
        }
        self.before[1] = heard;
        match heard {
            Heard::Silence => Event::Nothing,
            _ => Event::PassedOver,
        }
    }

    fn dozes(&mut self, heard: Heard) -> Event {
        let [first, second] = self.before;
        let are =
            |a, b| is_undamaged(first, a) && is_undamaged(second, b) && is_undamaged(heard, a);
        if are(0x00, 0xFF) || are(0xFF, 0x00) || is_other(second) && is_other(heard) {
            self.turns(Ear::PassesOver);
        } else {
            self.before = [second, heard];
        }
        Event::Nothing
    }

    fn answer(&mut self, data: &[u8], wish: Wish) -> u32 {
        let identifies = matches!(self.party.request().command, 0 | 11);
        if identifies && self.now - self.request > IDENTITY_STO {
            return REFUSED_NO_REQUEST;
        }
        self.party.answer(data, wish)
    }

    pub fn tick(&mut self, heard: Heard, given: Given) -> Ticked {
        let (event, told) = self.take(heard);
        let returned = match given.call {
            1 => self.answer(given.data, Wish::AsItIs),
            2 => self.answer(given.data, Wish::On),
            3 => self.answer(given.data, Wish::Off),
            _ => 0,
        };
        let sent = self.party.send();
        if sent.is_some() {
            self.quiet = 0;
        }
        self.now += 1;
        let results = numbers([sent_number(sent), told as u64, 0], &event);
        Ticked { returned, results }
    }

    pub fn data(&self) -> &[u8; 255] {
        self.party.reader().data()
    }
}
