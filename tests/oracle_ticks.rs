//! The tick reader, the master and the device in plain Rust, one call a tick, as include/nengapiko.h has
//! them: what a call returns, and its results.

#![allow(dead_code)]

use crate::calls::{Given, Request};
use crate::oracles::device_oracle::{self, Wish};
use crate::oracles::master_oracle::{self, Told};
use crate::oracles::party_oracle::Profile;
use crate::oracles::tick_oracle::{Event, Frame, Harm, Heard, Reader, Recorded};

pub const RESULTS: usize = 17;

pub struct Ticked {
    pub returned: u32,
    pub results: [u64; RESULTS],
}

pub fn heard_of(kind: u8, character: u8) -> Heard {
    match kind {
        0..=4 => Recorded::of(&[kind * 32, character]).heard(),
        _ => Heard::Silence,
    }
}

fn frame_numbers(frame: &Frame, harm: Harm) -> [u64; RESULTS - 4] {
    [
        frame.frame_type.into(),
        frame.long_address.into(),
        frame.primary.into(),
        frame.burst.into(),
        frame.address,
        frame.expansion.into(),
        frame.command.into(),
        frame.count.into(),
        harm.parity.into(),
        harm.overrun.into(),
        harm.framing.into(),
        harm.check.into(),
        harm.address.into(),
    ]
}

/// What is sent, told and the attempts, then the event and the frame.
pub fn numbers(first: [u64; 3], event: &Event) -> [u64; RESULTS] {
    let frame = match event {
        Event::Whole(frame) => frame_numbers(frame, Harm::default()),
        Event::Damaged(frame, harm) => frame_numbers(frame, *harm),
        _ => [0; RESULTS - 4],
    };
    let mut numbers = [0; RESULTS];
    numbers[..3].copy_from_slice(&first);
    numbers[3] = event.number().into();
    numbers[4..].copy_from_slice(&frame);
    numbers
}

/// A reader that hears what a party hears: nothing in the tick behind its sending, or in its first.
struct Ears {
    reader: Reader,
    deaf: bool,
}

impl Ears {
    fn start() -> Ears {
        Ears {
            reader: Reader::start(),
            deaf: true,
        }
    }

    fn take(&mut self, heard: Heard) -> Event {
        match self.deaf {
            true => Event::Nothing,
            false => self.reader.take(heard),
        }
    }

    fn sent(&mut self, character: Option<u8>) -> u64 {
        self.deaf = character.is_some();
        if self.deaf {
            self.reader.pass_over();
        }
        character.map_or(0, |character| 256 + u64::from(character))
    }
}

pub struct Master {
    pub party: master_oracle::Master,
    ears: Ears,
}

impl Master {
    pub fn start(profile: Profile, primary: bool, retries: u8, limit: usize) -> Master {
        Master {
            party: master_oracle::Master::start_with(profile, retries.into(), primary, limit),
            ears: Ears::start(),
        }
    }

    pub fn tick(&mut self, heard: Heard, request: Option<Request>) -> Ticked {
        let event = self.ears.take(heard);
        let told = self.party.take(heard);
        let attempts = match told {
            Told::GivenUp => self.party.attempts(),
            _ => 0,
        };
        let returned = request.map_or(0, |request| {
            self.party.ask(
                request.preamble,
                request.revision,
                request.long_address,
                request.address,
                request.command,
                request.data,
            )
        });
        let sent = self.ears.sent(self.party.send());
        let results = numbers([sent, told as u64, attempts.into()], &event);
        Ticked { returned, results }
    }

    /// The data that were heard so far, at the front.
    pub fn data(&self) -> &[u8; 255] {
        self.party.reader().data()
    }
}

pub struct Device {
    pub party: device_oracle::Device,
    ears: Ears,
}

impl Device {
    pub fn start(
        profile: Profile,
        preamble: usize,
        polling: u8,
        unique: u64,
        limit: usize,
    ) -> Device {
        let polling = polling.into();
        Device {
            party: device_oracle::Device::start_with(profile, preamble, polling, unique, limit),
            ears: Ears::start(),
        }
    }

    pub fn tick(&mut self, heard: Heard, given: Given) -> Ticked {
        let event = self.ears.take(heard);
        let told = self.party.take(heard);
        let returned = match given.call {
            1 => self.party.answer(given.data, Wish::AsItIs),
            2 => self.party.answer(given.data, Wish::On),
            3 => self.party.answer(given.data, Wish::Off),
            4 => self.party.burst_content(given.command, given.data),
            _ => 0,
        };
        let sent = self.ears.sent(self.party.send());
        let results = numbers([sent, told as u64, 0], &event);
        Ticked { returned, results }
    }

    pub fn data(&self) -> &[u8; 255] {
        self.party.reader().data()
    }
}
