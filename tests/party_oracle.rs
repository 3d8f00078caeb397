//! What the masters and devices in plain Rust have in common: profiles, command 11 by broadcast, and
//! the frame that a party sends.

use super::frame_oracle::{write, LONGEST_FRAME, TAKEN};
use super::tick_oracle::Frame;

#[derive(Clone, Copy)]
pub struct Profile {
    pub sto: u32,
    pub hold: u32,
    pub rt2: u32,
    pub rt1_primary: u32,
    pub rt1_secondary: u32,
}

pub const FSK: Profile = Profile {
    sto: 28,
    hold: 2,
    rt2: 8,
    rt1_primary: 33,
    rt1_secondary: 41,
};

pub const C8PSK: Profile = Profile {
    sto: 32,
    hold: 3,
    rt2: 14,
    rt1_primary: 42,
    rt1_secondary: 56,
};

impl Profile {
    /// In the order of `profileWords` in crates/state_words/specs/Reader.antt.
    pub fn words(&self) -> [u64; 5] {
        let Profile {
            sto,
            hold,
            rt2,
            rt1_primary,
            rt1_secondary,
        } = *self;
        [sto, hold, rt2, rt1_primary, rt1_secondary].map(u64::from)
    }
}

pub const BROADCAST: u64 = 0;

/// Command 11 by broadcast, or an ACK that repeats its address bytes.
pub fn seeks_tag(frame: &Frame) -> bool {
    frame.long_address && frame.address == BROADCAST && frame.command == 11
}

pub const REFUSED_COMMAND: u32 = 5;
pub const REFUSED_IN_HAND: u32 = 7;
pub const REFUSED_NO_REQUEST: u32 = 8;
pub const REFUSED_WISH: u32 = 10;
pub const REFUSED_REVISION: u32 = 17;

/// The revision of a device that knows all polling addresses.
pub const REVISION: u8 = 7;

/// The number of a tick in which a party sends; any other has that of what it tells.
pub const SENDS: u8 = 4;

pub const PREAMBLES: usize = 5;

/// The data limit of a link that is given none.
pub const NO_LIMIT: usize = 255;

/// A frame on its way out, and how many of its characters are sent.
pub struct Outgoing {
    bytes: [u8; LONGEST_FRAME],
    length: usize,
    sent: usize,
}

impl Outgoing {
    pub fn none() -> Outgoing {
        Outgoing {
            bytes: [0; LONGEST_FRAME],
            length: 0,
            sent: 0,
        }
    }

    /// The whole frame.
    pub fn frame(&self) -> &[u8] {
        &self.bytes[..self.length]
    }

    /// The buffer that it stands in, at the front.
    pub fn buffer(&self) -> &[u8; LONGEST_FRAME] {
        &self.bytes
    }

    pub fn length(&self) -> usize {
        self.length
    }

    /// The writer's answer; a frame that it takes goes out from its first character on.
    pub fn put(&mut self, preambles: usize, frame: &Frame, data: &[u8]) -> u32 {
        let written = write(
            preambles,
            frame.frame_type,
            frame.long_address,
            frame.primary,
            frame.burst,
            frame.address,
            frame.command,
            data,
            &mut self.bytes,
            0,
            &mut self.length,
        );
        if written == TAKEN {
            self.sent = 0;
        }
        written
    }

    pub fn sent(&self) -> usize {
        self.sent
    }

    pub fn again(&mut self) {
        self.sent = 0;
    }

    pub fn next(&mut self) -> u8 {
        let character = self.bytes[self.sent];
        self.sent += 1;
        character
    }

    /// Whether the character given last is the frame's first, and whether it is its last.
    pub fn at_first(&self) -> bool {
        self.sent == 1
    }

    pub fn at_last(&self) -> bool {
        self.sent == self.length
    }
}
