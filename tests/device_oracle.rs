//! A device of document 01 in plain Rust, with document 02's items 1, 6 and 12, and one with FSK over
//! recordings of what it hears. It shares nothing with the archive; over a recording it gives the
//! numbers of ticked.rs.

use super::frame_oracle::{ACK, BACK, REFUSED_DATA_LENGTH, STX, TAKEN};
use super::party_oracle::{
    seeks_tag, Outgoing, Profile, BROADCAST, FSK, NO_LIMIT, PREAMBLES, REFUSED_COMMAND,
    REFUSED_NO_REQUEST, REFUSED_WISH, SENDS,
};
use super::tick_oracle::{over, Event, Frame, Harm, Heard, Reader, Recorded};

#[derive(Clone, Copy)]
enum Turn {
    Listening,
    /// The ticks in which the host may still answer, this one included.
    Asked(u32),
    /// The ACK begins in the next tick, or in this one.
    Ready(Wish),
    Beginning(Wish),
    SendingAck,
    /// A BACK begins in this tick.
    BackDue,
    SendingBack,
}

#[derive(Clone, Copy)]
pub enum Told {
    Nothing = 0,
    Request = 1,
    Broadcast = 2,
}

/// What the host's answer wishes of burst.
#[derive(Clone, Copy, PartialEq)]
pub enum Wish {
    AsItIs = 0,
    On = 1,
    Off = 2,
}

struct Content {
    command: u8,
    data: Vec<u8>,
}

pub struct Device {
    profile: Profile,
    preambles: usize,
    polling_address: u64,
    unique_address: u64,
    reader: Reader,
    deaf: bool,
    turn: Turn,
    request: Frame,
    content: Option<Content>,
    bursting: bool,
    /// Whether the next BACK is for the primary.
    back_to_primary: bool,
    /// Silent ticks until the next BACK; 0 is a stopped timer.
    back_in: u32,
    out: Outgoing,
    /// The most data bytes of an answer and of its burst content.
    limit: usize,
}

impl Device {
    pub fn start(polling_address: u64, unique_address: u64) -> Device {
        Device::start_with(FSK, PREAMBLES, polling_address, unique_address, NO_LIMIT)
    }

    pub fn start_with(
        profile: Profile,
        preambles: usize,
        polling_address: u64,
        unique_address: u64,
        limit: usize,
    ) -> Device {
        Device {
            profile,
            preambles,
            polling_address,
            unique_address,
            reader: Reader::start(),
            deaf: true,
            turn: Turn::Listening,
            request: Frame::default(),
            content: None,
            bursting: false,
            back_to_primary: true,
            back_in: 0,
            out: Outgoing::none(),
            limit,
        }
    }

    /// What it sends, or sent last.
    pub fn out(&self) -> &Outgoing {
        &self.out
    }

    /// What it holds from tick to tick, in the order of `packed` in crates/device_c/specs/Words.antt.
    /// A wish is held with the answer that waits or begins, and whom the next BACK is for, with the
    /// silent ticks until it, while it bursts; outside of these there is no such field here.
    pub fn words(&self) -> [Option<u64>; 41] {
        let sent = self.out.sent() as u64;
        let (turn, wish) = match self.turn {
            Turn::Listening => (0, None),
            Turn::Asked(left) => (1 + 16 * u64::from(left), None),
            Turn::Ready(wish) => (2, Some(wish as u64)),
            Turn::Beginning(wish) => (3, Some(wish as u64)),
            Turn::SendingAck => (4 + 16 * sent, None),
            Turn::BackDue => (5, None),
            Turn::SendingBack => (6 + 16 * sent, None),
        };
        let (command, count) = self.content.as_ref().map_or((0, 0), |content| {
            (content.command.into(), content.data.len() as u64)
        });
        let mut words = [None; 41];
        words[..5].copy_from_slice(&self.profile.words().map(Some));
        words[5] = Some(self.preambles as u64);
        words[6] = Some(self.polling_address);
        words[7] = Some(self.unique_address);
        words[8..24].copy_from_slice(&self.reader.words().map(Some));
        words[24] = Some(self.deaf.into());
        words[25] = Some(turn);
        words[26] = wish;
        words[27] = Some(self.out.length() as u64);
        words[28..34].copy_from_slice(&self.request.header().map(Some));
        words[34] = Some(self.bursting.into());
        words[35] = self.bursting.then_some(self.back_to_primary.into());
        words[36] = self.bursting.then_some(self.back_in.into());
        words[37] = Some(self.content.is_some().into());
        words[38] = Some(command);
        words[39] = Some(count);
        words[40] = Some(self.limit as u64);
        words
    }

    /// The data of its burst content.
    pub fn content(&self) -> &[u8] {
        self.content.as_ref().map_or(&[], |content| &content.data)
    }

    pub fn reader(&self) -> &Reader {
        &self.reader
    }

    /// Whether it hears nothing in this tick.
    pub fn is_deaf(&self) -> bool {
        self.deaf
    }

    pub fn take(&mut self, heard: Heard) -> Told {
        if self.deaf {
            return Told::Nothing;
        }
        let event = self.read(heard);
        self.take_found(heard, event)
    }

    /// What its reader finds.
    pub fn read(&mut self, heard: Heard) -> Event {
        self.reader.take(heard)
    }

    /// Whether its reader is between frames.
    pub fn is_between_frames(&self) -> bool {
        self.reader.is_between_frames()
    }

    /// Its reader has heard two characters of a preamble.
    pub fn hears_preamble(&mut self) {
        self.reader.hears_preamble();
    }

    /// Its request is dropped.
    pub fn drops_request(&mut self) {
        self.turn = Turn::Listening;
    }

    /// The request that it was told last.
    pub fn request(&self) -> &Frame {
        &self.request
    }

    pub fn take_found(&mut self, heard: Heard, event: Event) -> Told {
        let silent_ticks = self.reader.silent_ticks(heard, &event);
        self.take_counted(heard, event, silent_ticks)
    }

    /// With so many silent ticks counted in its timers.
    pub fn take_counted(&mut self, heard: Heard, event: Event, silent_ticks: u32) -> Told {
        if !matches!(heard, Heard::Silence) {
            self.turn = Turn::Listening;
            self.back_in = 0;
        }
        if self.bursting {
            self.time_back(&event);
        }
        for _ in 0..silent_ticks {
            self.count();
        }
        match event {
            Event::Whole(frame) if is_request(&frame) => self.requested(frame),
            Event::Damaged(frame, harm) if is_request(&frame) && !harm.address => {
                if self.is_own(&frame) {
                    self.request = frame;
                    self.put_ack(frame, self.bursting, &[error_status(harm), 0]);
                    self.turn = Turn::Ready(Wish::AsItIs);
                }
                Told::Nothing
            }
            _ => Told::Nothing,
        }
    }

    fn time_back(&mut self, event: &Event) {
        match event {
            Event::Nothing => {}
            Event::Whole(frame) if frame.frame_type == ACK => self.back_in = 1,
            _ => self.back_in = self.profile.rt1_primary,
        }
    }

    fn count(&mut self) {
        self.turn = match self.turn {
            Turn::Asked(1) => Turn::Listening,
            Turn::Asked(left) => Turn::Asked(left - 1),
            Turn::Ready(wish) => Turn::Beginning(wish),
            turn => turn,
        };
        if self.back_in > 0 {
            self.back_in -= 1;
            if self.back_in == 0 {
                self.turn = Turn::BackDue;
            }
        }
    }

    fn requested(&mut self, frame: Frame) -> Told {
        if seeks_tag(&frame) || self.is_own(&frame) {
            self.request = frame;
            self.turn = Turn::Asked(self.profile.sto);
            return Told::Request;
        }
        if frame.long_address && frame.address == BROADCAST {
            return Told::Broadcast;
        }
        Told::Nothing
    }

    fn is_own(&self, frame: &Frame) -> bool {
        if frame.long_address {
            frame.address == self.unique_address
        } else {
            frame.address == self.polling_address && frame.command == 0
        }
    }

    /// What its BACKs carry from the next one on, taken or refused with its number.
    pub fn burst_content(&mut self, command: u8, data: &[u8]) -> u32 {
        if command == 254 {
            return REFUSED_COMMAND;
        }
        if !(2..=self.limit).contains(&data.len()) {
            return REFUSED_DATA_LENGTH;
        }
        let data = data.to_vec();
        self.content = Some(Content { command, data });
        TAKEN
    }

    /// The host's answer, taken or refused with its number.
    pub fn answer(&mut self, data: &[u8], wish: Wish) -> u32 {
        let Turn::Asked(left) = self.turn else {
            return REFUSED_NO_REQUEST;
        };
        if !(2..=self.limit).contains(&data.len()) {
            return REFUSED_DATA_LENGTH;
        }
        if self.refuses_wish(wish) {
            return REFUSED_WISH;
        }
        let burst = match wish {
            Wish::AsItIs => self.bursting,
            Wish::On => true,
            Wish::Off => false,
        };
        self.put_ack(self.request, burst, data);
        self.turn = if left == self.profile.sto {
            Turn::Ready(wish)
        } else {
            Turn::Beginning(wish)
        };
        TAKEN
    }

    /// Neither command 0 nor command 11 by broadcast can turn burst on or off.
    fn refuses_wish(&self, wish: Wish) -> bool {
        let no_wish = self.request.command == 0 || seeks_tag(&self.request);
        match wish {
            Wish::AsItIs => false,
            Wish::On => no_wish || self.content.is_none(),
            Wish::Off => no_wish,
        }
    }

    fn put_ack(&mut self, request: Frame, burst: bool, data: &[u8]) {
        let ack = Frame {
            frame_type: ACK,
            burst,
            ..request
        };
        self.out.put(self.preambles, &ack, data);
    }

    fn put_back(&mut self) {
        if let Some(content) = &self.content {
            let back = Frame {
                frame_type: BACK,
                long_address: true,
                primary: self.back_to_primary,
                burst: true,
                address: self.unique_address,
                command: content.command,
                ..Frame::default()
            };
            self.out.put(self.preambles, &back, &content.data);
            self.back_to_primary = !self.back_to_primary;
        }
    }

    fn wished(&mut self, wish: Wish) {
        match wish {
            Wish::AsItIs => {}
            Wish::On => {
                self.back_to_primary |= !self.bursting;
                self.bursting = true;
            }
            Wish::Off => self.bursting = false,
        }
    }

    pub fn send(&mut self) -> Option<u8> {
        match self.turn {
            Turn::Beginning(wish) => {
                self.wished(wish);
                self.turn = Turn::SendingAck;
            }
            Turn::BackDue => {
                self.put_back();
                self.turn = Turn::SendingBack;
            }
            Turn::SendingAck | Turn::SendingBack => {}
            Turn::Listening | Turn::Asked(_) | Turn::Ready(_) => {
                self.deaf = false;
                return None;
            }
        }
        self.deaf = true;
        self.reader.pass_over();
        self.back_in = 0;
        let character = self.out.next();
        if self.out.at_last() {
            self.sent_to_the_end();
        }
        Some(character)
    }

    fn sent_to_the_end(&mut self) {
        self.turn = match self.turn {
            Turn::SendingAck if self.bursting => Turn::BackDue,
            Turn::SendingBack => {
                self.back_in = self.profile.rt2;
                Turn::Listening
            }
            _ => Turn::Listening,
        };
    }
}

fn is_request(frame: &Frame) -> bool {
    frame.frame_type == STX && frame.expansion == 0
}

fn error_status(harm: Harm) -> u8 {
    let bit = |occurred: bool, bit: u8| if occurred { bit } else { 0 };
    0x80 | bit(harm.parity, 0x40)
        | bit(harm.overrun, 0x20)
        | bit(harm.framing, 0x10)
        | bit(harm.check, 0x08)
}

const POLLING_ADDRESS: u64 = 0;
const UNIQUE_ADDRESS: u64 = 2;

/// The numbers of the host's calls in a recording.
const ANSWER: u8 = 1;
const BURST_ON: u8 = 2;
const BURST_OFF: u8 = 3;
pub const BURST_CONTENT: u8 = 4;

const BURST_COMMAND: u8 = 3;

impl Device {
    /// A tick of a recording; the number of what it does.
    #[inline(always)]
    pub fn tick(&mut self, tick: Recorded) -> u8 {
        let told = self.take(tick.heard());
        match tick.call() {
            ANSWER => self.answer(&[0, 0], Wish::AsItIs),
            BURST_ON => self.answer(&[0, 0], Wish::On),
            BURST_OFF => self.answer(&[0, 0], Wish::Off),
            BURST_CONTENT => self.burst_content(BURST_COMMAND, &[0, 0]),
            _ => TAKEN,
        };
        self.send().map_or(told as u8, |_| SENDS)
    }
}

/// The device that recordings are for.
pub fn recorded() -> Device {
    Device::start(POLLING_ADDRESS, UNIQUE_ADDRESS)
}

/// The number of what a device does in each tick.
#[inline(never)]
pub fn ticks(recording: &[u8], events: &mut [u8]) -> usize {
    let mut device = recorded();
    over(recording, events, |tick| device.tick(tick))
}
