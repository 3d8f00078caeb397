//! A master of document 01 in plain Rust, with document 02's items 1, 2, 6 and 12, and a primary with
//! FSK and three retries over recordings of what it hears. It shares nothing with the archive; over a
//! recording it gives the numbers of ticked.rs.

use super::frame_oracle::{
    refusal, ACK, BACK, REFUSED_ADDRESS, REFUSED_DATA_LONG, REFUSED_PREAMBLE, STX, TAKEN,
};
use super::party_oracle::{
    seeks_tag, Outgoing, Profile, BROADCAST, FSK, NO_LIMIT, PREAMBLES, REFUSED_COMMAND,
    REFUSED_IN_HAND, REFUSED_REVISION, REVISION, SENDS,
};
use super::tick_oracle::{over, Event, Frame, Heard, Reader, Recorded};

const RETRIES: u32 = 3;

#[derive(Clone, Copy, PartialEq)]
enum Stage {
    Free,
    Waiting,
    Sending,
    Awaiting(u32),
}

#[derive(Clone, Copy, PartialEq)]
pub enum Told {
    Nothing = 0,
    Answered = 1,
    GivenUp = 2,
    BroadcastSent = 3,
}

pub struct Master {
    primary: bool,
    profile: Profile,
    retries: u32,
    rt1: u32,
    quiet_time: u32,
    reader: Reader,
    deaf: bool,
    burst: bool,
    noted: (bool, u64),
    /// Silent ticks until the next window, left of the open one, and left of the quiet time.
    next: u32,
    window: u32,
    quiet: u32,
    stage: Stage,
    attempts: u32,
    message: Frame,
    out: Outgoing,
    /// The most data bytes of a request.
    limit: usize,
}

impl Master {
    pub fn start(primary: bool) -> Master {
        Master::start_with(FSK, RETRIES, primary, NO_LIMIT)
    }

    pub fn start_with(profile: Profile, retries: u32, primary: bool, limit: usize) -> Master {
        let Profile {
            rt2,
            rt1_primary,
            rt1_secondary,
            ..
        } = profile;
        let rt1 = if primary { rt1_primary } else { rt1_secondary };
        Master {
            primary,
            profile,
            retries,
            rt1,
            quiet_time: 2 * rt1_primary + if primary { 0 } else { rt2 },
            reader: Reader::start(),
            deaf: true,
            burst: false,
            noted: (false, 0),
            next: rt1,
            window: 0,
            quiet: 0,
            stage: Stage::Free,
            attempts: 0,
            message: Frame::default(),
            out: Outgoing::none(),
            limit,
        }
    }

    /// What it sends, or sent last.
    pub fn out(&self) -> &Outgoing {
        &self.out
    }

    /// What it holds from tick to tick, in the order of `packed` in crates/master_c/specs/Words.antt:
    /// every word has its field here.
    pub fn words(&self) -> [u64; 40] {
        let stage = match self.stage {
            Stage::Free => 0,
            Stage::Waiting => 1,
            Stage::Sending => 2 + 16 * self.out.sent() as u64,
            Stage::Awaiting(left) => 3 + 16 * u64::from(left),
        };
        let (noted_long, noted_address) = self.noted;
        let mut words = [0; 40];
        words[0] = self.primary.into();
        words[1..6].copy_from_slice(&self.profile.words());
        words[6] = self.retries.into();
        words[7] = self.deaf.into();
        words[8] = self.burst.into();
        words[9..12].copy_from_slice(&[self.next, self.window, self.quiet].map(u64::from));
        words[12..28].copy_from_slice(&self.reader.words());
        words[28] = noted_long.into();
        words[29] = noted_address;
        words[30..36].copy_from_slice(&self.message.header());
        words[36] = stage;
        words[37] = self.out.length() as u64;
        words[38] = self.attempts.into();
        words[39] = self.limit as u64;
        words
    }

    pub fn reader(&self) -> &Reader {
        &self.reader
    }

    /// The STX frames of its message that were sent.
    pub fn attempts(&self) -> u32 {
        self.attempts
    }

    /// Whether it hears nothing in this tick.
    pub fn is_deaf(&self) -> bool {
        self.deaf
    }

    pub fn take(&mut self, heard: Heard) -> Told {
        if self.deaf {
            return Told::Nothing;
        }
        let event = self.read(heard);
        self.take_found(heard, event)
    }

    /// What its reader finds.
    pub fn read(&mut self, heard: Heard) -> Event {
        self.reader.take(heard)
    }

    pub fn take_found(&mut self, heard: Heard, event: Event) -> Told {
        let silent_ticks = self.reader.silent_ticks(heard, &event);
        self.take_counted(heard, event, silent_ticks)
    }

    /// With so many silent ticks counted in its timers.
    pub fn take_counted(&mut self, heard: Heard, event: Event, silent_ticks: u32) -> Told {
        if !matches!(heard, Heard::Silence) {
            self.timer(0, 0);
        }
        let told = match event {
            Event::Nothing => Told::Nothing,
            Event::Whole(frame) => self.whole(&frame),
            Event::PassedOver | Event::Broken | Event::Damaged(..) => {
                self.timer_after_break();
                self.ended_unanswered()
            }
        };
        (0..silent_ticks).fold(told, |told, _| self.count(told))
    }

    fn timer(&mut self, next: u32, quiet: u32) {
        self.next = next;
        self.window = 0;
        self.quiet = quiet;
    }

    fn timer_after_break(&mut self) {
        if self.burst {
            self.timer(0, self.quiet_time);
        } else {
            self.timer(self.rt1, 0);
        }
    }

    fn whole(&mut self, frame: &Frame) -> Told {
        let is_ack = frame.frame_type == ACK;
        let is_back = frame.frame_type == BACK;
        let to_itself = frame.primary == self.primary;
        let from = (frame.long_address, frame.address);
        let names_device = frame.long_address && !seeks_tag(frame);
        if is_back || (is_ack && frame.burst) {
            self.burst = true;
            if is_back || names_device {
                self.noted = from;
            }
        } else if is_ack && names_device && self.noted == from {
            self.burst = false;
        }
        match (self.burst, is_ack, to_itself) {
            (true, false, false) if is_back => self.timer(1, self.quiet_time),
            (true, ..) => self.timer(0, self.quiet_time),
            (false, true, false) => self.timer(1, 0),
            (false, true, true) => self.timer(self.profile.rt2, 0),
            (false, false, _) => self.timer(self.rt1, 0),
        }
        let is_own = is_ack
            && to_itself
            && (!self.is_broadcast() || seeks_tag(&self.message))
            && from == (self.message.long_address, self.message.address)
            && frame.command == self.message.command
            && self.reader.first_data_byte() < 0x80;
        if is_own && matches!(self.stage, Stage::Awaiting(_)) {
            self.stage = Stage::Free;
            return Told::Answered;
        }
        self.ended_unanswered()
    }

    fn is_broadcast(&self) -> bool {
        self.message.long_address && self.message.address == BROADCAST
    }

    /// A broadcast is over, and another attempt fails, if one is awaited.
    fn ended_unanswered(&mut self) -> Told {
        if !matches!(self.stage, Stage::Awaiting(_)) {
            return Told::Nothing;
        }
        if self.is_broadcast() {
            self.stage = Stage::Free;
            return Told::BroadcastSent;
        }
        if self.attempts > self.retries {
            self.stage = Stage::Free;
            return Told::GivenUp;
        }
        self.stage = Stage::Waiting;
        Told::Nothing
    }

    fn count(&mut self, told: Told) -> Told {
        let Profile { hold, rt2, .. } = self.profile;
        let mut told = told;
        let mut lost = false;
        match self.stage {
            Stage::Awaiting(1) => {
                told = self.ended_unanswered();
                lost = self.stage == Stage::Free;
            }
            Stage::Awaiting(left) => self.stage = Stage::Awaiting(left - 1),
            _ => {}
        }
        self.window = self.window.saturating_sub(1);
        if self.next > 0 {
            self.next -= 1;
            if self.next == 0 {
                self.window = hold;
                self.next = if self.burst { 0 } else { 2 * rt2 };
            }
        }
        if self.quiet > 0 {
            self.quiet -= 1;
            if self.quiet == 0 {
                self.burst = false;
                self.window = hold;
                self.next = 2 * rt2;
            }
        }
        if lost {
            self.window = 0;
        }
        told
    }

    /// A request without data, taken or refused with its number.
    pub fn request(&mut self, long_address: bool, address: u64, command: u8) -> u32 {
        self.ask(PREAMBLES, REVISION, long_address, address, command, &[])
    }

    /// A request, taken or refused with its number: 17 is checked after 3, and of the others the
    /// lowest applies.
    pub fn ask(
        &mut self,
        preambles: usize,
        revision: u8,
        long_address: bool,
        address: u64,
        command: u8,
        data: &[u8],
    ) -> u32 {
        let refused = refusal(preambles, STX, long_address, address, data.len());
        if refused == Some(REFUSED_PREAMBLE) {
            return REFUSED_PREAMBLE;
        }
        if !(3..=7).contains(&revision) {
            return REFUSED_REVISION;
        }
        let unknown_address = !long_address && revision <= 5 && address > 15;
        let no_command = command == 254 || (!long_address && command != 0);
        let refusals = [
            unknown_address.then_some(REFUSED_ADDRESS),
            refused,
            no_command.then_some(REFUSED_COMMAND),
            (data.len() > self.limit).then_some(REFUSED_DATA_LONG),
            (self.stage != Stage::Free).then_some(REFUSED_IN_HAND),
        ];
        if let Some(lowest) = refusals.into_iter().flatten().min() {
            return lowest;
        }
        self.message = Frame {
            frame_type: STX,
            long_address,
            primary: self.primary,
            address,
            command,
            ..Frame::default()
        };
        self.out.put(preambles, &self.message, data);
        self.attempts = 0;
        self.stage = Stage::Waiting;
        TAKEN
    }

    /// Whether an STX begins in this tick.
    pub fn begins(&self) -> bool {
        self.stage == Stage::Waiting && self.window > 0
    }

    /// It sends a character that is none of a frame.
    pub fn sends_other(&mut self) {
        self.deaf = true;
    }

    pub fn send(&mut self) -> Option<u8> {
        match self.stage {
            Stage::Waiting if self.window > 0 => {
                self.attempts += 1;
                self.out.again();
            }
            Stage::Sending => {}
            _ => {
                self.deaf = false;
                return None;
            }
        }
        self.deaf = true;
        self.reader.pass_over();
        let character = self.out.next();
        if self.out.at_last() {
            self.timer_after_break();
            self.stage = Stage::Awaiting(self.rt1);
        } else {
            self.timer(0, 0);
            self.stage = Stage::Sending;
        }
        Some(character)
    }
}

const UNIQUE_ADDRESS: u64 = 2;
const COMMAND: u8 = 3;

const TAG_COMMAND: u8 = 11;
const TAG: [u8; 6] = [0; 6];

/// The numbers of the host's calls in a recording.
const REQUEST: u8 = 1;
const TAG_REQUEST: u8 = 2;

impl Master {
    /// A tick of a recording; the number of what it does.
    #[inline(always)]
    pub fn tick(&mut self, tick: Recorded) -> u8 {
        let told = self.take(tick.heard());
        match tick.call() {
            REQUEST => self.request(true, UNIQUE_ADDRESS, COMMAND),
            TAG_REQUEST => self.ask(PREAMBLES, REVISION, true, BROADCAST, TAG_COMMAND, &TAG),
            _ => TAKEN,
        };
        self.send().map_or(told as u8, |_| SENDS)
    }
}

/// The number of what a primary does in each tick.
#[inline(never)]
pub fn ticks(recording: &[u8], events: &mut [u8]) -> usize {
    let mut master = Master::start(true);
    over(recording, events, |tick| master.tick(tick))
}
