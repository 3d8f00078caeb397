//! The tick reader of document 01 in plain Rust, with document 02's item 1, over recordings of two
//! bytes for each tick. It shares nothing with the archive, takes the same arguments and gives the
//! same answers.

use super::frame_oracle::{ACK, BACK, PREAMBLE, STX};

#[derive(Clone, Copy)]
pub enum Damage {
    Parity,
    Overrun,
    Framing,
}

#[derive(Clone, Copy)]
pub enum Heard {
    Silence,
    Character(u8),
    Damaged(u8, Damage),
}

#[derive(Clone, Copy, Default)]
pub struct Frame {
    pub frame_type: u8,
    pub long_address: bool,
    pub primary: bool,
    pub burst: bool,
    pub address: u64,
    pub expansion: u8,
    pub command: u8,
    pub count: u8,
}

impl Frame {
    /// In the order of `headerWords` in crates/state_words/specs/Reader.antt.
    pub fn header(&self) -> [u64; 6] {
        [
            self.frame_type.into(),
            self.long_address.into(),
            self.primary.into(),
            self.burst.into(),
            self.address,
            self.command.into(),
        ]
    }
}

/// Damage in command, data or check byte by its kind, a wrong check byte, and damage in address
/// or expansion bytes.
#[derive(Clone, Copy, Default, PartialEq)]
pub struct Harm {
    pub parity: bool,
    pub overrun: bool,
    pub framing: bool,
    pub check: bool,
    pub address: bool,
}

#[derive(Clone, Copy)]
pub enum Event {
    Nothing,
    PassedOver,
    Broken,
    Whole(Frame),
    Damaged(Frame, Harm),
}

/// What the next character is.
#[derive(Clone, Copy)]
enum Next {
    PassedOver,
    /// The first of a preamble, one of it, or a delimiter behind two.
    Preamble {
        heard: u8,
    },
    Address {
        first: bool,
        left: u8,
    },
    Expansion {
        left: u8,
    },
    Command,
    Count,
    Data {
        at: u8,
    },
    Check,
}

pub struct Reader {
    next: Next,
    /// Whether the tick before was silent, inside a frame, and passed over.
    gap: bool,
    frame: Frame,
    harm: Harm,
    exclusive_or: u8,
    data: [u8; 255],
}

impl Reader {
    pub fn start() -> Reader {
        Reader {
            next: Next::PassedOver,
            gap: false,
            frame: Frame::default(),
            harm: Harm::default(),
            exclusive_or: 0,
            data: [0; 255],
        }
    }

    /// As after its own sending.
    pub fn pass_over(&mut self) {
        self.next = Next::PassedOver;
        self.gap = false;
    }

    pub fn is_between_frames(&self) -> bool {
        matches!(self.next, Next::Preamble { heard: 0 })
    }

    /// As after two characters of a preamble.
    pub fn hears_preamble(&mut self) {
        self.next = Next::Preamble { heard: 2 };
        self.gap = false;
    }

    /// The silent ticks that count in the timers, by what was heard and what became of it: none in a
    /// tick that is passed over, and both in the second in a row inside a frame.
    pub fn silent_ticks(&self, heard: Heard, event: &Event) -> u32 {
        match (heard, event) {
            (Heard::Silence, Event::Broken) => 2,
            (Heard::Silence, _) if !self.gap => 1,
            _ => 0,
        }
    }

    /// Where it stands, by the numbers of `placeWord` in crates/state_words/specs/Reader.antt.
    fn place(&self) -> u64 {
        let (number, held) = match self.next {
            Next::PassedOver => (0, 0),
            Next::Preamble { heard: 0 } => (1, 0),
            Next::Preamble { heard } => (2, heard),
            Next::Address { first: true, .. } => (3, 0),
            Next::Address { first: false, left } => (4, left),
            Next::Expansion { left } => (5, left),
            Next::Command => (6, 0),
            Next::Count => (7, 0),
            Next::Data { at } => (8, at),
            Next::Check => (9, 0),
        };
        number + 16 * u64::from(held)
    }

    /// What it holds, in the order of `receiverWords` in crates/state_words/specs/Reader.antt. Of a frame it
    /// holds what was heard so far; before a delimiter it holds nothing of one.
    pub fn words(&self) -> [u64; 16] {
        let in_frame = !matches!(self.next, Next::PassedOver | Next::Preamble { .. });
        let (frame, harm, sum) = match in_frame {
            true => (self.frame, self.harm, self.exclusive_or),
            false => (Frame::default(), Harm::default(), 0),
        };
        let [frame_type, long_address, primary, burst, address, command] = frame.header();
        [
            frame_type,
            long_address,
            primary,
            burst,
            address,
            command,
            self.place(),
            frame.expansion.into(),
            frame.count.into(),
            sum.into(),
            self.gap.into(),
            harm.parity.into(),
            harm.overrun.into(),
            harm.framing.into(),
            harm.check.into(),
            harm.address.into(),
        ]
    }

    /// The frame that it is in, or that it found last.
    pub fn frame(&self) -> &Frame {
        &self.frame
    }

    /// The data of that frame, as far as they were heard, at the front.
    pub fn data(&self) -> &[u8; 255] {
        &self.data
    }

    /// The first data byte of a whole ACK.
    pub fn first_data_byte(&self) -> u8 {
        self.data[0]
    }

    pub fn take(&mut self, heard: Heard) -> Event {
        let character = match heard {
            Heard::Silence => return self.silence(),
            Heard::Character(character) => character,
            Heard::Damaged(character, damage) => {
                if matches!(self.next, Next::Preamble { .. } | Next::Count) {
                    return self.broken();
                }
                self.damage(damage);
                character
            }
        };
        self.gap = false;
        self.character(character)
    }

    /// One silent tick inside a frame is passed over. The second in a row breaks the frame.
    fn silence(&mut self) -> Event {
        let inside = !matches!(self.next, Next::PassedOver | Next::Preamble { heard: 0 });
        if inside && !self.gap {
            self.gap = true;
            return Event::Nothing;
        }
        self.next = Next::Preamble { heard: 0 };
        self.gap = false;
        if inside {
            Event::Broken
        } else {
            Event::Nothing
        }
    }

    fn damage(&mut self, damage: Damage) {
        match (self.next, damage) {
            (Next::Address { .. } | Next::Expansion { .. }, _) => self.harm.address = true,
            (_, Damage::Parity) => self.harm.parity = true,
            (_, Damage::Overrun) => self.harm.overrun = true,
            (_, Damage::Framing) => self.harm.framing = true,
        }
    }

    fn character(&mut self, character: u8) -> Event {
        self.exclusive_or ^= character;
        self.next = match self.next {
            Next::PassedOver => return Event::PassedOver,
            Next::Preamble { heard } if character == PREAMBLE => Next::Preamble {
                heard: (heard + 1).min(2),
            },
            Next::Preamble { heard: 2 } => match self.delimiter(character) {
                Some(address) => address,
                None => return self.broken(),
            },
            Next::Preamble { .. } => return self.broken(),
            Next::Address { first, left } => {
                self.address(character, first);
                match left - 1 {
                    0 => self.behind_address(),
                    left => Next::Address { first: false, left },
                }
            }
            Next::Expansion { left: 1 } => Next::Command,
            Next::Expansion { left } => Next::Expansion { left: left - 1 },
            Next::Command => {
                self.frame.command = character;
                Next::Count
            }
            Next::Count => {
                self.frame.count = character;
                match (self.frame.frame_type, character) {
                    (ACK | BACK, 0 | 1) => return self.broken(),
                    (_, 0) => Next::Check,
                    _ => Next::Data { at: 0 },
                }
            }
            Next::Data { at } => {
                self.data[usize::from(at)] = character;
                match at + 1 {
                    end if end == self.frame.count => Next::Check,
                    at => Next::Data { at },
                }
            }
            Next::Check => return self.ended(),
        };
        Event::Nothing
    }

    /// Begins a frame, unless the character is no delimiter; gives what comes next.
    fn delimiter(&mut self, character: u8) -> Option<Next> {
        let frame_type = character & 0x07;
        if character & 0x18 != 0 || !matches!(frame_type, STX | ACK | BACK) {
            return None;
        }
        let long_address = character & 0x80 != 0;
        self.frame = Frame {
            frame_type,
            long_address,
            expansion: character >> 5 & 0x03,
            ..Frame::default()
        };
        self.harm = Harm::default();
        self.exclusive_or = character;
        Some(Next::Address {
            first: true,
            left: if long_address { 5 } else { 1 },
        })
    }

    fn address(&mut self, character: u8, first: bool) {
        if first {
            self.frame.primary = character & 0x80 != 0;
            self.frame.burst = character & 0x40 != 0;
            self.frame.address = u64::from(character & 0x3F);
        } else {
            self.frame.address = self.frame.address << 8 | u64::from(character);
        }
    }

    fn behind_address(&self) -> Next {
        match self.frame.expansion {
            0 => Next::Command,
            left => Next::Expansion { left },
        }
    }

    fn ended(&mut self) -> Event {
        self.next = Next::Preamble { heard: 0 };
        self.harm.check = self.exclusive_or != 0;
        if self.harm == Harm::default() {
            Event::Whole(self.frame)
        } else {
            Event::Damaged(self.frame, self.harm)
        }
    }

    fn broken(&mut self) -> Event {
        self.pass_over();
        Event::Broken
    }
}

impl Event {
    pub fn number(&self) -> u8 {
        match self {
            Event::Nothing => 0,
            Event::PassedOver => 1,
            Event::Broken => 2,
            Event::Whole(_) => 3,
            Event::Damaged(..) => 4,
        }
    }
}

/// The two bytes of a tick in a recording.
pub struct Recorded {
    first: u8,
    character: u8,
}

impl Recorded {
    pub fn of(bytes: &[u8]) -> Recorded {
        let (first, character) = (bytes[0], bytes[1]);
        Recorded { first, character }
    }

    pub fn heard(&self) -> Heard {
        match self.first >> 5 {
            1 => Heard::Character(self.character),
            2 => Heard::Damaged(self.character, Damage::Parity),
            3 => Heard::Damaged(self.character, Damage::Overrun),
            4 => Heard::Damaged(self.character, Damage::Framing),
            _ => Heard::Silence,
        }
    }

    /// The number of the call of a party's host; the reader has none.
    pub fn call(&self) -> u8 {
        self.first % 32
    }
}

/// A number for each tick of a recording, for as many ticks as both slices hold; returns how many
/// these are.
#[inline(always)]
pub fn over(recording: &[u8], events: &mut [u8], mut number: impl FnMut(Recorded) -> u8) -> usize {
    let ticks = recording.chunks_exact(2);
    let taken = ticks.len().min(events.len());
    for (bytes, event) in ticks.zip(events) {
        *event = number(Recorded::of(bytes));
    }
    taken
}

/// The number of what a reader tells in each tick.
#[inline(never)]
pub fn ticks(recording: &[u8], events: &mut [u8]) -> usize {
    let mut reader = Reader::start();
    over(recording, events, |tick| reader.take(tick.heard()).number())
}

/// The silent ticks inside frames.
#[derive(Clone, Copy, Default)]
pub struct Silences {
    pub passed_over: u64,
    /// The second in a row.
    pub breaks: u64,
}

/// Those that a reader hears in a recording.
pub fn silences(recording: &[u8]) -> Silences {
    let mut reader = Reader::start();
    let mut silences = Silences::default();
    for bytes in recording.chunks_exact(2) {
        let heard = Recorded::of(bytes).heard();
        let event = reader.take(heard);
        match (heard, reader.silent_ticks(heard, &event)) {
            (Heard::Silence, 0) => silences.passed_over += 1,
            (Heard::Silence, 2) => silences.breaks += 1,
            _ => {}
        }
    }
    silences
}
