//! Scenarios of a link, read from text; tests/data/item-06/README.md says their form, and
//! tests/data/item-12/README.md what item 12 adds to it.

use crate::oracles::device_oracle::Wish;
use crate::oracles::link_oracle::{DEVICES, MASTERS};
use crate::oracles::party_oracle::{Profile, FSK, NO_LIMIT, PREAMBLES};
use crate::oracles::tick_oracle::{Damage, Heard};
use std::collections::HashMap;

pub enum Call {
    Request {
        long_address: bool,
        address: u64,
        command: u8,
        preambles: usize,
        data: Vec<u8>,
    },
    Answer {
        data: Vec<u8>,
        wish: Wish,
    },
    Content {
        command: u8,
        data: Vec<u8>,
    },
}

pub struct Scenario {
    pub name: String,
    pub profile: Profile,
    pub retries: u32,
    pub preambles: [usize; DEVICES],
    /// The data limit.
    pub limit: usize,
    /// By tick and party.
    pub calls: HashMap<(u32, usize), Call>,
    /// What all who do not send hear of a tick, whatever is sent in it.
    pub injected: HashMap<u32, Heard>,
    pub stop: u32,
    pub expected: Vec<String>,
}

/// The words of a line.
struct Words<'a>(std::str::SplitWhitespace<'a>);

impl<'a> Words<'a> {
    fn next(&mut self) -> Option<&'a str> {
        self.0.next()
    }

    fn number<N: std::str::FromStr>(&mut self) -> Option<N> {
        self.next()?.parse().ok()
    }

    /// So many zero bytes.
    fn zeros(&mut self) -> Option<Vec<u8>> {
        Some(vec![0; self.number()?])
    }

    /// The first byte of data that have one.
    fn first_byte(&mut self, mut data: Vec<u8>) -> Option<Vec<u8>> {
        let first = self.number()?;
        if let Some(byte) = data.first_mut() {
            *byte = first;
        }
        Some(data)
    }

    fn profile(&mut self) -> Option<Profile> {
        Some(Profile {
            sto: self.number()?,
            hold: self.number()?,
            rt2: self.number()?,
            rt1_primary: self.number()?,
            rt1_secondary: self.number()?,
        })
    }

    fn call(&mut self) -> Option<Call> {
        match self.next()? {
            "req" => Some(Call::Request {
                long_address: match self.next()? {
                    "long" => true,
                    "short" => false,
                    _ => return None,
                },
                address: self.number()?,
                command: self.number()?,
                preambles: self.number()?,
                data: {
                    let zeros = self.zeros()?;
                    self.first_byte(zeros)?
                },
            }),
            "ans" => {
                let zeros = self.zeros()?;
                let wish = match self.next()? {
                    "none" => Wish::AsItIs,
                    "on" => Wish::On,
                    "off" => Wish::Off,
                    _ => return None,
                };
                let data = self.first_byte(zeros)?;
                Some(Call::Answer { data, wish })
            }
            "content" => Some(Call::Content {
                command: self.number()?,
                data: self.zeros()?,
            }),
            _ => None,
        }
    }
}

fn heard(kind: u8, character: u8) -> Option<Heard> {
    match kind {
        1 => Some(Heard::Character(character)),
        2 => Some(Heard::Damaged(character, Damage::Parity)),
        3 => Some(Heard::Damaged(character, Damage::Overrun)),
        4 => Some(Heard::Damaged(character, Damage::Framing)),
        _ => None,
    }
}

impl Scenario {
    fn named(name: &str) -> Scenario {
        Scenario {
            name: name.to_string(),
            profile: FSK,
            retries: 0,
            preambles: [PREAMBLES; DEVICES],
            limit: NO_LIMIT,
            calls: HashMap::new(),
            injected: HashMap::new(),
            stop: 0,
            expected: Vec::new(),
        }
    }

    /// Characters of one kind, one a tick from this one on.
    fn inject(&mut self, tick: u32, kind: u8, hexadecimal: &str) -> Option<()> {
        for (at, digits) in hexadecimal.as_bytes().chunks(2).enumerate() {
            let digits = std::str::from_utf8(digits).ok()?;
            let character = u8::from_str_radix(digits, 16).ok()?;
            self.injected
                .insert(tick + at as u32, heard(kind, character)?);
        }
        Some(())
    }

    fn read_line(&mut self, line: &str) -> Option<()> {
        if let Some(expected) = line.strip_prefix("> ") {
            self.expected.push(with_zeros(expected)?);
            return Some(());
        }
        let mut words = Words(line.split_whitespace());
        match words.next()? {
            "profile" => {
                self.profile = words.profile()?;
                self.retries = words.number()?;
            }
            "limit" => self.limit = words.number()?,
            "device" => {
                let device = words.number::<usize>()?.checked_sub(MASTERS)?;
                *self.preambles.get_mut(device)? = words.number()?;
            }
            "inject" => self.inject(words.number()?, words.number()?, words.next()?)?,
            "stop" => self.stop = words.number()?,
            tick => {
                let place = (tick.parse().ok()?, words.number()?);
                self.calls.insert(place, words.call()?);
            }
        }
        words.next().is_none().then_some(())
    }
}

/// `(N)` stands for N zero bytes in hexadecimal.
fn with_zeros(event: &str) -> Option<String> {
    let mut pieces = event.split('(');
    let mut event = pieces.next()?.to_string();
    for piece in pieces {
        let (count, rest) = piece.split_once(')')?;
        event.push_str(&"00".repeat(count.parse().ok()?));
        event.push_str(rest);
    }
    Some(event)
}

/// The scenarios of a folder's files of these kinds.
pub fn stored(folder: &str, kinds: &[&str]) -> Vec<Scenario> {
    let of_kind = |kind: &&str| {
        let path = format!("{folder}/{kind}.txt");
        let text = std::fs::read_to_string(&path).unwrap_or_else(|why| panic!("{path}: {why}"));
        read(&text)
    };
    kinds.iter().flat_map(of_kind).collect()
}

/// The scenarios of a file's text; one begins with a line "scenario", its name and what it shows.
fn read(text: &str) -> Vec<Scenario> {
    let mut scenarios: Vec<Scenario> = Vec::new();
    for line in text.lines() {
        if let Some(title) = line.strip_prefix("scenario ") {
            let name = title.split(' ').next().unwrap_or(title);
            scenarios.push(Scenario::named(name));
            continue;
        }
        let read = scenarios.last_mut().map(|last| last.read_line(line));
        assert!(read == Some(Some(())), "no line of a scenario: {line}");
    }
    scenarios
}
