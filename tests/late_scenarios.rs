//! The scenarios of tests/data/item-14: what is started, the hosts' calls, and what is expected.

use crate::run_archive::Setup;
use crate::tick_list::{silent_tick, Call, Tick};

const FILES: [(&str, &str); 4] = [
    ("clipped_on", include_str!("data/item-14/clipped_on.txt")),
    ("start", include_str!("data/item-14/start.txt")),
    ("meet", include_str!("data/item-14/meet.txt")),
    ("random", include_str!("data/item-14/random.txt")),
];

/// A message: its master, the ticks in which it was accepted and its first character went out.
#[derive(Clone, Copy, Debug, PartialEq, Eq, PartialOrd, Ord)]
pub struct Message {
    pub accepted: usize,
    pub master: usize,
    pub begins: usize,
}

#[derive(Default)]
pub struct Scenario {
    pub name: String,
    pub setup: Setup,
    pub ticks: Vec<Tick>,
    /// Each tick's number.
    pub events: Vec<u8>,
    /// The tick in which both masters begin, and the first behind it in which not both send.
    pub together: Option<usize>,
    pub overlap_ended: Option<usize>,
    /// The longest wait, the messages, and those for which that wait is claimed.
    pub bound: usize,
    pub messages: Vec<Message>,
    pub claimed: Vec<Message>,
    /// What hosts are told, and calls that are refused: tick, party and what.
    pub told: Vec<String>,
    /// The frames: first and last tick, party, type, master, length, and whether it was alone.
    pub frames: Vec<String>,
    /// The end of the first frame that one master sent or heard whole and the other heard whole.
    pub in_touch: Option<usize>,
}

fn number<T: TryFrom<u64>>(word: &str) -> T {
    let number = word.parse::<u64>().ok();
    let fitting = number.and_then(|number| T::try_from(number).ok());
    fitting.unwrap_or_else(|| panic!("{word} is no such number"))
}

fn zeros(count: &str) -> Vec<u8> {
    vec![0; number(count)]
}

fn call(words: &[&str]) -> Call {
    match *words {
        ["ask", preamble, form, address, command, count] => Call::Ask {
            preamble: number(preamble),
            long_address: form == "long",
            address: number(address),
            command: number(command),
            data: zeros(count),
        },
        ["answer", count, first] => {
            let mut data = zeros(count);
            data[0] = number(first);
            Call::Answer { data }
        }
        _ => panic!("no call: {words:?}"),
    }
}

/// `COUNT*HEX`: so many ticks with this number.
fn events(words: &[&str]) -> Vec<u8> {
    let mut events = Vec::new();
    for word in words {
        let (count, hex) = word.split_once('*').expect("a count and a number");
        let event = u8::from_str_radix(hex, 16).expect("a number in hexadecimal");
        events.extend(vec![event; number(count)]);
    }
    events
}

impl Scenario {
    fn add(&mut self, line: &str) {
        let words: Vec<&str> = line.split(' ').collect();
        match words[..] {
            ["scenario", name] => self.name = name.to_string(),
            ["profile", ..] => {
                self.setup.profile = std::array::from_fn(|at| number(words[1 + at]));
            }
            ["retries", retries] => self.setup.retries = number(retries),
            ["device", polling_address, unique_address, preamble] => {
                let slots = &self.setup.preambles;
                let slot = slots.iter().position(|&p| p == 0).expect("a slot is left");
                self.setup.preambles[slot] = number(preamble);
                self.setup.polling_addresses[slot] = number(polling_address);
                self.setup.unique_addresses[slot] = number(unique_address);
            }
            ["start", primary, secondary] => {
                self.setup.starts = [number(primary), number(secondary)];
            }
            ["ticks", count] => self.ticks = vec![silent_tick(); number(count)],
            ["call", tick, party, ref rest @ ..] => {
                let place = &mut self.ticks[number::<usize>(tick)][number::<usize>(party)];
                assert!(place.replace(call(rest)).is_none(), "two calls: {line}");
            }
            ["events", ref rest @ ..] => self.events = events(rest),
            ["together", tick] => self.together = Some(number(tick)),
            ["overlap-ended", tick] => self.overlap_ended = Some(number(tick)),
            ["bound", ticks] => self.bound = number(ticks),
            ["message", master, accepted, begins, claim] => {
                let message = Message {
                    accepted: number(accepted),
                    master: number(master),
                    begins: number(begins),
                };
                self.messages.push(message);
                if claim == "claimed" {
                    self.claimed.push(message);
                }
            }
            ["told", ref rest @ ..] => self.told.push(rest.join(" ")),
            ["frame", ref rest @ ..] => self.frames.push(rest.join(" ")),
            ["in-touch", tick] => self.in_touch = Some(number(tick)),
            _ => panic!("no line of a scenario: {line}"),
        }
    }
}

/// The name of each file, and its scenarios.
pub fn all() -> Vec<(&'static str, Vec<Scenario>)> {
    let read = |text: &str| {
        let mut scenarios = vec![Scenario::default()];
        for line in text.lines() {
            match line {
                "end" => scenarios.push(Scenario::default()),
                _ => scenarios.last_mut().expect("one").add(line),
            }
        }
        scenarios.pop();
        scenarios
    };
    FILES.map(|(name, text)| (name, read(text))).into()
}
