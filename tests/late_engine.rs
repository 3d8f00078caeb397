//! A run of the masters and devices of libnengapiko.a, one call a tick, on a line of a few lines of
//! this file, in which each master starts at a tick of its own: the number of each tick, as
//! nengapiko_run has it, what the hosts are told, and the frames that are sent.

use crate::calls::{Given, Request, NOTHING};
use crate::engine_archive::{Device, Master, Results, NO_LIMIT};
use crate::oracles::frame_oracle::{self, Fields, ACK, STX};
use crate::run_archive::Setup;
use crate::tick_list::{Call, Tick, REVISION, SENDERS, SENDS, TAKEN};

const MASTERS: usize = 2;

/// A frame that a party sends: its first tick, and its characters so far.
#[derive(Clone, Default)]
struct Sending {
    first: usize,
    characters: Vec<u8>,
}

/// A frame that a party has sent: its first and its last tick, and its fields.
struct Sent {
    first: usize,
    last: usize,
    party: usize,
    fields: Fields,
}

#[derive(Default)]
pub struct Run {
    pub numbers: Vec<u8>,
    /// Tick, party and what.
    pub told: Vec<String>,
    /// Tick, party and character.
    pub characters: Vec<(usize, usize, u8)>,
    sending: Vec<Sending>,
    sent: Vec<Sent>,
    /// Of each master, the ticks of the last characters of frames that it sent, and of those that it
    /// heard whole.
    own: [Vec<usize>; MASTERS],
    heard_whole: [Vec<usize>; MASTERS],
}

/// What the line carries of what is sent.
fn carried(sent: &[u8]) -> (u8, u8) {
    match *sent {
        [] => (0, 0),
        [character] => (1, character),
        _ => (4, 0),
    }
}

fn request(call: &Option<Call>) -> Option<Request<'_>> {
    match call {
        Some(Call::Ask {
            preamble,
            long_address,
            address,
            command,
            data,
        }) => Some(Request {
            preamble: usize::from(*preamble),
            revision: REVISION,
            long_address: *long_address,
            address: *address,
            command: *command,
            data,
        }),
        _ => None,
    }
}

fn given(call: &Option<Call>) -> Given<'_> {
    match call {
        Some(Call::Answer { data }) => Given {
            call: 1,
            command: 0,
            data,
        },
        _ => NOTHING,
    }
}

fn master_tells(master: &Master) -> Option<String> {
    match master.results.told() {
        0 => None,
        1 => Some("answered".to_string()),
        2 => Some(format!("given-up {}", master.results.attempts())),
        _ => Some("broadcast-sent".to_string()),
    }
}

/// The scenarios were made without item 6: command 11 by broadcast is told there as any broadcast.
fn device_tells(device: &Device) -> Option<String> {
    let results = &device.results;
    let is_broadcast = results.long_address() && results.address() == 0;
    match (results.told(), is_broadcast) {
        (0, _) => None,
        (1, false) => Some("request".to_string()),
        _ => Some("broadcast".to_string()),
    }
}

impl Run {
    /// A character that a party sends in this tick; its frame is over where the frame reader reads it.
    fn sends(&mut self, party: usize, character: u8) {
        let tick = self.numbers.len();
        self.characters.push((tick, party, character));
        self.sending
            .resize(self.sending.len().max(party + 1), Sending::default());
        let sending = &mut self.sending[party];
        if sending.characters.is_empty() {
            sending.first = tick;
        }
        sending.characters.push(character);
        let mut fields = Fields::default();
        if frame_oracle::read(&sending.characters, &mut fields) != frame_oracle::TAKEN {
            return;
        }
        let first = sending.first;
        sending.characters.clear();
        self.sent.push(Sent {
            first,
            last: tick,
            party,
            fields,
        });
        if party < MASTERS {
            self.own[party].push(tick);
        }
    }

    /// What a master's reader tells in this tick of the tick before.
    fn hears(&mut self, master: usize, results: &Results) {
        if results.is_whole() {
            self.heard_whole[master].push(self.numbers.len() - 1);
        }
    }

    /// The frames in the order of their ends, each with its ticks, sender, type, master and length, and
    /// whether its sender was alone in each of them.
    pub fn frames(&self) -> Vec<String> {
        let line = |sent: &Sent| {
            let Sent {
                first, last, party, ..
            } = sent;
            let [_, frame_type, _, primary, ..] = sent.fields;
            let name = match frame_type as u8 {
                STX => "STX",
                ACK => "ACK",
                _ => "BACK",
            };
            let alone = self.numbers[*first..=*last]
                .iter()
                .all(|n| n & SENDERS == 1);
            let how = if alone { "alone" } else { "crossed" };
            let (master, length) = (1 - primary, last - first + 1);
            format!("{first} {last} {party} {name} {master} {length} {how}")
        };
        self.sent.iter().map(line).collect()
    }

    /// The end of the first frame that one master sent or heard whole and the other heard whole.
    pub fn in_touch(&self) -> Option<usize> {
        let [first, second] = &self.heard_whole;
        let by_second = first
            .iter()
            .filter(|&end| second.contains(end) || self.own[1].contains(end));
        let by_first = second.iter().filter(|&end| self.own[0].contains(end));
        by_second.chain(by_first).min().copied()
    }

    fn tell(&mut self, party: usize, told: Option<String>, refused: u32) {
        let tick = self.numbers.len();
        let refusal = (refused != 0).then(|| format!("refused {refused}"));
        for what in told.into_iter().chain(refusal) {
            self.told.push(format!("{tick} {party} {what}"));
        }
    }
}

pub fn run(setup: &Setup, ticks: &[Tick]) -> Run {
    let limit = setup.limit.unwrap_or(NO_LIMIT);
    let master =
        |primary| Master::start(setup.profile, primary, setup.retries, limit).expect("a master");
    let mut masters = [true, false].map(master);
    let slots = (0..setup.preambles.len()).filter(|&slot| setup.preambles[slot] > 0);
    let mut devices: Vec<Device> = slots
        .map(|slot| {
            let preamble = usize::from(setup.preambles[slot]);
            let polling_address = setup.polling_addresses[slot];
            let unique_address = setup.unique_addresses[slot];
            let profile = setup.profile;
            Device::start(profile, preamble, polling_address, unique_address, limit)
                .expect("a device")
        })
        .collect();
    let mut run = Run::default();
    let mut heard = (0, 0);
    for (tick, calls) in ticks.iter().enumerate() {
        let mut number = 0;
        let mut sent = Vec::new();
        for (party, master) in masters.iter_mut().enumerate() {
            if (tick as u64) < setup.starts[party] {
                continue;
            }
            let asked = request(&calls[party]);
            let is_asked = asked.is_some();
            let refused = master.tick(heard, asked);
            run.tell(party, master_tells(master), refused);
            run.hears(party, &master.results);
            if is_asked && refused == 0 {
                number += TAKEN[party];
            }
            if let Some(character) = master.results.sent() {
                number += SENDS[party];
                sent.push(character);
                run.sends(party, character);
            }
        }
        for (at, device) in devices.iter_mut().enumerate() {
            let party = MASTERS + at;
            let refused = device.tick(heard, given(&calls[party]));
            run.tell(party, device_tells(device), refused);
            if let Some(character) = device.results.sent() {
                sent.push(character);
                run.sends(party, character);
            }
        }
        heard = carried(&sent);
        run.numbers.push(number + sent.len() as u8);
    }
    run
}
