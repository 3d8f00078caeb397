//! Runs the link in plain Rust, and the masters and devices of libnengapiko.a on a line of a few lines
//! of this file, through scenarios of a link, and compares what every party does in each tick with what
//! is stored beside them.

use crate::calls;
use crate::engine_archive;
use crate::oracles::device_oracle::Wish;
use crate::oracles::frame_oracle::{REFUSED_DATA_LENGTH, REFUSED_PREAMBLE, TAKEN};
use crate::oracles::link_oracle::{Link, MASTERS, PARTIES};
use crate::oracles::party_oracle::{Profile, REVISION};
use crate::oracles::tick_oracle::{Damage, Frame, Heard};
use crate::oracles::{device_oracle, master_oracle};
use crate::scenarios::{Call, Scenario};

/// Of a master's start.
const REFUSED_RETRIES: u32 = 2;

/// What a party did in a tick.
struct Event {
    tick: u32,
    party: usize,
    what: String,
}

/// What all parties did.
#[derive(Default)]
struct Record {
    events: Vec<Event>,
    /// For each party the place of the event that is the frame that it sends or sent last.
    speeches: [usize; PARTIES],
}

const COLLISION: &str = " COLLISION";

impl Record {
    fn add(&mut self, tick: u32, party: usize, what: String) {
        self.events.push(Event { tick, party, what });
    }

    fn add_character(&mut self, party: usize, character: u8) {
        let what = &mut self.events[self.speeches[party]].what;
        let end = what.len()
            - if what.ends_with(COLLISION) {
                COLLISION.len()
            } else {
                0
            };
        what.insert_str(end, &format!("{character:02X}"));
    }

    fn add_collision(&mut self, party: usize) {
        let what = &mut self.events[self.speeches[party]].what;
        if !what.ends_with(COLLISION) {
            what.push_str(COLLISION);
        }
    }

    /// In the order of ticks, then of parties, then as they were added.
    fn lines(mut self) -> Vec<String> {
        self.events.sort_by_key(|event| (event.tick, event.party));
        self.events
            .iter()
            .map(|Event { tick, what, .. }| format!("{tick} {what}"))
            .collect()
    }
}

/// What a party did in a tick: what it told its host, what became of the call, the character that it
/// sent and whether it is a frame's first.
struct Done {
    told: Option<String>,
    answer: Option<u32>,
    sent: Option<u8>,
    begins: bool,
}

/// The parties of a link; a tick of one of them, by what it hears and its host's call.
trait Parties: Sized {
    /// The parties, or the lowest of their starts' refusals.
    fn started(scenario: &Scenario) -> Result<Self, u32>;
    fn tick(&mut self, party: usize, heard: Heard, call: Option<&Call>) -> Done;
}

/// What the hosts are told, in the words of the scenarios.
fn answered(command: u64, count: u64, first: u8) -> String {
    format!("answered cmd={command} count={count} first={first:02X}")
}

fn given_up(attempts: u64) -> String {
    format!("given-up attempts={attempts}")
}

fn stx(what: &str, primary: bool, command: u64, count: u64) -> String {
    let master = if primary { "primary" } else { "secondary" };
    format!("{what} from {master} cmd={command} count={count}")
}

const BROADCAST_SENT: &str = "broadcast-sent";
const BROADCAST: &str = "broadcast";

fn request(long_address: bool) -> &'static str {
    match long_address {
        true => "request long",
        false => "request short",
    }
}

impl Parties for Link {
    fn started(scenario: &Scenario) -> Result<Link, u32> {
        let Scenario {
            profile,
            retries,
            preambles,
            limit,
            ..
        } = *scenario;
        let refusals = [
            (!(3..=15).contains(&retries), REFUSED_RETRIES),
            (
                !preambles.iter().all(|preamble| (5..=20).contains(preamble)),
                REFUSED_PREAMBLE,
            ),
            (!(2..=255).contains(&limit), REFUSED_DATA_LENGTH),
        ];
        match refusals.iter().find(|(applies, _)| *applies) {
            Some(&(_, number)) => Err(number),
            None => Ok(Link::start_with(profile, retries, preambles, limit)),
        }
    }

    fn tick(&mut self, party: usize, heard: Heard, call: Option<&Call>) -> Done {
        let (told, answer, sent) = match party.checked_sub(MASTERS) {
            None => {
                let master = &mut self.masters[party];
                let told = oracle_master_told(master, heard);
                let answer = call.map(|call| oracle_asks(master, call));
                (told, answer, master.send())
            }
            Some(device) => {
                let device = &mut self.devices[device];
                let told = oracle_device_told(device, heard);
                let answer = call.map(|call| oracle_gives(device, call));
                (told, answer, device.send())
            }
        };
        let begins = self.out(party).at_first();
        Done {
            told,
            answer,
            sent,
            begins,
        }
    }
}

fn oracle_master_told(master: &mut master_oracle::Master, heard: Heard) -> Option<String> {
    let told = master.take(heard);
    let Frame { command, count, .. } = *master.reader().frame();
    match told {
        master_oracle::Told::Nothing => None,
        master_oracle::Told::Answered => {
            let first = master.reader().first_data_byte();
            Some(answered(command.into(), count.into(), first))
        }
        master_oracle::Told::GivenUp => Some(given_up(master.attempts().into())),
        master_oracle::Told::BroadcastSent => Some(BROADCAST_SENT.to_string()),
    }
}

fn oracle_device_told(device: &mut device_oracle::Device, heard: Heard) -> Option<String> {
    let told = device.take(heard);
    let frame = device.reader().frame();
    let what = match told {
        device_oracle::Told::Nothing => return None,
        device_oracle::Told::Request => request(frame.long_address),
        device_oracle::Told::Broadcast => BROADCAST,
    };
    let Frame { command, count, .. } = *frame;
    Some(stx(what, frame.primary, command.into(), count.into()))
}

const NO_SUCH_CALL: &str = "a master asks, and a device answers or gives burst content";

fn oracle_asks(master: &mut master_oracle::Master, call: &Call) -> u32 {
    match call {
        Call::Request {
            long_address,
            address,
            command,
            preambles,
            data,
        } => master.ask(
            *preambles,
            REVISION,
            *long_address,
            *address,
            *command,
            data,
        ),
        _ => panic!("{NO_SUCH_CALL}"),
    }
}

fn oracle_gives(device: &mut device_oracle::Device, call: &Call) -> u32 {
    match call {
        Call::Answer { data, wish } => device.answer(data, *wish),
        Call::Content { command, data } => device.burst_content(*command, data),
        _ => panic!("{NO_SUCH_CALL}"),
    }
}

/// The masters and devices of libnengapiko.a.
struct Archive {
    masters: Vec<engine_archive::Master>,
    devices: Vec<engine_archive::Device>,
}

pub fn profile_numbers(profile: &Profile) -> engine_archive::Profile {
    profile.words().map(|ticks| ticks as u16)
}

/// All that were started, or the lowest number of those that were refused.
fn taken_or_lowest<P>(starts: impl Iterator<Item = Result<P, u32>>) -> Result<Vec<P>, u32> {
    let (mut started, mut refused) = (Vec::new(), Vec::new());
    for start in starts {
        match start {
            Ok(party) => started.push(party),
            Err(number) => refused.push(number),
        }
    }
    refused.into_iter().min().map_or(Ok(started), Err)
}

impl Parties for Archive {
    fn started(scenario: &Scenario) -> Result<Archive, u32> {
        let profile = profile_numbers(&scenario.profile);
        let (retries, limit) = (scenario.retries as u8, scenario.limit);
        let master = |primary| engine_archive::Master::start(profile, primary, retries, limit);
        let device = |(at, &preambles): (usize, &usize)| {
            let (polling, unique) = (at as u8, (at + MASTERS) as u64);
            engine_archive::Device::start(profile, preambles, polling, unique, limit)
        };
        let masters = taken_or_lowest([true, false].into_iter().map(master));
        let devices = taken_or_lowest(scenario.preambles.iter().enumerate().map(device));
        match (masters, devices) {
            (Ok(masters), Ok(devices)) => Ok(Archive { masters, devices }),
            (Err(one), Err(other)) => Err(one.min(other)),
            (Err(number), _) | (_, Err(number)) => Err(number),
        }
    }

    fn tick(&mut self, party: usize, heard: Heard, call: Option<&Call>) -> Done {
        match party.checked_sub(MASTERS) {
            None => archive_master(&mut self.masters[party], heard, call),
            Some(device) => archive_device(&mut self.devices[device], heard, call),
        }
    }
}

fn numbers(heard: Heard) -> engine_archive::Heard {
    match heard {
        Heard::Silence => (0, 0),
        Heard::Character(character) => (1, character),
        Heard::Damaged(character, Damage::Parity) => (2, character),
        Heard::Damaged(character, Damage::Overrun) => (3, character),
        Heard::Damaged(character, Damage::Framing) => (4, character),
    }
}

/// A master's stage and a device's turns in which its frame's first character was sent, as
/// crates/master_c/specs/Words.antt and crates/device_c/specs/Words.antt number them.
const STX_BEGUN: u64 = 2 + 16;
const ACK_BEGUN: u64 = 4 + 16;
const BACK_BEGUN: u64 = 6 + 16;

fn archive_master(master: &mut engine_archive::Master, heard: Heard, call: Option<&Call>) -> Done {
    let asked = call.map(|call| match call {
        Call::Request {
            long_address,
            address,
            command,
            preambles,
            data,
        } => calls::Request {
            preamble: *preambles,
            revision: REVISION,
            long_address: *long_address,
            address: *address,
            command: *command,
            data,
        },
        _ => panic!("{NO_SUCH_CALL}"),
    });
    let answer = master.tick(numbers(heard), asked);
    let results = &master.results;
    let told = match results.told() {
        0 => None,
        1 => Some(answered(results.command(), results.count(), master.data[0])),
        2 => Some(given_up(results.attempts())),
        _ => Some(BROADCAST_SENT.to_string()),
    };
    Done {
        told,
        answer: call.map(|_| answer),
        sent: results.sent(),
        begins: master.state[36] == STX_BEGUN,
    }
}

fn archive_device(device: &mut engine_archive::Device, heard: Heard, call: Option<&Call>) -> Done {
    let given = match call {
        None => calls::NOTHING,
        Some(Call::Answer { data, wish }) => calls::Given {
            call: match wish {
                Wish::AsItIs => 1,
                Wish::On => 2,
                Wish::Off => 3,
            },
            command: 0,
            data,
        },
        Some(Call::Content { command, data }) => calls::Given {
            call: 4,
            command: *command,
            data,
        },
        Some(Call::Request { .. }) => panic!("{NO_SUCH_CALL}"),
    };
    let answer = device.tick(numbers(heard), given);
    let results = &device.results;
    let what = match results.told() {
        0 => None,
        1 => Some(request(results.long_address())),
        _ => Some(BROADCAST),
    };
    let told = what.map(|what| stx(what, results.primary(), results.command(), results.count()));
    Done {
        told,
        answer: call.map(|_| answer),
        sent: results.sent(),
        begins: [ACK_BEGUN, BACK_BEGUN].contains(&device.state[25]),
    }
}

/// What a line carries of what its parties send.
fn carried(sent: &[Option<u8>]) -> Heard {
    let mut characters = sent.iter().flatten();
    match (characters.next(), characters.next()) {
        (None, _) => Heard::Silence,
        (Some(&character), None) => Heard::Character(character),
        (Some(_), Some(_)) => Heard::Damaged(0, Damage::Framing),
    }
}

/// The one event of a scenario whose start is refused.
pub fn start_refused(number: u32) -> String {
    format!("refused start {number}")
}

/// What the parties do in a scenario, one line an event.
fn run<P: Parties>(scenario: &Scenario) -> Vec<String> {
    let mut parties = match P::started(scenario) {
        Ok(parties) => parties,
        Err(number) => return vec![start_refused(number)],
    };
    let mut record = Record::default();
    let mut heard = Heard::Silence;
    for tick in 0..scenario.stop {
        let mut sent = [None; PARTIES];
        let mut begins = [false; PARTIES];
        for party in 0..PARTIES {
            let done = parties.tick(party, heard, scenario.calls.get(&(tick, party)));
            if let Some(told) = done.told {
                record.add(tick, party, format!("tell {party} {told}"));
            }
            if let Some(answer) = done.answer {
                let answer = match answer {
                    TAKEN => format!("taken {party}"),
                    number => format!("refused {party} {number}"),
                };
                record.add(tick, party, answer);
            }
            sent[party] = done.sent;
            begins[party] = done.begins;
        }
        let collides = sent.iter().flatten().count() > 1;
        for (party, character) in sent.iter().enumerate() {
            let Some(character) = *character else {
                continue;
            };
            if begins[party] {
                record.speeches[party] = record.events.len();
                record.add(tick, party, format!("send {party} "));
            }
            record.add_character(party, character);
            if collides {
                record.add_collision(party);
            }
        }
        heard = carried(&sent);
        if let Some(&injected) = scenario.injected.get(&tick) {
            heard = injected;
        }
    }
    record.lines()
}

/// Whether the parties do what is expected; the first difference is printed.
fn agrees<P: Parties>(scenario: &Scenario) -> bool {
    let lines = run::<P>(scenario);
    let expected = &scenario.expected;
    let Some(at) =
        (0..lines.len().max(expected.len())).find(|&at| lines.get(at) != expected.get(at))
    else {
        return true;
    };
    println!("{}: line {at}", scenario.name);
    println!("  expected {:?}", expected.get(at));
    println!("  the parties {:?}", lines.get(at));
    false
}

/// Whether both do in all scenarios what is expected of them.
pub fn agree(test: &str, scenarios: &[Scenario]) -> bool {
    let lines: usize = scenarios
        .iter()
        .map(|scenario| scenario.expected.len())
        .sum();
    let count = scenarios.len();
    let differences = |agrees: fn(&Scenario) -> bool| {
        scenarios
            .iter()
            .filter(|&scenario| !agrees(scenario))
            .count()
    };
    let of_oracle = differences(agrees::<Link>);
    let of_archive = differences(agrees::<Archive>);
    println!(
        "{test}: {count} scenarios, {lines} events, {of_oracle} differences in plain Rust, \
         {of_archive} through master and device of the archive"
    );
    of_oracle + of_archive == 0 && count > 0
}
