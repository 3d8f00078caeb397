//! Runs the infrared port's master and devices, those of libnengapiko.a and those in plain Rust, through
//! the scenes of tests/data/item-13 on a line of a few lines of this file, and compares what every party
//! does with what is stored beside them.

mod calls;
#[allow(dead_code)]
mod oracle_ticks;
#[path = "oracles.rs"]
mod oracles;
mod port_archive;
mod port_oracle;

use calls::{Given, Request, NOTHING};
use oracle_ticks::{heard_of, Ticked};
use port_oracle::Ear;
use std::collections::HashMap;
use std::process::ExitCode;

const FOLDER: &str = "tests/data/item-13";
const KINDS: [&str; 17] = [
    "answer",
    "awake",
    "behind",
    "damage",
    "dozing",
    "error",
    "gap",
    "lost",
    "random",
    "request",
    "start",
    "sto",
    "stranger",
    "unanswered",
    "wake",
    "wakes",
    "zero",
];
const LIMIT: usize = 255;

/// The number of what was heard, and the character.
type Heard = (u8, u8);
const SILENCE: Heard = (0, 0);
const TWO_SENDERS: Heard = (4, 0);

enum Call {
    Asks {
        preamble: usize,
        long_address: bool,
        address: u64,
        command: u8,
        data: Vec<u8>,
    },
    Answers {
        call: u8,
        data: Vec<u8>,
    },
}

#[derive(Default)]
struct Scene {
    name: String,
    primary: bool,
    retries: u8,
    /// Preamble, polling address, unique address.
    devices: Vec<(usize, u8, u64)>,
    until: usize,
    /// By tick and party; the master is party 0.
    calls: HashMap<(usize, usize), Call>,
    /// What a party hears of a tick, whatever is sent in it.
    hears: Vec<(usize, usize, usize, Heard)>,
    strangers: HashMap<usize, Vec<u8>>,
    expected: Vec<String>,
}

fn hex(text: &str) -> Vec<u8> {
    let digits = if text == "-" { "" } else { text };
    (0..digits.len() / 2)
        .map(|at| u8::from_str_radix(&digits[2 * at..2 * at + 2], 16).expect("a byte"))
        .collect()
}

fn number<N: std::str::FromStr>(word: &str) -> N {
    let parsed = word.parse();
    parsed.unwrap_or_else(|_| panic!("{word} is no number"))
}

fn party(word: &str) -> usize {
    match word.strip_prefix('d') {
        Some(device) => 1 + number::<usize>(device),
        None => 0,
    }
}

fn heard(word: &str) -> Heard {
    let kind = "-=pof".find(&word[..1]).expect("a kind") as u8;
    (kind, hex(&word[1..]).first().copied().unwrap_or(0))
}

impl Scene {
    fn line(&mut self, line: &str) {
        let words: Vec<&str> = line.split_whitespace().collect();
        match words[..] {
            ["start", master, retries] => {
                self.primary = master == "p";
                self.retries = number(retries);
            }
            ["device", preamble, polling, unique] => {
                let device = (number(preamble), number(polling), number(unique));
                self.devices.push(device);
            }
            ["until", tick] => self.until = number(tick),
            [tick, "other", characters] => {
                for (at, character) in hex(characters).into_iter().enumerate() {
                    let sent = self.strangers.entry(number::<usize>(tick) + at);
                    sent.or_default().push(character);
                }
            }
            [ticks, who, "hears", what] => {
                let (first, last) = ticks.split_once('-').unwrap_or((ticks, ticks));
                let heard = (party(who), number(first), number(last), heard(what));
                self.hears.push(heard);
            }
            [tick, who, "asks", preamble, form, address, command, data] => {
                let asks = Call::Asks {
                    preamble: number(preamble),
                    long_address: form == "long",
                    address: number(address),
                    command: number(command),
                    data: hex(data),
                };
                self.calls.insert((number(tick), party(who)), asks);
            }
            [tick, who, "answers", wish, data] => {
                let wishes = ["same", "on", "off"];
                let wish = wishes.iter().position(|&name| name == wish);
                let answers = Call::Answers {
                    call: 1 + wish.expect("a wish") as u8,
                    data: hex(data),
                };
                self.calls.insert((number(tick), party(who)), answers);
            }
            _ => panic!("{}: {line}", self.name),
        }
    }

    fn heard(&self, party: usize, tick: usize, sent: &[u8]) -> Heard {
        let said = self.hears.iter().rev();
        let mut said =
            said.filter(|(who, first, last, _)| *who == party && (*first..=*last).contains(&tick));
        match (said.next(), sent) {
            (Some(&(.., heard)), _) => heard,
            (None, []) => SILENCE,
            (None, &[character]) => (1, character),
            (None, _) => TWO_SENDERS,
        }
    }
}

fn scenes(kind: &str) -> Vec<Scene> {
    let path = format!("{FOLDER}/{kind}.txt");
    let text = std::fs::read_to_string(&path).unwrap_or_else(|error| panic!("{path}: {error}"));
    let mut scenes: Vec<Scene> = Vec::new();
    for line in text.lines() {
        if let Some(named) = line.strip_prefix("scene ") {
            let name = named.split(' ').next().unwrap_or(named);
            scenes.push(Scene {
                name: name.to_string(),
                ..Scene::default()
            });
            continue;
        }
        let scene = scenes.last_mut().expect("a scene begins with its name");
        match line.strip_prefix("> ") {
            Some(event) => scene.expected.push(event.to_string()),
            None => scene.line(line),
        }
    }
    scenes
}

/// A party of the archive or in plain Rust.
enum Party {
    EngineMaster(port_archive::Master),
    EngineDevice(port_archive::Device),
    PlainMaster(Box<port_oracle::Master>),
    PlainDevice(Box<port_oracle::Device>),
}

impl Party {
    fn tick(&mut self, heard: Heard, call: Option<&Call>) -> Ticked {
        let request = match call {
            Some(Call::Asks {
                preamble,
                long_address,
                address,
                command,
                data,
            }) => Some(Request {
                preamble: *preamble,
                revision: 7,
                long_address: *long_address,
                address: *address,
                command: *command,
                data,
            }),
            _ => None,
        };
        let given = match call {
            Some(Call::Answers { call, data }) => Given {
                call: *call,
                command: 0,
                data,
            },
            _ => NOTHING,
        };
        match self {
            Party::EngineMaster(master) => master.tick(heard, request),
            Party::EngineDevice(device) => device.tick(heard, given),
            Party::PlainMaster(master) => master.tick(heard_of(heard.0, heard.1), request),
            Party::PlainDevice(device) => device.tick(heard_of(heard.0, heard.1), given),
        }
    }

    fn data(&self) -> &[u8; 255] {
        match self {
            Party::EngineMaster(master) => &master.data,
            Party::EngineDevice(device) => &device.data,
            Party::PlainMaster(master) => master.data(),
            Party::PlainDevice(device) => device.data(),
        }
    }

    /// By the port's words of a device in crates/port_c/specs, or as the oracle says.
    fn ear(&self) -> Ear {
        match self {
            Party::EngineDevice(device) => match device.port[0] {
                0 => Ear::Reads,
                3 => Ear::Dozes,
                _ => Ear::PassesOver,
            },
            Party::PlainDevice(device) => device.ear,
            _ => Ear::Reads,
        }
    }

    /// Whether it is a master that sends its wake-up.
    fn is_waking(&self) -> bool {
        match self {
            Party::EngineMaster(master) => master.port[1] != 0,
            Party::PlainMaster(master) => master.is_waking(),
            _ => false,
        }
    }
}

/// The parties that a scene starts, or the line of the start that is refused.
fn engine_parties(scene: &Scene) -> Result<Vec<Party>, String> {
    let (refused, master) = port_archive::Master::start(scene.primary, scene.retries, LIMIT);
    if refused != 0 {
        return Err(format!("m start refused {refused}"));
    }
    let mut parties = vec![Party::EngineMaster(master)];
    for (at, &(preamble, polling, unique)) in scene.devices.iter().enumerate() {
        let (refused, device) = port_archive::Device::start(preamble, polling, unique, LIMIT);
        if refused != 0 {
            return Err(format!("d{at} start refused {refused}"));
        }
        parties.push(Party::EngineDevice(device));
    }
    Ok(parties)
}

fn plain_parties(scene: &Scene) -> Vec<Party> {
    let master = port_oracle::Master::start(scene.primary, scene.retries);
    let devices = scene.devices.iter().map(|&(_, polling, unique)| {
        Party::PlainDevice(Box::new(port_oracle::Device::start(polling, unique)))
    });
    std::iter::once(Party::PlainMaster(Box::new(master)))
        .chain(devices)
        .collect()
}

fn data_text(bytes: &[u8]) -> String {
    match bytes {
        [] => "-".to_string(),
        bytes => bytes.iter().map(|byte| format!("{byte:02x}")).collect(),
    }
}

/// What a master finds and is told.
fn master_lines(ticked: &Ticked, data: &[u8; 255], lines: &mut Vec<String>) {
    let [_, told, attempts, event, frame_type, ..] = ticked.results;
    match (event, frame_type) {
        (2, _) => lines.push("finds broken".to_string()),
        (3, 2) => lines.push("finds STX whole".to_string()),
        (3, 6) => lines.push("finds ACK whole".to_string()),
        (4, _) => lines.push("finds damaged".to_string()),
        _ => {}
    }
    let (command, count) = (ticked.results[10], ticked.results[11] as usize);
    let text = data_text(&data[..count]);
    match told {
        1 => lines.push(format!("answered command {command} data {text}")),
        2 => lines.push(format!("given up {attempts}")),
        3 => lines.push("broadcast sent".to_string()),
        _ => {}
    }
}

fn device_lines(ticked: &Ticked, data: &[u8; 255], ears: [Ear; 2], lines: &mut Vec<String>) {
    match ears {
        [Ear::Reads, Ear::PassesOver] => lines.push("passes over".to_string()),
        [Ear::Dozes, Ear::PassesOver] => lines.push("wakes".to_string()),
        [Ear::PassesOver, Ear::Reads] => lines.push("reads".to_string()),
        [Ear::Reads | Ear::PassesOver, Ear::Dozes] => lines.push("dozes".to_string()),
        _ => {}
    }
    let (command, count) = (ticked.results[10], ticked.results[11] as usize);
    let text = data_text(&data[..count]);
    match ticked.results[1] {
        1 => lines.push(format!("request {command} data {text}")),
        2 => lines.push(format!("broadcast {command} data {text}")),
        _ => {}
    }
}

/// A frame or a wake-up on its way out: the first tick, the characters so far, and whether it is a
/// wake-up.
struct Speech {
    first: usize,
    characters: Vec<u8>,
    wakes: bool,
}

impl Speech {
    fn line(&self) -> String {
        match self.wakes {
            true => format!("wake-up {}", self.characters.len()),
            false => format!("sends {}", data_text(&self.characters)),
        }
    }
}

struct Run {
    /// First tick, last tick, party and text.
    lines: Vec<(usize, usize, usize, String)>,
    speeches: Vec<Option<Speech>>,
}

impl Run {
    fn ends_speech(&mut self, party: usize) {
        if let Some(speech) = self.speeches[party].take() {
            let last = speech.first + speech.characters.len() - 1;
            self.lines.push((speech.first, last, party, speech.line()));
        }
    }

    fn sent(&mut self, tick: usize, party: usize, sent: Option<u8>, wakes: bool) {
        let goes_on = self.speeches[party]
            .as_ref()
            .is_some_and(|speech| sent.is_some() && speech.wakes == wakes);
        if !goes_on {
            self.ends_speech(party);
        }
        if let Some(character) = sent {
            let speech = self.speeches[party].get_or_insert(Speech {
                first: tick,
                characters: Vec::new(),
                wakes,
            });
            speech.characters.push(character);
        }
    }

    fn tick(
        &mut self,
        scene: &Scene,
        tick: usize,
        party: &mut Party,
        at: usize,
        heard: Heard,
    ) -> Option<u8> {
        let ear = party.ear();
        let call = scene.calls.get(&(tick, at));
        let ticked = party.tick(heard, call);
        let mut lines = Vec::new();
        match at {
            0 => master_lines(&ticked, party.data(), &mut lines),
            _ => device_lines(&ticked, party.data(), [ear, party.ear()], &mut lines),
        }
        match (call, ticked.returned) {
            (None, _) => {}
            (Some(Call::Asks { .. }), 0) => lines.push("request taken".to_string()),
            (Some(Call::Answers { .. }), 0) => lines.push("answer taken".to_string()),
            (Some(_), number) => lines.push(format!("refused {number}")),
        }
        let lines = lines.into_iter().map(|line| (tick, tick, at, line));
        self.lines.extend(lines);
        let sent = (ticked.results[0] != 0).then_some(ticked.results[0] as u8);
        self.sent(tick, at, sent, party.is_waking());
        sent
    }

    /// In the order of ticks, then of parties, then as things occur in a tick.
    fn texts(mut self) -> Vec<String> {
        for party in 0..self.speeches.len() {
            self.ends_speech(party);
        }
        // what begins to be sent in a tick stands behind what is told and taken in it
        self.lines.sort_by_key(|&(first, _, party, ref text)| {
            let sends = text.starts_with("sends") || text.starts_with("wake-up");
            (first, party, sends)
        });
        let name = |party: usize| match party {
            0 => "m".to_string(),
            party => format!("d{}", party - 1),
        };
        let lines = self.lines.into_iter();
        lines
            .map(|(first, last, party, text)| {
                let long = text.starts_with("sends") || text.starts_with("wake-up");
                match long {
                    true => format!("{first}-{last} {} {text}", name(party)),
                    false => format!("{first} {} {text}", name(party)),
                }
            })
            .collect()
    }
}

fn run(scene: &Scene, mut parties: Vec<Party>) -> Vec<String> {
    let mut run = Run {
        lines: Vec::new(),
        speeches: parties.iter().map(|_| None).collect(),
    };
    let mut before: Vec<u8> = Vec::new();
    for tick in 0..scene.until {
        let mut sent = scene.strangers.get(&tick).cloned().unwrap_or_default();
        for (at, party) in parties.iter_mut().enumerate() {
            let heard = match tick {
                0 => SILENCE,
                tick => scene.heard(at, tick - 1, &before),
            };
            sent.extend(run.tick(scene, tick, party, at, heard));
        }
        before = sent;
    }
    run.texts()
}

/// The first line that differs.
fn difference(expected: &[String], found: &[String]) -> Option<String> {
    let longest = expected.len().max(found.len());
    let at = (0..longest).find(|&at| expected.get(at) != found.get(at))?;
    let line = |lines: &[String]| lines.get(at).cloned().unwrap_or("nothing".to_string());
    Some(format!(
        "{} where {} is stored",
        line(found),
        line(expected)
    ))
}

fn main() -> ExitCode {
    let (mut count, mut ticks, mut differences) = (0, 0, 0);
    for scene in KINDS.iter().flat_map(|kind| scenes(kind)) {
        count += 1;
        ticks += scene.until;
        let engine = match engine_parties(&scene) {
            Ok(parties) => run(&scene, parties),
            Err(refused) => vec![refused],
        };
        let started = !matches!(&scene.expected[..], [line] if line.contains("start refused"));
        let plain = match started {
            true => run(&scene, plain_parties(&scene)),
            false => scene.expected.clone(),
        };
        for (who, found) in [("archive", engine), ("plain Rust", plain)] {
            if let Some(other) = difference(&scene.expected, &found) {
                println!("port scene {}, {who}: {other}", scene.name);
                differences += 1;
            }
        }
    }
    println!("port scenes: {count} scenes, {ticks} ticks, {differences} differences");
    match differences {
        0 if count > 0 => ExitCode::SUCCESS,
        _ => ExitCode::FAILURE,
    }
}
