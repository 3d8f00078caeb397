//! The link and the player of document 01 in plain Rust. It shares nothing with the archive.

use super::device_oracle::{Device, Wish};
use super::frame_oracle::{self, Fields, BACK, STX};
use super::master_oracle::Master;
use super::party_oracle::{Outgoing, Profile, FSK, NO_LIMIT, PREAMBLES};
use super::tick_oracle::{Damage, Heard};
use std::io::Write;

pub const BAD_SCRIPT: &[u8] = b"16\n";
pub const HEADER: &[u8] = b"tick party type master length\n";

pub const MASTERS: usize = 2;
pub const DEVICES: usize = 6;
pub const PARTIES: usize = MASTERS + DEVICES;

const RETRIES: u32 = 3;

const BURST_COMMAND: u8 = 3;

const ZEROS: [u8; 255] = [0; 255];

#[derive(Clone, Copy)]
struct Record {
    tick: u32,
    party: usize,
    action: u8,
    argument: u8,
}

impl Record {
    /// The tick is all but the last two bytes.
    fn read(bytes: &[u8]) -> Record {
        let (tick, [call, argument]) = bytes.split_last_chunk().expect("a record");
        Record {
            tick: tick.iter().fold(0, |high, &low| high << 8 | u32::from(low)),
            party: usize::from(call >> 4),
            action: call & 0x0F,
            argument: *argument,
        }
    }

    fn is_stop(&self) -> bool {
        self.party == 0 && self.action == 0 && self.argument == 0
    }

    fn is_call(&self) -> bool {
        match self.action {
            1 | 3 => self.party < MASTERS,
            2 | 4 | 5 => (MASTERS..PARTIES).contains(&self.party),
            _ => false,
        }
    }
}

/// The calls of a script and its stop's tick, unless it is a bad script.
fn read_script(record: usize, script: &[u8]) -> Option<(Vec<Record>, u32)> {
    let records = script.chunks_exact(record);
    if !records.remainder().is_empty() {
        return None;
    }
    let mut calls: Vec<Record> = records.map(Record::read).collect();
    let stop = calls.pop()?;
    let in_order = calls.windows(2).all(|two| two[0].tick <= two[1].tick)
        && calls.last().is_none_or(|last| last.tick <= stop.tick);
    let good = stop.is_stop() && in_order && calls.iter().all(Record::is_call);
    (good && one_call_a_tick(&calls)).then_some((calls, stop.tick))
}

/// Whether no party has two calls in one tick.
fn one_call_a_tick(calls: &[Record]) -> bool {
    let mut latest = [None; PARTIES];
    calls
        .iter()
        .all(|call| latest[call.party].replace(call.tick) != Some(call.tick))
}

pub struct Link {
    pub masters: [Master; MASTERS],
    pub devices: [Device; DEVICES],
    /// What the line carried in the tick before.
    pub heard: Heard,
    /// Whether each party has been alone in each tick of its frame so far.
    alone: [bool; PARTIES],
}

impl Link {
    fn start() -> Link {
        let mut link = Link::start_with(FSK, RETRIES, [PREAMBLES; DEVICES], NO_LIMIT);
        for device in &mut link.devices {
            device.burst_content(BURST_COMMAND, &ZEROS[..2]);
        }
        link
    }

    /// Device at has polling address at, and as its unique address the number of its party.
    pub fn start_with(
        profile: Profile,
        retries: u32,
        preambles: [usize; DEVICES],
        limit: usize,
    ) -> Link {
        let device = |at| {
            let polling_address = at as u64;
            let unique_address = polling_address + MASTERS as u64;
            Device::start_with(
                profile,
                preambles[at],
                polling_address,
                unique_address,
                limit,
            )
        };
        let master = |primary| Master::start_with(profile, retries, primary, limit);
        Link {
            masters: [master(true), master(false)],
            devices: std::array::from_fn(device),
            heard: Heard::Silence,
            alone: [false; PARTIES],
        }
    }

    fn take(&mut self) {
        for master in &mut self.masters {
            master.take(self.heard);
        }
        for device in &mut self.devices {
            device.take(self.heard);
        }
    }

    /// A call that is refused is passed over.
    fn call(&mut self, call: &Record) {
        let data = &ZEROS[..usize::from(call.argument)];
        let address = u64::from(call.argument);
        match call.action {
            1 => self.masters[call.party].request(false, address, 0),
            3 => self.masters[call.party].request(true, address, 3),
            2 => self.devices[call.party - MASTERS].answer(data, Wish::AsItIs),
            4 => self.devices[call.party - MASTERS].answer(data, Wish::On),
            _ => self.devices[call.party - MASTERS].answer(data, Wish::Off),
        };
    }

    /// What each party sends, and so what the line carries.
    pub fn send(&mut self) -> [Option<u8>; PARTIES] {
        let by_masters = self.masters.iter_mut().map(Master::send);
        let by_devices = self.devices.iter_mut().map(Device::send);
        let mut sent = [None; PARTIES];
        for (by_party, character) in sent.iter_mut().zip(by_masters.chain(by_devices)) {
            *by_party = character;
        }
        let mut characters = sent.iter().flatten();
        self.heard = match (characters.next(), characters.next()) {
            (None, _) => Heard::Silence,
            (Some(&character), None) => Heard::Character(character),
            (Some(_), Some(_)) => Heard::Damaged(0, Damage::Framing),
        };
        sent
    }

    /// The frames that end in this tick, alone in each of theirs, are listed.
    fn list(&mut self, tick: u32, sent: &[Option<u8>; PARTIES], listing: &mut Vec<u8>) {
        let is_lone = matches!(self.heard, Heard::Character(_));
        for (party, _) in sent.iter().enumerate().filter(|(_, by)| by.is_some()) {
            if is_lone {
                self.sent_alone(tick, party, listing);
            } else {
                self.alone[party] = false;
            }
        }
    }

    /// What a party sends, or sent last.
    pub fn out(&self, party: usize) -> &Outgoing {
        match party.checked_sub(MASTERS) {
            None => self.masters[party].out(),
            Some(device) => self.devices[device].out(),
        }
    }

    fn sent_alone(&mut self, tick: u32, party: usize, listing: &mut Vec<u8>) {
        if self.out(party).at_first() {
            self.alone[party] = true;
        }
        let out = self.out(party);
        if out.at_last() && self.alone[party] {
            list(tick, party, out, listing);
        }
    }
}

fn list(tick: u32, party: usize, out: &Outgoing, listing: &mut Vec<u8>) {
    let mut fields = Fields::default();
    frame_oracle::read(out.frame(), &mut fields);
    let [_, frame_type, _, primary, .., length] = fields;
    let name = match frame_type as u8 {
        STX => "STX",
        BACK => "BACK",
        _ => "ACK",
    };
    let master = 1 - primary;
    writeln!(listing, "{tick} {party} {name} {master} {length}").expect("a vector takes all");
}

/// The player's output.
#[inline(never)]
pub fn play(script: &[u8]) -> Vec<u8> {
    play_sized(4, script)
}

/// The same for records of so many bytes, 4 or 6.
pub fn play_sized(record: usize, script: &[u8]) -> Vec<u8> {
    let Some((calls, stop)) = read_script(record, script) else {
        return BAD_SCRIPT.to_vec();
    };
    let mut listing = HEADER.to_vec();
    let mut link = Link::start();
    let mut calls = calls.iter().peekable();
    for tick in 0..stop {
        link.take();
        while let Some(call) = calls.next_if(|call| call.tick == tick) {
            link.call(call);
        }
        let sent = link.send();
        link.list(tick, &sent, &mut listing);
    }
    listing
}
