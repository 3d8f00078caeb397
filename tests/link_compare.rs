//! Compares the archive's player with the oracle: the output's length, and the whole lent buffer.
//! The scripts are the same in every run.

#[allow(dead_code)]
mod frames;
mod link_archive;
#[path = "oracles.rs"]
mod oracles;
mod scripts;

use frames::Xorshift;
use oracles::link_oracle::{self, BAD_SCRIPT};
use scripts::{record, room, stop, ANSWER, ASK, BURST_OFF, BURST_ON, POLL};
use std::process::ExitCode;

const SCRIPTS: usize = 3_000;

const FILL: u8 = 0xA5;

/// A good script: both masters ask, and the hosts answer at random ticks, so that most answers are
/// refused and the others come early or late. None, one or all devices may burst.
fn good_script(random: &mut Xorshift) -> Vec<[u8; 4]> {
    let ticks = random.pick(&[200, 1_000, 3_000]);
    let ticks_to_request = random.pick(&[4, 50, 400]);
    let ticks_to_answer = random.pick(&[2, 8, 25]);
    let may_burst = 2 + random.pick(&[0, 1, 6]);
    let mut records = Vec::new();
    for tick in 0..ticks {
        for party in 0..2 {
            if random.below(ticks_to_request) == 0 {
                let (action, address) = request(random);
                records.push(record(tick, party, action, address));
            }
        }
        for party in 2..8 {
            if random.below(ticks_to_answer) == 0 {
                let (action, count) = answer(random, party < may_burst);
                records.push(record(tick, party, action, count));
            }
        }
    }
    records.push(stop(ticks));
    records
}

/// To a device, to everyone, or to an address that nobody has.
fn request(random: &mut Xorshift) -> (u8, u8) {
    match random.below(8) {
        0 => (ASK, random.pick(&[0, 0, 8, 255])),
        1 => (POLL, random.pick(&[6, 63, 64, 255])),
        2 | 3 => (POLL, random.below(6) as u8),
        _ => (ASK, 2 + random.below(6) as u8),
    }
}

fn answer(random: &mut Xorshift, may_burst: bool) -> (u8, u8) {
    let action = match random.below(6) {
        0 | 1 if may_burst => BURST_ON,
        2 if may_burst => BURST_OFF,
        _ => ANSWER,
    };
    let count = match random.below(8) {
        0 => random.pick(&[0, 1, 254, 255]),
        _ => 2 + random.below(20) as u8,
    };
    (action, count)
}

/// Changes one record, or the number of records or bytes; most of these scripts are bad.
fn changed(random: &mut Xorshift, mut records: Vec<[u8; 4]>) -> Vec<u8> {
    let at = random.below(records.len());
    match random.below(6) {
        0 => {
            records.pop();
        }
        1 => records.insert(at, records[at]),
        2 => records.insert(at, stop(0)),
        3 => records[at][2] = random.byte(),
        4 => records.swap(0, at),
        _ => {
            let mut bytes = records.concat();
            bytes.truncate(bytes.len() - 1 - random.below(3));
            return bytes;
        }
    }
    records.concat()
}

fn script(random: &mut Xorshift) -> Vec<u8> {
    let records = good_script(random);
    match random.below(8) {
        0 => changed(random, records),
        _ => records.concat(),
    }
}

/// The tick of the last record, which is the stop of a good script.
fn last_tick(script: &[u8]) -> u16 {
    match script.last_chunk::<4>() {
        Some(&[high, low, ..]) => u16::from_be_bytes([high, low]),
        None => 0,
    }
}

/// How many lines have each type, and whether BACKs of two devices are among them.
#[derive(Default)]
struct Lines {
    stx: usize,
    ack: usize,
    back: usize,
    several_burst: bool,
}

impl Lines {
    fn count(listing: &[u8]) -> Lines {
        let mut lines = Lines::default();
        let mut bursting = None;
        for line in String::from_utf8_lossy(listing).lines().skip(1) {
            let fields: Vec<&str> = line.split(' ').collect();
            match fields[2] {
                "STX" => lines.stx += 1,
                "ACK" => lines.ack += 1,
                _ => {
                    lines.back += 1;
                    let party = fields[1].to_string();
                    lines.several_burst |= *bursting.get_or_insert(party.clone()) != party;
                }
            }
        }
        lines
    }
}

fn main() -> ExitCode {
    let mut random = Xorshift(0x2545_F491_4F6C_DD1D);
    let mut bad = 0;
    let mut several_burst = 0;
    let mut all = Lines::default();
    let mut differences = 0;
    for at in 0..SCRIPTS {
        let script = script(&mut random);
        let by_oracle = link_oracle::play(&script);
        let mut out = vec![FILL; room(last_tick(&script))];
        let length = link_archive::play(&script, &mut out);
        let untouched = out.iter().skip(length).all(|&byte| byte == FILL);
        if out.get(..length) != Some(&by_oracle[..]) || !untouched {
            differences += 1;
            println!("link_compare: script {at} differs");
        }
        if by_oracle == BAD_SCRIPT {
            bad += 1;
        }
        let lines = Lines::count(&by_oracle);
        all.stx += lines.stx;
        all.ack += lines.ack;
        all.back += lines.back;
        several_burst += usize::from(lines.several_burst);
    }
    println!(
        "link_compare: {SCRIPTS} scripts, {bad} bad, {several_burst} with several that burst, \
         {} STX, {} ACK, {} BACK, {differences} differences",
        all.stx, all.ack, all.back
    );
    let all_occur = [bad, several_burst, all.stx, all.ack, all.back]
        .iter()
        .all(|&count| count > 0);
    match differences == 0 && all_occur {
        true => ExitCode::SUCCESS,
        false => ExitCode::FAILURE,
    }
}
