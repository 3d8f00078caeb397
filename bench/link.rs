//! Ticks per second of the player, with two masters and six devices, over long scripts, and of a run
//! of the link one tick at a time, through the archive and by the oracles in plain Rust.

#[path = "../tests/late_oracle.rs"]
mod late_oracle;
#[path = "../tests/link_archive.rs"]
mod link_archive;
#[path = "../tests/oracles.rs"]
mod oracles;
#[allow(dead_code)]
mod recordings;
mod rounds;
#[path = "../tests/run_archive.rs"]
mod run_archive;
#[path = "../tests/scripts.rs"]
#[allow(dead_code)]
mod scripts;
#[path = "../tests/tick_list.rs"]
#[allow(dead_code)]
mod tick_list;

use oracles::link_oracle;
use recordings::{head, row};
use rounds::by_turns;
use run_archive::Setup;
use scripts::{record, room, stop, ANSWER, ASK, BURST_ON};
use std::hint::black_box;
use tick_list::{bytes_of, silent_tick, Call, Tick};

const TICKS: u16 = 60_000;
const CALLS: usize = 1;

/// The first window, the characters of an STX and of an ACK or BACK with 2 bytes, all by unique
/// address.
const FIRST_WINDOW: u16 = 33;
const STX: u16 = 14;
const ANSWER_LENGTH: u16 = 16;

/// So many ticks in the script of the silent line, of the new form.
const SILENT_TICKS: u32 = 1 << 24;

fn silent() -> Vec<u8> {
    stop(TICKS).to_vec()
}

fn long_silent() -> Vec<u8> {
    let mut script = SILENT_TICKS.to_be_bytes().to_vec();
    script.extend([0, 0]);
    script
}

/// Messages directly behind each other, of the masters by turns, each answered two ticks behind its
/// STX; if a device bursts, it is device 2, from the first answer on.
fn busy(bursts: bool) -> Vec<u8> {
    let mut script = Vec::new();
    let mut begins = FIRST_WINDOW;
    let mut messages = 0;
    while begins < TICKS - 100 {
        let master = messages % 2;
        let first = messages == 0;
        let device = if first { 2 } else { 3 + messages % 5 };
        let answers = begins + STX + 1;
        let action = if bursts && first { BURST_ON } else { ANSWER };
        script.extend(record(begins - 2, master as u8, ASK, device as u8));
        script.extend(record(answers, device as u8, action, 2));
        begins = answers + ANSWER_LENGTH + 1;
        if bursts {
            // a BACK, directly behind the own ACK, else after a silent tick
            begins += ANSWER_LENGTH + if first { 0 } else { 1 };
        }
        messages += 1;
    }
    script.extend(stop(TICKS));
    let answered = lines(&link_oracle::play(&script), " ACK ");
    assert!(answered == messages, "{answered} of {messages} answered");
    script
}

fn lines(listing: &[u8], with: &str) -> usize {
    let listing = String::from_utf8_lossy(listing);
    listing.lines().filter(|line| line.contains(with)).count()
}

/// Sees that both give the same listing, measures the two by turns and prints one row.
fn compare(name: &str, record: usize, script: &[u8], ticks: usize) {
    let mut out = vec![0; room(TICKS)];
    let length = link_archive::play_sized(record, script, &mut out);
    assert!(
        out[..length] == link_oracle::play_sized(record, script),
        "{name}: they differ"
    );
    let measured = by_turns(
        CALLS,
        || {
            black_box(link_archive::play_sized(
                record,
                black_box(script),
                black_box(&mut out),
            ));
        },
        || {
            black_box(link_oracle::play_sized(record, black_box(script)));
        },
    );
    row(name, ticks, &measured);
}

/// The ticks of a script whose calls are requests by unique address and answers.
fn ticks_of(script: &[u8]) -> Vec<Tick> {
    let mut ticks: Vec<Tick> = (0..TICKS).map(|_| silent_tick()).collect();
    for call in script.chunks_exact(4) {
        let tick = usize::from(u16::from_be_bytes([call[0], call[1]]));
        let (party, action) = (usize::from(call[2] >> 4), call[2] & 0x0F);
        let call = match action {
            ASK => Call::Ask {
                preamble: 5,
                long_address: true,
                address: u64::from(call[3]),
                command: 3,
                data: Vec::new(),
            },
            ANSWER => Call::Answer {
                data: vec![0; usize::from(call[3])],
            },
            _ => continue,
        };
        ticks[tick][party] = Some(call);
    }
    ticks
}

/// The same for a run that takes one tick at a time, and gives a number for each.
fn compare_run(name: &str, script: &[u8]) {
    let setup = Setup {
        profile: [28, 2, 8, 33, 41],
        retries: 3,
        limit: None,
        preambles: [5; 6],
        polling_addresses: [0, 1, 2, 3, 4, 5],
        unique_addresses: [2, 3, 4, 5, 6, 7],
        starts: [0, 0],
    };
    let addresses: Vec<(u64, u64)> = (0..6).map(|at| (at, at + 2)).collect();
    let ticks = ticks_of(script);
    let bytes = bytes_of(&ticks);
    let mut events = vec![0; ticks.len()];
    assert!(run_archive::run(&setup, &bytes, &mut events) == Ok(ticks.len()));
    assert!(
        events == late_oracle::numbers([0, 0], &addresses, &ticks, |_, _, _| {}),
        "{name}: they differ"
    );
    let measured = by_turns(
        CALLS,
        || {
            let _ = black_box(run_archive::run(
                &setup,
                black_box(&bytes),
                black_box(&mut events),
            ));
        },
        || {
            black_box(late_oracle::numbers(
                [0, 0],
                &addresses,
                black_box(&ticks),
                |_, _, _| {},
            ));
        },
    );
    row(name, usize::from(TICKS), &measured);
}

fn main() {
    head();
    let ticks = usize::from(TICKS);
    compare("both busy", 4, &busy(false), ticks);
    compare("busy, one bursts", 4, &busy(true), ticks);
    compare("silent", 4, &silent(), ticks);
    compare(
        "silent, 2^24 ticks",
        6,
        &long_silent(),
        SILENT_TICKS as usize,
    );
    compare_run("one tick, busy", &busy(false));
    compare_run("one tick, silent", &silent());
}
