//! Runs recordings whose events were worked out beforehand through libnengapiko.a, a tick a call, through
//! the oracles and, those for a reader, through nengapiko_ticks: the number of ticks and every event
//! must be as recorded.
//!
//! A line of a file is a recording in hexadecimal, two bytes for each tick, and a digit for each
//! tick, with '|' between them. Another field may stand in front, '-' is an empty field, and a line
//! that begins with '#' says what the file is.

mod called;
mod calls;
mod engine_archive;
mod line_archive;
#[path = "oracles.rs"]
mod oracles;
mod ticked;

use oracles::{device_oracle, master_oracle, tick_oracle};
use std::process::ExitCode;

type Run = fn(&[u8], &mut [u8]) -> usize;

struct Recorded {
    recording: Vec<u8>,
    events: Vec<u8>,
}

/// What stands in the events before a run, and behind those that it takes.
const PATTERN: u8 = 0xA5;
/// Room behind a recording's last tick that must stay as it was.
const SPARE: usize = 8;

fn digit(digit: u8) -> u8 {
    match (digit as char).to_digit(16) {
        Some(value) => value as u8,
        None => panic!("no digit: {:?}", digit as char),
    }
}

fn recorded(recording: &str, events: &str) -> Recorded {
    let digits = |field: &str| -> Vec<u8> {
        let field = if field == "-" { "" } else { field };
        field.bytes().map(digit).collect()
    };
    Recorded {
        recording: digits(recording)
            .chunks(2)
            .map(|pair| pair[0] << 4 | pair[1])
            .collect(),
        events: digits(events),
    }
}

/// The recordings of a file.
fn of_file(text: &str) -> Vec<Recorded> {
    let mut all = Vec::new();
    for line in text.lines().filter(|line| !line.starts_with('#')) {
        let fields: Vec<&str> = line.split('|').collect();
        match fields[..] {
            [.., recording, events] => all.push(recorded(recording, events)),
            _ => panic!("no recording with its events: {line}"),
        }
    }
    all
}

/// Whether a run gives the events of every recording.
fn agrees(name: &str, all: &[Recorded], run: Run) -> bool {
    let mut ticks = 0;
    let mut differences = 0;
    for (at, Recorded { recording, events }) in all.iter().enumerate() {
        let mut given = vec![PATTERN; events.len() + SPARE];
        let taken = run(recording, &mut given);
        let expected = [&events[..], &[PATTERN; SPARE]].concat();
        ticks += taken;
        if taken != events.len() || given != expected {
            differences += 1;
            let tick = (0..given.len()).find(|&tick| given[tick] != expected[tick]);
            println!(
                "recorded: {name}, recording {} differs at tick {tick:?}",
                at + 1
            );
        }
    }
    println!(
        "recorded: {name}, {} recordings, {ticks} ticks, {differences} differences",
        all.len()
    );
    !all.is_empty() && differences == 0
}

fn main() -> ExitCode {
    let reader = of_file(include_str!("data/item-01/reader.txt"));
    let master = of_file(include_str!("data/item-01/master.txt"));
    let device = of_file(include_str!("data/item-01/device.txt"));
    let burst = of_file(include_str!("data/item-01/bursting.txt"));
    let runs: [(&str, &[Recorded], Run); 9] = [
        ("reader, a recording a call", &reader, line_archive::ticks),
        ("reader, a call a tick", &reader, ticked::reader),
        ("reader, oracle", &reader, tick_oracle::ticks),
        ("master, a call a tick", &master, ticked::master),
        ("master, oracle", &master, master_oracle::ticks),
        ("device, a call a tick", &device, ticked::device),
        ("device, oracle", &device, device_oracle::ticks),
        ("bursting device, a call a tick", &burst, ticked::device),
        ("bursting device, oracle", &burst, device_oracle::ticks),
    ];
    let differ = |&&(name, all, run): &&(&str, &[Recorded], Run)| !agrees(name, all, run);
    match runs.iter().filter(differ).count() {
        0 => ExitCode::SUCCESS,
        _ => ExitCode::FAILURE,
    }
}
