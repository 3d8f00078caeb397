//! The scenarios of document 02's item 12, links with a data limit: what every party does in each tick,
//! as scenario_run.rs says, and the number of each tick of nengapiko_run, which has no injected
//! characters.

mod calls;
mod engine_archive;
#[path = "oracles.rs"]
mod oracles;
mod run_archive;
mod scenario_run;
mod scenarios;
#[allow(dead_code)]
mod tick_list;

use oracles::device_oracle::Wish;
use oracles::link_oracle::{MASTERS, PARTIES};
use run_archive::Setup;
use scenario_run::{profile_numbers, start_refused};
use scenarios::{Call, Scenario};
use std::process::ExitCode;
use tick_list::{put_call, request_kind, NO_CALL, SENDS, TAKEN};

const FOLDER: &str = "tests/data/item-12";
const KINDS: [&str; 3] = ["limit", "limits", "hand"];

fn put(call: &Call, bytes: &mut Vec<u8>) {
    match call {
        Call::Request {
            long_address,
            address,
            command,
            preambles,
            data,
        } => {
            let head = [request_kind(*long_address), *preambles as u8, *command];
            put_call(head, *address, data, bytes);
        }
        Call::Answer { data, wish } => {
            let kind = match wish {
                Wish::AsItIs => 1,
                Wish::On => 2,
                Wish::Off => 3,
            };
            put_call([kind, 0, 0], 0, data, bytes);
        }
        Call::Content { command, data } => put_call([4, 0, *command], 0, data, bytes),
    }
}

/// The scenario's calls as a list of ticks.
fn bytes_of(scenario: &Scenario) -> Vec<u8> {
    let mut bytes = Vec::new();
    for tick in 0..scenario.stop {
        for party in 0..PARTIES {
            match scenario.calls.get(&(tick, party)) {
                None => bytes.push(NO_CALL),
                Some(call) => put(call, &mut bytes),
            }
        }
    }
    bytes
}

fn setup_of(scenario: &Scenario) -> Setup {
    Setup {
        profile: profile_numbers(&scenario.profile),
        retries: scenario.retries as u8,
        limit: Some(scenario.limit),
        preambles: scenario.preambles.map(|preambles| preambles as u8),
        polling_addresses: std::array::from_fn(|at| at as u8),
        unique_addresses: std::array::from_fn(|at| (at + MASTERS) as u64),
        starts: [0, 0],
    }
}

/// The number of each tick, from the events that are expected.
fn numbers_of(scenario: &Scenario) -> Vec<u8> {
    let mut numbers = vec![0; scenario.stop as usize];
    for event in &scenario.expected {
        let words: Vec<&str> = event.split(' ').collect();
        let tick = || words[0].parse::<usize>().expect("a tick");
        let party = || words[2].parse::<usize>().expect("a party");
        match words[1] {
            "taken" if party() < MASTERS => numbers[tick()] += TAKEN[party()],
            "send" => {
                let own = SENDS.get(party()).copied().unwrap_or(0);
                let ticks = words[3].len() / 2;
                for number in &mut numbers[tick()..][..ticks] {
                    *number += 1 + own;
                }
            }
            _ => {}
        }
    }
    numbers
}

/// Whether nengapiko_run gives the numbers that are expected, or refuses the start as expected.
fn run_agrees(scenario: &Scenario) -> bool {
    let mut events = vec![0xA5; scenario.stop as usize];
    let before = events.clone();
    let agrees = match run_archive::run(&setup_of(scenario), &bytes_of(scenario), &mut events) {
        Ok(ticks) => ticks == events.len() && events == numbers_of(scenario),
        Err(number) => scenario.expected == [start_refused(number)] && events == before,
    };
    if !agrees {
        println!("{}: nengapiko_run differs", scenario.name);
    }
    agrees
}

/// How many of these events end so.
fn count(scenarios: &[Scenario], what: &str) -> usize {
    let of = |scenario: &Scenario| {
        let ends = |event: &&String| event.ends_with(what);
        scenario.expected.iter().filter(ends).count()
    };
    scenarios.iter().map(of).sum()
}

fn main() -> ExitCode {
    let scenarios = scenarios::stored(FOLDER, &KINDS);
    let agree = scenario_run::agree("limit_scenarios", &scenarios);
    let runs: Vec<&Scenario> = scenarios
        .iter()
        .filter(|scenario| scenario.injected.is_empty())
        .collect();
    let differences = runs.iter().filter(|run| !run_agrees(run)).count();
    let starts = count(&scenarios, "refused start 9");
    let requests = count(&scenarios, " refused 0 6") + count(&scenarios, " refused 1 6");
    let devices = (MASTERS..PARTIES).map(|party| count(&scenarios, &format!(" refused {party} 9")));
    let answers: usize = devices.sum();
    println!(
        "limit_scenarios: {} runs of nengapiko_run, {differences} differences; {starts} starts and \
         {answers} answers and contents refused with 9, {requests} requests with 6",
        runs.len()
    );
    let all_occur = [starts, requests, answers].iter().all(|&times| times > 0);
    match agree && differences == 0 && all_occur {
        true => ExitCode::SUCCESS,
        false => ExitCode::FAILURE,
    }
}
