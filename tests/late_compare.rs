//! Runs of the link in which each master starts at a tick of its own: the archive over the scenarios
//! of tests/data/item-14, and beside the link in plain Rust over random ones. Compared are how many
//! ticks were run, and the whole lent buffer of their numbers; of masters and devices that are called
//! once a tick each tick's number, in the random runs the characters sent, and in the scenarios what the
//! hosts are told, the frames, and where the masters are first in touch. The runs are the same each time.

mod calls;
mod engine_archive;
#[allow(dead_code)]
mod frames;
mod late_engine;
mod late_oracle;
mod late_scenarios;
#[path = "oracles.rs"]
mod oracles;
mod run_archive;
mod tick_list;

use frames::Xorshift;
use late_scenarios::{Message, Scenario};
use run_archive::Setup;
use std::process::ExitCode;
use tick_list::{bytes_of, silent_tick, Call, Tick, SENDERS, SENDS, TAKEN};

const FILL: u8 = 0xA5;

/// Room behind the last tick, in which nothing may be written.
const SPARE: usize = 3;

const RUNS: usize = 2_000;
const TICKS: usize = 600;

/// The numbers that the archive gives, unless it writes behind them or gives another count.
fn archive_numbers(setup: &Setup, ticks: &[Tick]) -> Option<Vec<u8>> {
    let mut events = vec![FILL; ticks.len() + SPARE];
    let count = run_archive::run(setup, &bytes_of(ticks), &mut events);
    let spare = events.split_off(ticks.len());
    (count == Ok(ticks.len()) && spare == [FILL; SPARE]).then_some(events)
}

fn both_send(number: u8) -> bool {
    SENDS.iter().all(|bit| number & bit != 0)
}

/// The ticks in which both masters begin: both send, and neither did in the tick before.
fn together(numbers: &[u8]) -> Vec<usize> {
    let sent_before = |tick: usize| tick > 0 && numbers[tick - 1] & (SENDS[0] | SENDS[1]) != 0;
    let begin = |&tick: &usize| both_send(numbers[tick]) && !sent_before(tick);
    (0..numbers.len()).filter(begin).collect()
}

/// The first tick from this one on in which not both send.
fn overlap_ended(numbers: &[u8], tick: usize) -> usize {
    let behind = numbers[tick..].iter().position(|&n| !both_send(n));
    behind.map_or(numbers.len(), |ticks| tick + ticks)
}

/// The messages whose first character goes out in the run.
fn messages(numbers: &[u8]) -> Vec<Message> {
    let mut messages = Vec::new();
    for accepted in 0..numbers.len() {
        for master in [0, 1] {
            let sends = |number: &u8| number & SENDS[master] != 0;
            if numbers[accepted] & TAKEN[master] != 0 {
                if let Some(ticks) = numbers[accepted..].iter().position(sends) {
                    let begins = accepted + ticks;
                    messages.push(Message {
                        accepted,
                        master,
                        begins,
                    });
                }
            }
        }
    }
    messages
}

/// What is wrong with a run of item 14: two ticks in which both begin, or two senders outside of the
/// overlap that follows the one.
fn breaks_item_14(numbers: &[u8]) -> bool {
    let together = together(numbers);
    let overlap = match together[..] {
        [] => 0..0,
        [tick] => tick..overlap_ended(numbers, tick),
        _ => return true,
    };
    let two_send = |tick: &usize| numbers[*tick] & SENDERS > 1;
    (0..numbers.len())
        .filter(two_send)
        .any(|tick| !overlap.contains(&tick))
}

/// Whether the archive's run is as expected.
fn as_expected(scenario: &Scenario) -> bool {
    let Some(numbers) = archive_numbers(&scenario.setup, &scenario.ticks) else {
        return false;
    };
    let together = together(&numbers);
    let ended = together.iter().map(|&tick| overlap_ended(&numbers, tick));
    let mut expected_messages = scenario.messages.clone();
    expected_messages.sort();
    let in_time = |message: &Message| message.begins - message.accepted <= scenario.bound;
    numbers == scenario.events
        && together == Vec::from_iter(scenario.together)
        && Vec::from_iter(ended) == Vec::from_iter(scenario.overlap_ended)
        && messages(&numbers) == expected_messages
        && scenario.claimed.iter().all(in_time)
        && !breaks_item_14(&numbers)
        && engine_as_expected(scenario)
}

/// The same of masters and devices that are called once a tick, with what the hosts are told, the
/// frames and where the masters are in touch, where the scenario says it.
fn engine_as_expected(scenario: &Scenario) -> bool {
    let run = late_engine::run(&scenario.setup, &scenario.ticks);
    run.numbers == scenario.events
        && (scenario.told.is_empty() || run.told == scenario.told)
        && (scenario.frames.is_empty() || run.frames() == scenario.frames)
        && (scenario.in_touch.is_none() || run.in_touch() == scenario.in_touch)
}

fn scenarios_agree() -> bool {
    let mut differences = 0;
    let (mut count, mut overlaps, mut claimed, mut told) = (0, 0, 0, 0);
    let (mut frames, mut in_touch) = (0, 0);
    for (file, scenarios) in late_scenarios::all() {
        for scenario in &scenarios {
            if !as_expected(scenario) {
                differences += 1;
                println!("late_compare: {file}, scenario {} differs", scenario.name);
            }
            count += 1;
            overlaps += usize::from(scenario.together.is_some());
            claimed += scenario.claimed.len();
            told += scenario.told.len();
            frames += scenario.frames.len();
            in_touch += usize::from(scenario.in_touch.is_some());
        }
    }
    println!(
        "late_compare: {count} scenarios, {overlaps} with an overlap, {claimed} messages with a \
         wait claimed, {told} times a host told or refused, {frames} frames, {in_touch} with masters \
         in touch, {differences} differences"
    );
    let all_occur = [overlaps, claimed, told, frames, in_touch]
        .iter()
        .all(|&times| times > 0);
    differences == 0 && all_occur && overlaps < count
}

/// Both masters ask, and the hosts answer, at random ticks. Often both are asked in one tick, soon
/// after the later start.
fn random_ticks(random: &mut Xorshift, starts: [usize; 2]) -> Vec<Tick> {
    let mut ticks = vec![silent_tick(); TICKS];
    let ticks_to_request = random.pick(&[20, 60, 200]);
    let ticks_to_answer = random.pick(&[2, 6]);
    let both = starts[0].max(starts[1]) + random.below(60);
    for (at, tick) in ticks.iter_mut().enumerate() {
        for call in &mut tick[..2] {
            if at == both || random.below(ticks_to_request) == 0 {
                *call = Some(random_request(random));
            }
        }
        for call in &mut tick[2..4] {
            if random.below(ticks_to_answer) == 0 {
                let data = vec![0; 2 + random.below(6)];
                *call = Some(Call::Answer { data });
            }
        }
    }
    ticks
}

/// Every other time so far apart that with FSK a window of the primary meets one of the secondary.
fn random_starts(random: &mut Xorshift) -> [usize; 2] {
    let first = random.below(60);
    match random.flag() {
        true => [first + random.pick(&[7, 8, 9, 24]), first],
        false => [first, random.below(120)],
    }
}

fn random_request(random: &mut Xorshift) -> Call {
    let long_address = random.below(4) > 0;
    Call::Ask {
        preamble: random.pick(&[5, 5, 6, 20]),
        long_address,
        address: random.pick(match long_address {
            true => &[2, 3, 3, 9],
            false => &[0, 1, 1, 9],
        }),
        command: if long_address { 3 } else { 0 },
        data: random.pick(&[&[][..], &[], &[1], &[7; 40]]).to_vec(),
    }
}

fn random_runs_agree() -> bool {
    let mut random = Xorshift(0x2545_F491_4F6C_DD1D);
    let mut differences = 0;
    let (mut overlaps, mut late, mut characters) = (0, 0, 0);
    for at in 0..RUNS {
        let starts = random_starts(&mut random);
        let ticks = random_ticks(&mut random, starts);
        let setup = Setup {
            profile: [28, 2, 8, 33, 41],
            retries: 3,
            limit: None,
            preambles: [5, 5, 0, 0, 0, 0],
            polling_addresses: [0, 1, 0, 0, 0, 0],
            unique_addresses: [2, 3, 0, 0, 0, 0],
            starts: starts.map(|tick| tick as u64),
        };
        let mut sent = Vec::new();
        let by_oracle = late_oracle::numbers(
            starts,
            &[(0, 2), (1, 3)],
            &ticks,
            |tick, party, character| {
                sent.push((tick, party, character));
            },
        );
        let by_archive = archive_numbers(&setup, &ticks);
        let by_engine = late_engine::run(&setup, &ticks);
        let same = by_archive.as_ref() == Some(&by_oracle)
            && by_engine.numbers == by_oracle
            && by_engine.characters == sent;
        characters += sent.len();
        if !same || breaks_item_14(&by_oracle) {
            differences += 1;
            println!("late_compare: run {at} differs");
        }
        overlaps += usize::from(!together(&by_oracle).is_empty());
        late += usize::from(starts[0] != starts[1]);
    }
    println!(
        "late_compare: {RUNS} random runs, {late} with two start ticks, {overlaps} with an \
         overlap, {characters} characters, {differences} differences"
    );
    differences == 0 && overlaps > 0 && overlaps < RUNS
}

fn main() -> ExitCode {
    let agree = [scenarios_agree(), random_runs_agree()];
    match agree.iter().all(|&agrees| agrees) {
        true => ExitCode::SUCCESS,
        false => ExitCode::FAILURE,
    }
}
