//! The owner's wait of document 02's item 12 on runs of the archive: for a wait that is drawn at random
//! nengapiko_data_length gives a length, nengapiko_run runs a link with it, and no message waits longer,
//! while no device bursts. The hosts give as much data as they may, or one byte more, which is refused;
//! devices answer late or not at all. The runs are the same each time.

#[allow(dead_code)]
mod frames;
mod length_archive;
#[path = "oracles.rs"]
#[allow(dead_code)]
mod oracles;
mod run_archive;
mod tick_list;

use frames::Xorshift;
use length_archive::{data_length, longest_wait, Profile};
use run_archive::Setup;
use std::process::ExitCode;
use tick_list::{bytes_of, silent_tick, Call, Tick, SENDERS, SENDS, TAKEN};

const RUNS: usize = 300;
const TICKS: usize = 4_000;

const RETRIES: u8 = 3;
const PROFILES: [Profile; 3] = [[28, 2, 8, 33, 41], [32, 3, 14, 42, 56], [1, 1, 2, 3, 5]];

const DEVICES: usize = 6;
const ABSENT: u64 = 9;

/// As many as there can be, so that a frame with data up to the limit is as long as F.
const PREAMBLES: u8 = 20;

/// How often a host calls: a master's once in so many ticks, a device's too.
struct Rates {
    request: usize,
    answer: usize,
    absent: usize,
}

/// The calls of a run: requests and answers with data up to the limit or one byte more.
fn random_ticks(random: &mut Xorshift, limit: usize) -> Vec<Tick> {
    let rates = Rates {
        request: random.pick(&[1, 20, 300]),
        answer: random.pick(&[3, 30, 300]),
        absent: random.pick(&[1, 2, 8]),
    };
    let mut ticks = vec![silent_tick(); TICKS];
    for tick in &mut ticks {
        for call in &mut tick[..2] {
            if random.below(rates.request) == 0 {
                let device = 2 + random.below(DEVICES) as u64;
                *call = Some(Call::Ask {
                    preamble: PREAMBLES,
                    long_address: true,
                    address: if random.below(rates.absent) == 0 {
                        ABSENT
                    } else {
                        device
                    },
                    command: 3,
                    data: vec![0; random.pick(&[limit, limit, limit, limit + 1])],
                });
            }
        }
        for call in &mut tick[2..] {
            if random.below(rates.answer) == 0 {
                let data = vec![0; random.pick(&[limit, limit, limit, limit + 1])];
                *call = Some(Call::Answer { data });
            }
        }
    }
    ticks
}

/// The number of each tick, on a link with this limit.
fn run(profile: Profile, limit: usize, ticks: &[Tick]) -> Vec<u8> {
    let setup = Setup {
        profile,
        retries: RETRIES,
        limit: Some(limit),
        preambles: [PREAMBLES; DEVICES],
        polling_addresses: std::array::from_fn(|at| at as u8),
        unique_addresses: std::array::from_fn(|at| at as u64 + 2),
        starts: [0, 0],
    };
    let mut numbers = vec![0; ticks.len()];
    let count = run_archive::run(&setup, &bytes_of(ticks), &mut numbers);
    assert!(count == Ok(ticks.len()), "a start is refused");
    numbers
}

/// Of each message of a master, the tick of its acceptance, and of its first character if the run has it.
fn messages(numbers: &[u8], master: usize) -> Vec<(usize, Option<usize>)> {
    let sends = |number: &u8| number & SENDS[master] != 0;
    let taken = |&tick: &usize| numbers[tick] & TAKEN[master] != 0;
    let begins = |tick: usize| numbers[tick..].iter().position(sends);
    let ticks = (0..numbers.len()).filter(taken);
    ticks
        .map(|tick| (tick, begins(tick).map(|ticks| tick + ticks)))
        .collect()
}

/// What was seen of the waits.
#[derive(Default)]
struct Seen {
    messages: usize,
    longer: usize,
    two_send: usize,
    /// The longest wait, in thousandths of its bound.
    nearest: usize,
}

impl Seen {
    /// A message that is due in the run begins no later than the wait after its acceptance, or after
    /// tick RT1 secondary if that is later.
    fn message(&mut self, from: usize, wait: usize, begins: Option<usize>, last: usize) {
        if from + wait > last {
            return;
        }
        self.messages += 1;
        match begins.map(|tick| tick.saturating_sub(from)) {
            Some(ticks) if ticks <= wait => {
                self.nearest = self.nearest.max(1000 * ticks / wait);
            }
            _ => self.longer += 1,
        }
    }

    fn run(&mut self, numbers: &[u8], rt1_secondary: usize, wait: usize) {
        self.two_send += numbers.iter().filter(|&n| n & SENDERS > 1).count();
        for master in [0, 1] {
            for (accepted, begins) in messages(numbers, master) {
                let from = accepted.max(rt1_secondary);
                self.message(from, wait, begins, numbers.len() - 1);
            }
        }
    }
}

fn main() -> ExitCode {
    let mut random = Xorshift(0x2545_F491_4F6C_DD1D);
    let mut seen = Seen::default();
    let mut longer_with_more = 0;
    for _ in 0..RUNS {
        let profile = random.pick(&PROFILES);
        let (_, shortest) = longest_wait(profile, RETRIES, 2, false, 0);
        let wait = shortest + random.below(400) as u32;
        let (refused, length) = data_length(profile, RETRIES, wait, 0);
        assert!(refused == 0, "a length is given");
        let ticks = random_ticks(&mut random, length.into());
        let rt1_secondary = usize::from(profile[4]);
        let numbers = run(profile, length.into(), &ticks);
        seen.run(&numbers, rt1_secondary, wait as usize);

        // the same wait is not kept by a link whose messages have three times the data and more
        let more = (3 * usize::from(length) + 60).min(255);
        let ticks = random_ticks(&mut random, more);
        let mut without = Seen::default();
        without.run(&run(profile, more, &ticks), rt1_secondary, wait as usize);
        longer_with_more += without.longer;
    }
    let Seen {
        messages,
        longer,
        two_send,
        nearest,
    } = seen;
    println!(
        "limit_waits: {RUNS} runs, {messages} messages, {longer} that wait longer than was wanted, the \
         longest {nearest} thousandths of it; {two_send} ticks with two senders; with more data \
         {longer_with_more} wait longer"
    );
    match longer == 0 && two_send == 0 && messages > 0 && longer_with_more > 0 {
        true => ExitCode::SUCCESS,
        false => ExitCode::FAILURE,
    }
}
