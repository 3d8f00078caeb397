//! The starts of a master and of a device of libnengapiko.a, at the limits of their numbers and beside
//! them, against the refusals of document 01 and of document 02's item 12 in plain Rust. Compared are
//! what a start returns and the state behind it: that of the oracle's fresh party, or as it was.

mod calls;
mod engine_archive;
#[allow(dead_code)]
mod frames;
#[path = "oracles.rs"]
mod oracles;

use engine_archive::{start_device, start_master, BEFORE};
use frames::Xorshift;
use oracles::device_oracle::Device;
use oracles::master_oracle::Master;
use oracles::party_oracle::Profile;
use std::process::ExitCode;

const STARTS: usize = 200_000;

const PROFILE: u32 = 1;
const RETRIES: u32 = 2;
const PREAMBLE: u32 = 3;
const ADDRESS: u32 = 4;
const DATA_LENGTH: u32 = 9;

/// Document 02, item 12: data limits, most often ones that are taken.
const LIMITS: [usize; 10] = [255, 255, 2, 2, 3, 254, 1, 0, 256, usize::MAX];

/// STO, HOLD, RT2, RT1 primary, RT1 secondary.
type Numbers = [u16; 5];

/// "a value is 0 or above 1,000, HOLD not below RT2, RT2 or STO not below RT1 primary, or RT1 secondary
/// not RT1 primary + RT2".
fn is_profile([sto, hold, rt2, rt1_primary, rt1_secondary]: Numbers) -> bool {
    let numbers = [sto, hold, rt2, rt1_primary, rt1_secondary];
    numbers.iter().all(|number| (1..=1000).contains(number))
        && hold < rt2
        && rt2 < rt1_primary
        && sto < rt1_primary
        && rt1_secondary == rt1_primary + rt2
}

fn profile_of(numbers: Numbers) -> Profile {
    let [sto, hold, rt2, rt1_primary, rt1_secondary] = numbers.map(u32::from);
    Profile {
        sto,
        hold,
        rt2,
        rt1_primary,
        rt1_secondary,
    }
}

/// FSK, C8PSK, the largest, or each number at a limit; now and then with one number that is another.
fn numbers(random: &mut Xorshift) -> Numbers {
    let limits = [0, 1, 2, 3, 5, 8, 28, 33, 41, 999, 1000, 1001, 65535];
    let any: Numbers = std::array::from_fn(|_| random.pick(&limits));
    let mut numbers: Numbers = random.pick(&[
        [28, 2, 8, 33, 41],
        [32, 3, 14, 42, 56],
        [1, 1, 2, 3, 5],
        [500, 498, 499, 501, 1000],
        [998, 1, 2, 999, 1001],
        any,
    ]);
    if random.flag() {
        let at = random.below(numbers.len());
        numbers[at] = match random.below(3) {
            0 => random.pick(&limits),
            1 => numbers[at].wrapping_add(1),
            _ => numbers[at].wrapping_sub(1),
        };
    }
    numbers
}

/// How often each number was returned, and the differences.
#[derive(Default)]
struct Seen {
    returned: [u64; 10],
    differences: u64,
}

impl Seen {
    fn start(&mut self, wanted: u32, returned: u32, same_state: bool) {
        self.returned[wanted as usize] += 1;
        self.differences += u64::from(wanted != returned || !same_state);
    }

    fn report(&self, party: &str, numbers: &[u32]) -> bool {
        let Seen {
            returned,
            differences,
        } = self;
        println!("start_compare: {STARTS} starts of a {party}, by what is returned {returned:?}, {differences} differences");
        let occurs = |&number: &u32| returned[number as usize] > 0;
        *differences == 0 && numbers.iter().all(occurs)
    }
}

fn master(random: &mut Xorshift, seen: &mut Seen) {
    let numbers = numbers(random);
    let (primary, retries) = (random.flag(), random.pick(&[0, 2, 3, 15, 16, 255]));
    let limit = random.pick(&LIMITS);
    let wanted = match (is_profile(numbers), retries, limit) {
        (false, ..) => PROFILE,
        (true, 3..=15, 2..=255) => 0,
        (true, 3..=15, _) => DATA_LENGTH,
        (true, ..) => RETRIES,
    };
    let (returned, state) = start_master(numbers, primary, retries, limit);
    let fresh = || Master::start_with(profile_of(numbers), retries.into(), primary, limit).words();
    let words = if wanted == 0 { fresh() } else { [BEFORE; 40] };
    seen.start(wanted, returned, state == words);
}

fn device(random: &mut Xorshift, seen: &mut Seen) {
    let numbers = numbers(random);
    let preamble = random.pick(&[0, 4, 5, 6, 20, 21, usize::MAX]);
    let polling = random.pick(&[0, 1, 63, 64, 255]);
    let unique = random.pick(&[0, 1, 2, (1 << 38) - 1, 1 << 38, u64::MAX]);
    let addresses = polling <= 63 && (1..1 << 38).contains(&unique);
    let limit = random.pick(&LIMITS);
    let wanted = match (is_profile(numbers), preamble, limit) {
        (false, ..) => PROFILE,
        (true, 5..=20, 2..=255) if addresses => 0,
        (true, 5..=20, _) if addresses => DATA_LENGTH,
        (true, 5..=20, _) => ADDRESS,
        (true, ..) => PREAMBLE,
    };
    let (returned, state) = start_device(numbers, preamble, polling, unique, limit);
    let fresh = || {
        let profile = profile_of(numbers);
        Device::start_with(profile, preamble, polling.into(), unique, limit).words()
    };
    let words = if wanted == 0 {
        fresh()
    } else {
        [Some(BEFORE); 41]
    };
    let mut both = words.iter().zip(&state);
    let same = both.all(|(word, state)| word.is_none_or(|word| word == *state));
    seen.start(wanted, returned, same);
}

fn main() -> ExitCode {
    let mut random = Xorshift(0x2545_F491_4F6C_DD1D);
    let (mut masters, mut devices) = (Seen::default(), Seen::default());
    for _ in 0..STARTS {
        master(&mut random, &mut masters);
        device(&mut random, &mut devices);
    }
    let agree = [
        masters.report("master", &[0, PROFILE, RETRIES, DATA_LENGTH]),
        devices.report("device", &[0, PROFILE, PREAMBLE, ADDRESS, DATA_LENGTH]),
    ];
    match agree == [true, true] {
        true => ExitCode::SUCCESS,
        false => ExitCode::FAILURE,
    }
}
