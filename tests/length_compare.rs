//! The data length for a wait and the longest wait for a data length (document 02, item 12), of
//! libnengapiko.a against the formula of demand 3 in plain Rust, at random and at its limits; and the
//! table in docs/WHY.md, row by row.

#[allow(dead_code)]
mod frames;
mod length_archive;
#[path = "oracles.rs"]
#[allow(dead_code)]
mod oracles;

use frames::Xorshift;
use length_archive::{data_length, longest_wait, Profile};
use std::process::ExitCode;

const CALLS: usize = 200_000;

const FSK: Profile = [28, 2, 8, 33, 41];
const C8PSK: Profile = [32, 3, 14, 42, 56];

const PROFILE: u32 = 1;
const RETRIES: u32 = 2;
const DATA_LENGTH: u32 = 9;
const WAIT_SHORT: u32 = 26;

/// What stands in the lent byte and number before a call.
const BEFORE_LENGTH: u8 = 0xA5;
const BEFORE_WAIT: u32 = 0x0FF0_F00F;

/// "2×RT2 + HOLD + (R+1)×(F + RT1 secondary) + STO + F ticks .. and within 4×F + RT1 secondary + 2×RT2
/// more if a device bursts meanwhile", F being 29 more than the data length.
fn formula([sto, hold, rt2, _, rt1s]: Profile, retries: u8, length: u64, bursting: bool) -> u64 {
    let [sto, hold, rt2, rt1s] = [sto, hold, rt2, rt1s].map(u64::from);
    let frame = 29 + length;
    let plain = 2 * rt2 + hold + (u64::from(retries) + 1) * (frame + rt1s) + sto + frame;
    plain
        + match bursting {
            true => 4 * frame + rt1s + 2 * rt2,
            false => 0,
        }
}

/// Document 01's refusals of a profile and of R.
fn refused([sto, hold, rt2, rt1p, rt1s]: Profile, retries: u8) -> Option<u32> {
    let numbers = [sto, hold, rt2, rt1p, rt1s];
    let allowed = numbers.iter().all(|number| (1..=1000).contains(number))
        && hold < rt2
        && rt2 < rt1p
        && sto < rt1p
        && rt1s == rt1p + rt2;
    match (allowed, retries) {
        (false, _) => Some(PROFILE),
        (true, 3..=15) => None,
        (true, _) => Some(RETRIES),
    }
}

/// What data_length returns, and what the lent byte then holds.
fn wanted_length(profile: Profile, retries: u8, wait: u32) -> (u32, u8) {
    if let Some(number) = refused(profile, retries) {
        return (number, BEFORE_LENGTH);
    }
    let within = |length: &u8| formula(profile, retries, (*length).into(), false) <= wait.into();
    match (2..=255).rev().find(within) {
        Some(length) => (0, length),
        None => (WAIT_SHORT, BEFORE_LENGTH),
    }
}

/// What longest_wait returns, and what the lent number then holds.
fn wanted_wait(profile: Profile, retries: u8, length: usize, bursting: bool) -> (u32, u32) {
    match (refused(profile, retries), length) {
        (Some(number), _) => (number, BEFORE_WAIT),
        (None, 2..=255) => {
            let ticks = formula(profile, retries, length as u64, bursting);
            (0, ticks as u32)
        }
        (None, _) => (DATA_LENGTH, BEFORE_WAIT),
    }
}

/// FSK, C8PSK, the shortest, the longest or any that is allowed; now and then one that is not.
fn profile(random: &mut Xorshift) -> Profile {
    let rt2 = 2 + random.below(400) as u16;
    let rt1p = rt2 + 1 + random.below(usize::from(1000 - 2 * rt2)) as u16;
    let hold = 1 + random.below(usize::from(rt2 - 1)) as u16;
    let sto = 1 + random.below(usize::from(rt1p - 1)) as u16;
    let any = [sto, hold, rt2, rt1p, rt1p + rt2];
    let mut profile = random.pick(&[FSK, C8PSK, [1, 1, 2, 3, 5], [500, 498, 499, 501, 1000], any]);
    if random.below(8) == 0 {
        let at = random.below(profile.len());
        profile[at] = random.pick(&[0, 1, 1000, 1001, u16::MAX]);
    }
    profile
}

/// A wait at a length's formula or beside it, or any.
fn wait(random: &mut Xorshift, profile: Profile, retries: u8) -> u32 {
    let length = random.pick(&[0, 1, 2, 3, 100, 254, 255, 256]) + random.below(2) as u64;
    let at = formula(profile, retries, length, false) as u32;
    match random.below(5) {
        0 => at,
        1 => at - 1,
        2 => at + 1,
        3 => random.next() as u32,
        _ => random.pick(&[0, 1, 65_535, 65_536, u32::MAX]),
    }
}

/// Whether no call differs, and each number is returned.
fn random_calls_agree() -> bool {
    let mut random = Xorshift(0x2545_F491_4F6C_DD1D);
    let (mut lengths, mut waits) = ([0u64; 27], [0u64; 27]);
    let mut differences = 0;
    for _ in 0..CALLS {
        let profile = profile(&mut random);
        let retries = random.pick(&[3, 3, 4, 7, 14, 15, 15, 2, 16, 0, 255]);
        let wait = wait(&mut random, profile, retries);
        let wanted = wanted_length(profile, retries, wait);
        let given = data_length(profile, retries, wait, BEFORE_LENGTH);
        lengths[wanted.0 as usize] += 1;
        differences += u64::from(wanted != given);

        let length = match random.below(3) {
            0 => random.pick(&[0, 1, 2, 255, 256, usize::MAX]),
            _ => random.below(258),
        };
        let bursting = random.flag();
        let wanted = wanted_wait(profile, retries, length, bursting);
        let given = longest_wait(profile, retries, length, bursting, BEFORE_WAIT);
        waits[wanted.0 as usize] += 1;
        differences += u64::from(wanted != given);
    }
    let [taken, profiles, retries, short] = [0, 1, 2, 26].map(|number| lengths[number]);
    let outside = waits[DATA_LENGTH as usize];
    println!(
        "length_compare: {CALLS} data lengths, {taken} given, {profiles}, {retries} and {short} \
         refused with 1, 2 and 26; as many waits, {outside} refused with 9; {differences} differences"
    );
    let all_occur = [taken, profiles, retries, short, outside]
        .iter()
        .all(|&times| times > 0);
    differences == 0 && all_occur
}

/// The table in docs/WHY.md: a wait in ticks, then for each of FSK and C8PSK the wait in seconds, the
/// data length or "none (26)", and the wait while a device bursts, or nothing.
fn table_agrees() -> bool {
    let paper = include_str!("../docs/WHY.md");
    let (_, section) = paper.split_once("| Wait, ticks |").expect("the table");
    let (table, _) = section.split_once("\n\n").expect("its end");
    let rows = table.lines().skip(2);
    let mut count = 0;
    let mut differences = 0;
    for row in rows {
        let cells: Vec<&str> = row.trim_matches('|').split('|').map(str::trim).collect();
        let ticks: u32 = cells[0].replace(',', "").parse().expect("ticks");
        for (profile, at) in [(FSK, 1), (C8PSK, 4)] {
            let milliseconds = match profile {
                FSK => f64::from(ticks) * 11.0 / 1.2,
                _ => f64::from(ticks),
            };
            let [seconds, length, bursting] =
                [0, 1, 2].map(|cell| cells[at + cell].replace(',', ""));
            let found = match data_length(profile, 3, ticks, BEFORE_LENGTH) {
                (0, length) => {
                    let (_, wait) = longest_wait(profile, 3, length.into(), true, BEFORE_WAIT);
                    [length.to_string(), wait.to_string()]
                }
                (number, _) => [format!("none ({number})"), "".to_string()],
            };
            let same =
                seconds == format!("{:.1}", milliseconds / 1000.0) && [length, bursting] == found;
            if !same {
                println!("length_compare: docs/WHY.md differs at {ticks} ticks: {found:?}");
            }
            differences += usize::from(!same);
            count += 1;
        }
    }
    println!("length_compare: {count} places of docs/WHY.md's table, {differences} differences");
    differences == 0 && count > 0
}

fn main() -> ExitCode {
    let agree = [random_calls_agree(), table_agrees()];
    match agree == [true, true] {
        true => ExitCode::SUCCESS,
        false => ExitCode::FAILURE,
    }
}
