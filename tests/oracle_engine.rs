//! The tick functions of include/nengapiko.h by the oracles in plain Rust, for a program in C that is
//! linked with them in the place of the archive: what it prints then is what it must print. A state's
//! first word is the address of the oracle, which is never freed.

mod calls;
mod oracle_ticks;
#[path = "oracles.rs"]
mod oracles;
mod readings_oracle;

use calls::{Given, Request};
use oracle_ticks::{heard_of, numbers, Device, Master, Ticked, RESULTS};
use oracles::party_oracle::Profile;
use oracles::tick_oracle::Reader;
use readings_oracle::{shown, Reading, Row, Table};
use std::slice;

const DATA: usize = 255;

/// Puts an oracle into the state's first word.
unsafe fn put<P>(party: P, state: *mut u64) -> u32 {
    *state = Box::into_raw(Box::new(party)) as u64;
    0
}

unsafe fn at<'a, P>(state: *mut u64) -> &'a mut P {
    &mut *(*state as *mut P)
}

/// What a tick tells, and the data that were heard so far.
unsafe fn tell(results: [u64; RESULTS], data: &[u8; DATA], to: *mut u64, bytes: *mut u8) {
    slice::from_raw_parts_mut(to, RESULTS).copy_from_slice(&results);
    slice::from_raw_parts_mut(bytes, DATA).copy_from_slice(data);
}

fn profile_of(sto: u16, hold: u16, rt2: u16, rt1_primary: u16, rt1_secondary: u16) -> Profile {
    Profile {
        sto: sto.into(),
        hold: hold.into(),
        rt2: rt2.into(),
        rt1_primary: rt1_primary.into(),
        rt1_secondary: rt1_secondary.into(),
    }
}

#[no_mangle]
pub unsafe extern "C" fn nengapiko_reader_start(state: *mut u64) {
    put(Reader::start(), state);
}

#[no_mangle]
pub unsafe extern "C" fn nengapiko_reader_tick(
    state: *mut u64,
    bytes: *mut u8,
    heard: u8,
    character: u8,
    results: *mut u64,
) {
    let reader = at::<Reader>(state);
    let event = reader.take(heard_of(heard, character));
    tell(numbers([0; 3], &event), reader.data(), results, bytes);
}

#[no_mangle]
pub unsafe extern "C" fn nengapiko_master_start(
    sto: u16,
    hold: u16,
    rt2: u16,
    rt1_primary: u16,
    rt1_secondary: u16,
    primary: bool,
    retries: u8,
    limit: usize,
    state: *mut u64,
) -> u32 {
    let profile = profile_of(sto, hold, rt2, rt1_primary, rt1_secondary);
    put(Master::start(profile, primary, retries, limit), state)
}

#[no_mangle]
pub unsafe extern "C" fn nengapiko_master_tick(
    state: *mut u64,
    _frame: *mut u8,
    bytes: *mut u8,
    heard: u8,
    character: u8,
    requests: bool,
    preamble: usize,
    revision: u8,
    long_address: bool,
    address: u64,
    command: u8,
    put: *const u8,
    count: usize,
    results: *mut u64,
) -> u32 {
    let master = at::<Master>(state);
    let request = requests.then(|| Request {
        preamble,
        revision,
        long_address,
        address,
        command,
        data: slice::from_raw_parts(put, count),
    });
    let ticked: Ticked = master.tick(heard_of(heard, character), request);
    tell(ticked.results, master.data(), results, bytes);
    ticked.returned
}

#[no_mangle]
pub unsafe extern "C" fn nengapiko_device_start(
    sto: u16,
    hold: u16,
    rt2: u16,
    rt1_primary: u16,
    rt1_secondary: u16,
    preamble: usize,
    polling_address: u8,
    unique_address: u64,
    limit: usize,
    state: *mut u64,
) -> u32 {
    let profile = profile_of(sto, hold, rt2, rt1_primary, rt1_secondary);
    let device = Device::start(profile, preamble, polling_address, unique_address, limit);
    put(device, state)
}

#[no_mangle]
pub unsafe extern "C" fn nengapiko_device_tick(
    state: *mut u64,
    _frame: *mut u8,
    bytes: *mut u8,
    _contents: *mut u8,
    heard: u8,
    character: u8,
    call: u8,
    command: u8,
    put: *const u8,
    count: usize,
    results: *mut u64,
) -> u32 {
    let device = at::<Device>(state);
    let given = Given {
        call,
        command,
        data: slice::from_raw_parts(put, count),
    };
    let ticked = device.tick(heard_of(heard, character), given);
    tell(ticked.results, device.data(), results, bytes);
    ticked.returned
}

#[no_mangle]
pub unsafe extern "C" fn nengapiko_readings_clear(rows: *mut Row, count: usize) {
    slice::from_raw_parts_mut(rows, count).fill(Row::default());
}

#[no_mangle]
pub unsafe extern "C" fn nengapiko_readings_enter(
    rows: *mut Row,
    count: usize,
    area: *mut u8,
    size: usize,
    tick: u64,
    results: *const u64,
    bytes: *const u8,
) -> u32 {
    let rows = slice::from_raw_parts_mut(rows, count);
    let area = slice::from_raw_parts_mut(area, size);
    let mut table = Table {
        rows: rows.to_vec(),
        area: area.to_vec(),
    };
    let (results, bytes) = (
        &*(results as *const [u64; RESULTS]),
        &*(bytes as *const [u8; DATA]),
    );
    let returned = table.enter(Reading::told(tick, results, bytes));
    rows.copy_from_slice(&table.rows);
    area.copy_from_slice(&table.area);
    returned
}

#[no_mangle]
pub extern "C" fn nengapiko_readings_status(stored: u8, bits: u8) -> u8 {
    shown(stored, bits)
}

#[no_mangle]
pub unsafe extern "C" fn nengapiko_readings_find(
    rows: *const Row,
    count: usize,
    address: u64,
    command: u8,
) -> usize {
    let rows = slice::from_raw_parts(rows, count).to_vec();
    let area = Vec::new();
    let found = Table { rows, area }.find(address, command);
    found.unwrap_or(count)
}
