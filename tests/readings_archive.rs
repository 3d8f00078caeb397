//! The latest readings table of libnengapiko.a, and its form over flat numbers of libnengapiko_tests.a,
//! called with slices.

#![allow(dead_code)]

use crate::readings_oracle::Row;

/// What a tick tells, by the places of `enum nengapiko_result`.
pub type Results = [u64; 17];
/// The buffer whose first bytes are a frame's data.
pub type Bytes = [u8; 255];

/// How many numbers a row has in the flat form: address, command, tick, byte count, place, and the bits of
/// the primary and of the secondary.
pub const NUMBERS: usize = 7;

#[link(name = "nengapiko", kind = "static")]
extern "C" {
    fn nengapiko_readings_clear(rows: *mut Row, count: usize);
    fn nengapiko_readings_status(stored: u8, bits: u8) -> u8;
    fn nengapiko_readings_find(rows: *const Row, count: usize, address: u64, command: u8) -> usize;
    fn nengapiko_readings_enter(
        rows: *mut Row,
        count: usize,
        area: *mut u8,
        size: usize,
        tick: u64,
        results: *const u64,
        bytes: *const u8,
    ) -> u32;
}

#[link(name = "nengapiko_tests", kind = "static")]
extern "C" {
    fn nengapiko_readings_flat(
        numbers: *mut u64,
        count: usize,
        area: *mut u8,
        size: usize,
        tick: u64,
        results: *const u64,
        bytes: *const u8,
    ) -> u32;
}

pub fn clear(rows: &mut [Row]) {
    // SAFETY: the pointer comes from a mutable borrow that outlives the call, with its own length.
    unsafe { nengapiko_readings_clear(rows.as_mut_ptr(), rows.len()) }
}

pub fn status(stored: u8, bits: u8) -> u8 {
    // SAFETY: two numbers, of which any is taken.
    unsafe { nengapiko_readings_status(stored, bits) }
}

pub fn find(rows: &[Row], address: u64, command: u8) -> usize {
    // SAFETY: the pointer comes from a borrow that outlives the call, with its own length.
    unsafe { nengapiko_readings_find(rows.as_ptr(), rows.len(), address, command) }
}

pub fn enter(
    rows: &mut [Row],
    area: &mut [u8],
    tick: u64,
    results: &Results,
    bytes: &Bytes,
) -> u32 {
    // SAFETY: each pointer comes from a borrow that outlives the call, with its own length or with as
    // many elements as the function takes; what is written is borrowed mutably, so nothing overlaps it.
    unsafe {
        nengapiko_readings_enter(
            rows.as_mut_ptr(),
            rows.len(),
            area.as_mut_ptr(),
            area.len(),
            tick,
            results.as_ptr(),
            bytes.as_ptr(),
        )
    }
}

pub fn enter_flat(
    numbers: &mut [u64],
    area: &mut [u8],
    tick: u64,
    results: &Results,
    bytes: &Bytes,
) -> u32 {
    // SAFETY: as for enter.
    unsafe {
        nengapiko_readings_flat(
            numbers.as_mut_ptr(),
            numbers.len(),
            area.as_mut_ptr(),
            area.len(),
            tick,
            results.as_ptr(),
            bytes.as_ptr(),
        )
    }
}
