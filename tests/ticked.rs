//! The tick reader, a primary of the FSK profile with 3 retries and a device of that profile with 5
//! preamble characters, polling address 0 and unique address 2, of libnengapiko.a, one call a tick, over
//! recordings, with a number for each tick.
//!
//! A recording has two bytes for each tick: 32 times an enum nengapiko_heard and the host's call, 0 to
//! 31, in the first, the character in the second. A master's calls are 1 command 3 of unique address 2,
//! and 2 command 11 by broadcast with a tag of six zero bytes; a device's are those of enum
//! nengapiko_device_call, with two zero bytes, a burst content being of command 3; any other is none. A
//! reader's number is its enum nengapiko_event; a party's is 4 where it sends, else what it tells.

#![allow(dead_code)]

use crate::calls::{Given, Request};
use crate::engine_archive::{device_2, primary, Device, Master, Reader, Results};

/// 4 for a character that is sent, else what is told.
#[inline(always)]
fn number(results: &Results) -> u8 {
    match results.sent() {
        None => results.told(),
        Some(_) => 4,
    }
}

#[inline(always)]
fn master_tick(master: &mut Master, tick: &[u8]) -> u8 {
    let request = |address, command, data| Request {
        preamble: 5,
        revision: 7,
        long_address: true,
        address,
        command,
        data,
    };
    let request = match tick[0] % 32 {
        1 => Some(request(2, 3, &[][..])),
        2 => Some(request(0, 11, &[0; 6][..])),
        _ => None,
    };
    master.tick((tick[0] / 32, tick[1]), request);
    number(&master.results)
}

#[inline(always)]
fn device_tick(device: &mut Device, tick: &[u8]) -> u8 {
    let given = Given {
        call: tick[0] % 32,
        command: 3,
        data: &[0, 0],
    };
    device.tick((tick[0] / 32, tick[1]), given);
    number(&device.results)
}

fn over(recording: &[u8], events: &mut [u8], mut number: impl FnMut(&[u8]) -> u8) -> usize {
    let ticks = recording.chunks_exact(2);
    let taken = ticks.len().min(events.len());
    for (tick, event) in ticks.zip(events) {
        *event = number(tick);
    }
    taken
}

pub fn reader(recording: &[u8], events: &mut [u8]) -> usize {
    let mut reader = Reader::start();
    over(recording, events, |tick| {
        reader.tick((tick[0] / 32, tick[1]));
        reader.results.event()
    })
}

pub fn master(recording: &[u8], events: &mut [u8]) -> usize {
    let mut master = primary();
    over(recording, events, |tick| master_tick(&mut master, tick))
}

pub fn device(recording: &[u8], events: &mut [u8]) -> usize {
    let mut device = device_2();
    over(recording, events, |tick| device_tick(&mut device, tick))
}
