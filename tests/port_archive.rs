//! The infrared port's master and device of libnengapiko.a, one call a tick, each with its memory.

#![allow(dead_code)]

use crate::calls::{Given, Request};
use crate::oracle_ticks::{Ticked, RESULTS};

#[link(name = "nengapiko", kind = "static")]
extern "C" {
    fn nengapiko_port_master_start(
        primary: bool,
        retries: u8,
        limit: usize,
        state: *mut u64,
        port: *mut u64,
    ) -> u32;
    fn nengapiko_port_master_tick(
        state: *mut u64,
        port: *mut u64,
        frame: *mut u8,
        bytes: *mut u8,
        heard: u8,
        character: u8,
        requests: bool,
        preamble: usize,
        revision: u8,
        long_address: bool,
        address: u64,
        command: u8,
        put: *const u8,
        count: usize,
        results: *mut u64,
    ) -> u32;
    fn nengapiko_port_device_start(
        preamble: usize,
        polling_address: u8,
        unique_address: u64,
        limit: usize,
        state: *mut u64,
        port: *mut u64,
    ) -> u32;
    fn nengapiko_port_device_tick(
        state: *mut u64,
        port: *mut u64,
        frame: *mut u8,
        bytes: *mut u8,
        heard: u8,
        character: u8,
        call: u8,
        put: *const u8,
        count: usize,
        results: *mut u64,
    ) -> u32;
}

/// What stands in the words before a start.
pub const BEFORE: u64 = u64::MAX;

#[derive(Clone, PartialEq)]
pub struct Master {
    pub state: [u64; 40],
    pub port: [u64; 2],
    pub frame: [u8; 284],
    pub data: [u8; 255],
}

impl Master {
    /// What a start returns, and the words behind it.
    pub fn start(primary: bool, retries: u8, limit: usize) -> (u32, Master) {
        let mut master = Master {
            state: [BEFORE; 40],
            port: [BEFORE; 2],
            frame: [0; 284],
            data: [0; 255],
        };
        // SAFETY: each array has as many words as the function takes.
        let returned = unsafe {
            nengapiko_port_master_start(
                primary,
                retries,
                limit,
                master.state.as_mut_ptr(),
                master.port.as_mut_ptr(),
            )
        };
        (returned, master)
    }

    pub fn tick(&mut self, (kind, character): (u8, u8), request: Option<Request>) -> Ticked {
        let requests = request.is_some();
        let request = request.unwrap_or(Request {
            preamble: 0,
            revision: 0,
            long_address: false,
            address: 0,
            command: 0,
            data: &[],
        });
        let mut results = [BEFORE; RESULTS];
        // SAFETY: each array has as many elements as the function takes, and no two overlap.
        let returned = unsafe {
            nengapiko_port_master_tick(
                self.state.as_mut_ptr(),
                self.port.as_mut_ptr(),
                self.frame.as_mut_ptr(),
                self.data.as_mut_ptr(),
                kind,
                character,
                requests,
                request.preamble,
                request.revision,
                request.long_address,
                request.address,
                request.command,
                request.data.as_ptr(),
                request.data.len(),
                results.as_mut_ptr(),
            )
        };
        Ticked { returned, results }
    }
}

#[derive(Clone, PartialEq)]
pub struct Device {
    pub state: [u64; 41],
    pub port: [u64; 6],
    pub frame: [u8; 284],
    pub data: [u8; 255],
}

impl Device {
    /// What a start returns, and the words behind it.
    pub fn start(preamble: usize, polling: u8, unique: u64, limit: usize) -> (u32, Device) {
        let mut device = Device {
            state: [BEFORE; 41],
            port: [BEFORE; 6],
            frame: [0; 284],
            data: [0; 255],
        };
        // SAFETY: each array has as many words as the function takes.
        let returned = unsafe {
            nengapiko_port_device_start(
                preamble,
                polling,
                unique,
                limit,
                device.state.as_mut_ptr(),
                device.port.as_mut_ptr(),
            )
        };
        (returned, device)
    }

    pub fn tick(&mut self, (kind, character): (u8, u8), given: Given) -> Ticked {
        let mut results = [BEFORE; RESULTS];
        // SAFETY: each array has as many elements as the function takes, and no two overlap.
        let returned = unsafe {
            nengapiko_port_device_tick(
                self.state.as_mut_ptr(),
                self.port.as_mut_ptr(),
                self.frame.as_mut_ptr(),
                self.data.as_mut_ptr(),
                kind,
                character,
                given.call,
                given.data.as_ptr(),
                given.data.len(),
                results.as_mut_ptr(),
            )
        };
        Ticked { returned, results }
    }
}
