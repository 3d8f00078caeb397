//! The tick reader, the master and the device of libnengapiko.a, one call a tick, each with its memory.

#![allow(dead_code)]

use crate::calls::{Given, Request};

#[link(name = "nengapiko", kind = "static")]
extern "C" {
    fn nengapiko_reader_start(state: *mut u64);
    fn nengapiko_reader_tick(
        state: *mut u64,
        bytes: *mut u8,
        heard: u8,
        character: u8,
        results: *mut u64,
    );
    fn nengapiko_master_start(
        sto: u16,
        hold: u16,
        rt2: u16,
        rt1_primary: u16,
        rt1_secondary: u16,
        primary: bool,
        retries: u8,
        limit: usize,
        state: *mut u64,
    ) -> u32;
    fn nengapiko_master_tick(
        state: *mut u64,
        frame: *mut u8,
        bytes: *mut u8,
        heard: u8,
        character: u8,
        requests: bool,
        preamble: usize,
        revision: u8,
        long_address: bool,
        address: u64,
        command: u8,
        put: *const u8,
        count: usize,
        results: *mut u64,
    ) -> u32;
    fn nengapiko_device_start(
        sto: u16,
        hold: u16,
        rt2: u16,
        rt1_primary: u16,
        rt1_secondary: u16,
        preamble: usize,
        polling_address: u8,
        unique_address: u64,
        limit: usize,
        state: *mut u64,
    ) -> u32;
    fn nengapiko_device_tick(
        state: *mut u64,
        frame: *mut u8,
        bytes: *mut u8,
        contents: *mut u8,
        heard: u8,
        character: u8,
        call: u8,
        command: u8,
        put: *const u8,
        count: usize,
        results: *mut u64,
    ) -> u32;
}

/// What a tick tells, by the places of `enum nengapiko_result`.
pub struct Results([u64; 17]);

impl Results {
    pub fn all(&self) -> [u64; 17] {
        self.0
    }

    pub fn sent(&self) -> Option<u8> {
        (self.0[0] != 0).then_some(self.0[0] as u8)
    }

    pub fn told(&self) -> u8 {
        self.0[1] as u8
    }

    pub fn attempts(&self) -> u64 {
        self.0[2]
    }

    pub fn event(&self) -> u8 {
        self.0[3] as u8
    }

    /// Whether the reader found a whole frame without damage.
    pub fn is_whole(&self) -> bool {
        self.event() == 3
    }

    pub fn long_address(&self) -> bool {
        self.0[5] == 1
    }

    pub fn primary(&self) -> bool {
        self.0[6] == 1
    }

    pub fn address(&self) -> u64 {
        self.0[8]
    }

    pub fn command(&self) -> u64 {
        self.0[10]
    }

    pub fn count(&self) -> u64 {
        self.0[11]
    }
}

/// STO, HOLD, RT2, RT1 primary, RT1 secondary.
pub type Profile = [u16; 5];

const FSK: Profile = [28, 2, 8, 33, 41];

/// The data limit of a link that is given none.
pub const NO_LIMIT: usize = 255;

/// The number of what was heard, and the character.
pub type Heard = (u8, u8);

/// A tick reader from its start on.
pub struct Reader {
    pub state: [u64; 16],
    pub data: [u8; 255],
    pub results: Results,
}

impl Reader {
    pub fn start() -> Reader {
        let mut reader = Reader {
            state: [BEFORE; 16],
            data: [0; 255],
            results: Results([0; 17]),
        };
        // SAFETY: the state has as many words as the function takes.
        unsafe { nengapiko_reader_start(reader.state.as_mut_ptr()) };
        reader
    }

    #[inline(always)]
    pub fn tick(&mut self, (kind, character): Heard) {
        // SAFETY: each array has as many elements as the function takes, and no two overlap.
        unsafe {
            nengapiko_reader_tick(
                self.state.as_mut_ptr(),
                self.data.as_mut_ptr(),
                kind,
                character,
                self.results.0.as_mut_ptr(),
            )
        }
    }
}

pub struct Master {
    pub state: [u64; 40],
    pub frame: [u8; 284],
    pub data: [u8; 255],
    pub results: Results,
}

/// What stands in a state before a start.
pub const BEFORE: u64 = u64::MAX;

/// What a start returns, and the state behind it.
pub fn start_master(
    profile: Profile,
    primary: bool,
    retries: u8,
    limit: usize,
) -> (u32, [u64; 40]) {
    let mut state = [BEFORE; 40];
    let [sto, hold, rt2, rt1p, rt1s] = profile;
    // SAFETY: the state has as many words as the function takes.
    let returned = unsafe {
        let state = state.as_mut_ptr();
        nengapiko_master_start(sto, hold, rt2, rt1p, rt1s, primary, retries, limit, state)
    };
    (returned, state)
}

impl Master {
    /// A master that is started, or the refusal's number.
    pub fn start(
        profile: Profile,
        primary: bool,
        retries: u8,
        limit: usize,
    ) -> Result<Master, u32> {
        match start_master(profile, primary, retries, limit) {
            (0, state) => Ok(Master {
                state,
                frame: [0; 284],
                data: [0; 255],
                results: Results([0; 17]),
            }),
            (refused, _) => Err(refused),
        }
    }

    /// A tick; the request's number.
    #[inline(always)]
    pub fn tick(&mut self, (kind, character): Heard, request: Option<Request>) -> u32 {
        let requests = request.is_some();
        let request = request.unwrap_or(Request {
            preamble: 0,
            revision: 0,
            long_address: false,
            address: 0,
            command: 0,
            data: &[],
        });
        // SAFETY: each array has as many elements as the function takes, and no two overlap.
        unsafe {
            nengapiko_master_tick(
                self.state.as_mut_ptr(),
                self.frame.as_mut_ptr(),
                self.data.as_mut_ptr(),
                kind,
                character,
                requests,
                request.preamble,
                request.revision,
                request.long_address,
                request.address,
                request.command,
                request.data.as_ptr(),
                request.data.len(),
                self.results.0.as_mut_ptr(),
            )
        }
    }
}

pub struct Device {
    pub state: [u64; 41],
    pub frame: [u8; 284],
    pub data: [u8; 255],
    pub content: [u8; 255],
    pub results: Results,
}

/// The same of a device.
pub fn start_device(
    profile: Profile,
    preamble: usize,
    polling: u8,
    unique: u64,
    limit: usize,
) -> (u32, [u64; 41]) {
    let mut state = [BEFORE; 41];
    let [sto, hold, rt2, rt1p, rt1s] = profile;
    // SAFETY: the state has as many words as the function takes.
    let returned = unsafe {
        let state = state.as_mut_ptr();
        nengapiko_device_start(
            sto, hold, rt2, rt1p, rt1s, preamble, polling, unique, limit, state,
        )
    };
    (returned, state)
}

impl Device {
    /// A device that is started, or the refusal's number.
    pub fn start(
        profile: Profile,
        preamble: usize,
        polling: u8,
        unique: u64,
        limit: usize,
    ) -> Result<Device, u32> {
        match start_device(profile, preamble, polling, unique, limit) {
            (0, state) => Ok(Device {
                state,
                frame: [0; 284],
                data: [0; 255],
                content: [0; 255],
                results: Results([0; 17]),
            }),
            (refused, _) => Err(refused),
        }
    }

    /// A tick; the call's number.
    #[inline(always)]
    pub fn tick(&mut self, (kind, character): Heard, given: Given) -> u32 {
        // SAFETY: each array has as many elements as the function takes, and no two overlap.
        unsafe {
            nengapiko_device_tick(
                self.state.as_mut_ptr(),
                self.frame.as_mut_ptr(),
                self.data.as_mut_ptr(),
                self.content.as_mut_ptr(),
                kind,
                character,
                given.call,
                given.command,
                given.data.as_ptr(),
                given.data.len(),
                self.results.0.as_mut_ptr(),
            )
        }
    }
}

/// A primary of the FSK profile with 3 retries.
pub fn primary() -> Master {
    Master::start(FSK, true, 3, NO_LIMIT).expect("FSK and 3 retries are taken")
}

/// A device of the FSK profile with 5 preamble characters, polling address 0 and unique address 2.
pub fn device_2() -> Device {
    Device::start(FSK, 5, 0, 2, NO_LIMIT).expect("these addresses are taken")
}
