//! The calls of a master's and of a device's host, and some of them by the number that a recording has
//! for them: those of ticked.rs first.

#![allow(dead_code)]

#[derive(Clone, Copy, Debug)]
pub struct Request<'a> {
    pub preamble: usize,
    pub revision: u8,
    pub long_address: bool,
    pub address: u64,
    pub command: u8,
    pub data: &'a [u8],
}

/// What a device's host gives: an `enum nengapiko_device_call`, the command of a burst content, and
/// the data.
pub struct Given<'a> {
    pub call: u8,
    pub command: u8,
    pub data: &'a [u8],
}

pub const NOTHING: Given = Given {
    call: 0,
    command: 0,
    data: &[],
};

/// Data of any length up to one byte too many.
const DATA: [u8; 256] = {
    let mut bytes = [0; 256];
    let mut at = 0;
    while at < bytes.len() {
        bytes[at] = (at as u8).wrapping_mul(37).wrapping_add(5);
        at += 1;
    }
    bytes
};

const LARGEST_UNIQUE: u64 = (1 << 38) - 1;

/// The numbers of requests: those that a free master takes, and those that it refuses.
pub const TAKEN_REQUESTS: [u8; 11] = [1, 2, 3, 4, 5, 6, 7, 8, 9, 10, 11];
pub const REFUSED_REQUESTS: [u8; 10] = [12, 13, 14, 15, 16, 17, 18, 19, 20, 21];

pub fn request(number: u8) -> Option<Request<'static>> {
    let usual = Request {
        preamble: 5,
        revision: 7,
        long_address: true,
        address: 2,
        command: 3,
        data: &[],
    };
    let polling = |revision, address| Request {
        revision,
        long_address: false,
        address,
        command: 0,
        ..usual
    };
    let request = match number {
        1 => usual,
        2 => Request {
            address: 0,
            command: 11,
            data: &[0; 6],
            ..usual
        },
        3 => Request {
            command: 0,
            ..usual
        },
        4 => Request {
            preamble: 20,
            command: 255,
            data: &DATA[..255],
            ..usual
        },
        5 => Request {
            preamble: 12,
            revision: 3,
            command: 48,
            data: &DATA[..17],
            ..usual
        },
        6 => Request {
            address: LARGEST_UNIQUE,
            command: 253,
            data: &DATA[..1],
            ..usual
        },
        7 => Request {
            address: 0,
            data: &DATA[..3],
            ..usual
        },
        8 => polling(3, 0),
        9 => polling(5, 15),
        10 => polling(6, 16),
        11 => polling(7, 63),
        12 => Request {
            preamble: 4,
            revision: 2,
            ..usual
        },
        13 => Request {
            preamble: 21,
            data: &DATA,
            ..usual
        },
        14 => Request {
            revision: 2,
            command: 254,
            ..usual
        },
        15 => Request {
            revision: 8,
            address: LARGEST_UNIQUE + 1,
            ..usual
        },
        16 => polling(5, 16),
        17 => polling(6, 64),
        18 => Request {
            address: LARGEST_UNIQUE + 1,
            command: 254,
            ..usual
        },
        19 => Request {
            command: 254,
            data: &DATA,
            ..usual
        },
        20 => Request {
            command: 3,
            ..polling(7, 0)
        },
        21 => Request {
            data: &DATA,
            ..usual
        },
        _ => return None,
    };
    Some(request)
}

/// The numbers of what a device's host gives, and of two that are nothing.
pub const GIVEN: [u8; 16] = [1, 2, 3, 4, 5, 6, 7, 8, 9, 10, 11, 12, 13, 14, 15, 16];

pub fn given(number: u8) -> Given<'static> {
    let of = |call, command, data| Given {
        call,
        command,
        data,
    };
    match number {
        1..=4 => of(number, 3, &[0, 0]),
        5 => of(1, 0, &DATA[..255]),
        6 => of(2, 0, &DATA[..5]),
        7 => of(3, 0, &DATA[..3]),
        8 => of(4, 11, &DATA[..255]),
        9 => of(4, 1, &DATA[..7]),
        10 => of(1, 0, &DATA[..1]),
        11 => of(2, 0, &DATA),
        12 => of(4, 254, &DATA[..1]),
        13 => of(4, 3, &DATA[..1]),
        14 => of(4, 3, &DATA),
        15 => of(5, 3, &DATA[..2]),
        16 => of(255, 3, &DATA[..2]),
        _ => NOTHING,
    }
}
