//! The load from a seed number in plain Rust, written from docs/LOAD.md alone.

/// tick, party, action, argument
type Record = (u32, u32, u32, u32);

const OPENING: [Record; 8] = [
    (0, 0, 3, 8),
    (0, 1, 3, 3),
    (250, 0, 3, 2),
    (271, 3, 2, 2),
    (292, 2, 4, 2),
    (330, 0, 3, 2),
    (341, 3, 2, 2),
    (391, 2, 5, 2),
];

pub fn draw(mut x: u32) -> u32 {
    x ^= x << 13;
    x ^= x >> 17;
    x ^= x << 5;
    x
}

fn bytes_of(x: u32) -> u32 {
    2 + x / 1024 % 32
}

fn lower(tick: u32, x: u32) -> Record {
    let choice = x / 256 % 4;
    match x % 16 {
        0..=3 => {
            let address = match x / 16 % 16 {
                v @ 0..=7 => v,
                8..=11 => 2,
                v => v - 8,
            };
            if choice == 0 {
                (tick, x % 2, 1, (address + 62) % 64)
            } else {
                (tick, x % 2, 3, address)
            }
        }
        4..=13 => (tick, 2, [4, 2, 5, 5][choice as usize], bytes_of(x)),
        _ => (tick, 3, 2, bytes_of(x)),
    }
}

fn upper(tick: u32, x: u32) -> Record {
    let party = match x % 16 {
        0..=9 => 4,
        10..=11 => 5,
        12..=13 => 6,
        _ => 7,
    };
    (tick, party, 2, bytes_of(x))
}

fn put(out: &mut [u8], i: usize, record: Record) {
    let (tick, party, action, argument) = record;
    out[4 * i..4 * i + 4].copy_from_slice(&[
        (tick / 256) as u8,
        (tick % 256) as u8,
        (party * 16 + action) as u8,
        argument as u8,
    ]);
}

/// Writes the script at the front of the buffer and returns 0, or returns the refusal's number.
pub fn load(seed: u32, count: u32, out: &mut [u8]) -> u32 {
    if seed == 0 || count == 0 || count > 65_536 {
        return 18;
    }
    let count = count as usize;
    if out.len() < 4 * count {
        return 15;
    }
    let first = draw(seed);
    let mut x = first;
    let mut tick = 0;
    for i in 0..count {
        let record = if i < 8 {
            OPENING[i]
        } else if i < 12 {
            let byte = first.to_be_bytes()[i - 8];
            (400, i as u32 - 4, 2, u32::from(byte))
        } else {
            x = draw(x);
            if i % 2 == 0 {
                let k = (i as u32 - 12) / 2;
                tick = 401 + 2 * k - k / 8;
                lower(tick, x)
            } else {
                upper(tick, x)
            }
        };
        let stop = (record.0, 0, 0, 0);
        put(out, i, if i == count - 1 { stop } else { record });
    }
    0
}
