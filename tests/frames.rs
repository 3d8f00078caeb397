//! Random frames; the same seed gives the same frames.

use crate::oracles::frame_oracle::{exclusive_or, ACK, BACK, LONG, PREAMBLE, STX};

pub const TYPES: [u8; 3] = [STX, ACK, BACK];

pub struct Xorshift(pub u64);

impl Xorshift {
    pub fn next(&mut self) -> u64 {
        self.0 ^= self.0 << 13;
        self.0 ^= self.0 >> 7;
        self.0 ^= self.0 << 17;
        self.0
    }

    pub fn below(&mut self, limit: usize) -> usize {
        ((self.next() >> 32) as usize) % limit
    }

    pub fn byte(&mut self) -> u8 {
        (self.next() >> 32) as u8
    }

    pub fn flag(&mut self) -> bool {
        self.below(2) == 1
    }

    pub fn bytes(&mut self, count: usize) -> Vec<u8> {
        (0..count).map(|_| self.byte()).collect()
    }

    pub fn pick<T: Copy>(&mut self, choices: &[T]) -> T {
        choices[self.below(choices.len())]
    }
}

/// The bytes from delimiter to the last data byte: sound unless it is an ACK or BACK with fewer
/// than 2 data bytes.
pub fn body(random: &mut Xorshift, delimiter: u8, count: u8) -> Vec<u8> {
    let address_length = if delimiter & LONG != 0 { 5 } else { 1 };
    let expansion = usize::from(delimiter >> 5 & 3);
    let mut bytes = vec![delimiter];
    bytes.extend(random.bytes(address_length + expansion + 1));
    bytes.push(count);
    bytes.extend(random.bytes(count.into()));
    bytes
}

pub fn delimiter(random: &mut Xorshift) -> u8 {
    random.pick(&TYPES) | random.byte() & 0xE0
}

pub fn count(random: &mut Xorshift) -> u8 {
    match random.below(3) {
        0 => random.pick(&[0, 1, 2, 3, 254, 255]),
        1 => random.byte() & 0x1F,
        _ => random.byte(),
    }
}

/// Preambles, the body and the check byte that belongs to it.
pub fn sealed(preamble: usize, body: &[u8]) -> Vec<u8> {
    let mut bytes = vec![PREAMBLE; preamble];
    bytes.extend(body);
    bytes.push(exclusive_or(body));
    bytes
}

pub fn random_frame(random: &mut Xorshift) -> Vec<u8> {
    let (delimiter, count) = (delimiter(random), count(random));
    sealed(2 + random.below(20), &body(random, delimiter, count))
}
