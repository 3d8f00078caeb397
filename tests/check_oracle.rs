//! The exclusive-or of a number and of so many bytes from a start on, in plain Rust: by a plain loop
//! and by words. Where the bytes would run past the end it is the number alone.

fn part(bytes: &[u8], start: usize, count: usize) -> &[u8] {
    start
        .checked_add(count)
        .and_then(|end| bytes.get(start..end))
        .unwrap_or(&[])
}

#[allow(dead_code)]
pub fn by_bytes(x: u8, bytes: &[u8], start: usize, count: usize) -> u8 {
    let mut sum = x;
    for byte in part(bytes, start, count) {
        sum ^= byte;
    }
    sum
}

#[allow(dead_code)]
#[inline(never)]
pub fn by_words(x: u8, bytes: &[u8], start: usize, count: usize) -> u8 {
    let mut words = part(bytes, start, count).chunks_exact(8);
    let mut sum = 0;
    for word in &mut words {
        sum ^= u64::from_le_bytes(word.try_into().expect("eight bytes"));
    }
    sum ^= sum >> 32;
    sum ^= sum >> 16;
    sum ^= sum >> 8;
    words
        .remainder()
        .iter()
        .fold(x ^ sum as u8, |sum, byte| sum ^ byte)
}
