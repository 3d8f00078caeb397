//! Two taps joined, in plain Rust: document 02's item 10 by the two bytes of each tick.

pub const CHARACTER: u8 = 0x20;

/// Whether no recording has these two bytes: kinds are 0 to 4, and silence has no character.
fn is_bad_tick(tick: &[u8]) -> bool {
    (tick[0] & 0x1F != 0) | (tick[0] > 0x80) | ((tick[0] == 0) & (tick[1] != 0))
}

/// It goes on behind a bad tick: a loop that stops is not compiled to vectors.
pub fn is_bad(recording: &[u8]) -> bool {
    let ticks = recording.chunks_exact(2);
    recording.len() % 2 == 1 || ticks.fold(false, |bad, tick| bad | is_bad_tick(tick))
}

/// The lower is taken: a character, damage of kind 1 to 3, and silence, whose byte is 0, last.
fn rank(tick: &[u8]) -> u8 {
    tick[0].wrapping_sub(1)
}

fn differ(a: &[u8], b: &[u8]) -> bool {
    a[0] == CHARACTER && b[0] == CHARACTER && a[1] != b[1]
}

#[inline(never)]
pub fn join(first: &[u8], second: &[u8], out: &mut [u8], tick: &mut usize) -> u32 {
    if is_bad(first) || is_bad(second) {
        return 21;
    }
    if first.len() != second.len() {
        return 22;
    }
    if out.len() < first.len() {
        return 15;
    }
    let taps = || first.chunks_exact(2).zip(second.chunks_exact(2));
    if let Some(found) = taps().position(|(a, b)| differ(a, b)) {
        *tick = found;
        return 23;
    }
    for (joined, (a, b)) in out.chunks_exact_mut(2).zip(taps()) {
        joined.copy_from_slice(if rank(b) < rank(a) { b } else { a });
    }
    0
}
