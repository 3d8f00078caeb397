//! nengapiko_check_words and nengapiko_check_bytes, called with slices: the exclusive-or of a number
//! and of so many bytes from a start on, or of the number alone where they would run past the end.

#[link(name = "nengapiko_tests", kind = "static")]
extern "C" {
    fn nengapiko_check_words(
        x: u8,
        bytes: *const u8,
        size: usize,
        start: usize,
        count: usize,
    ) -> u8;
    fn nengapiko_check_bytes(
        x: u8,
        bytes: *const u8,
        size: usize,
        start: usize,
        count: usize,
    ) -> u8;
}

#[inline(always)]
pub fn by_words(x: u8, bytes: &[u8], start: usize, count: usize) -> u8 {
    // SAFETY: the pointer comes from a borrow that outlives the call, with its own length.
    unsafe { nengapiko_check_words(x, bytes.as_ptr(), bytes.len(), start, count) }
}

#[inline(always)]
pub fn by_bytes(x: u8, bytes: &[u8], start: usize, count: usize) -> u8 {
    // SAFETY: as above.
    unsafe { nengapiko_check_bytes(x, bytes.as_ptr(), bytes.len(), start, count) }
}
