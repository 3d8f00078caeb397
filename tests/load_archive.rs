//! The function that libnengapiko_tests.a exports, called with a slice: the script of a seed and a count of
//! records at the front of the buffer and 0, or the refusal's number.

#[link(name = "nengapiko_tests", kind = "static")]
extern "C" {
    fn nengapiko_load(seed: u32, count: u32, buffer: *mut u8, room: usize) -> u32;
}

#[inline(always)]
pub fn load(seed: u32, count: u32, buffer: &mut [u8]) -> u32 {
    // SAFETY: the pointer comes from a mutable borrow that outlives the call, with its own length.
    unsafe { nengapiko_load(seed, count, buffer.as_mut_ptr(), buffer.len()) }
}
