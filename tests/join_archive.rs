//! nengapiko_join, called with slices: 0 and the joined recording at the front of the buffer, or the
//! refusal's number, for 23 with the first tick that has two different characters.

#[link(name = "nengapiko", kind = "static")]
extern "C" {
    fn nengapiko_join(
        first: *const u8,
        first_size: usize,
        second: *const u8,
        second_size: usize,
        out: *mut u8,
        room: usize,
        tick: *mut usize,
    ) -> u32;
}

#[inline(always)]
pub fn join(first: &[u8], second: &[u8], out: &mut [u8], tick: &mut usize) -> u32 {
    // SAFETY: the pointers come from borrows that outlive the call, each with its own length.
    unsafe {
        nengapiko_join(
            first.as_ptr(),
            first.len(),
            second.as_ptr(),
            second.len(),
            out.as_mut_ptr(),
            out.len(),
            tick,
        )
    }
}
