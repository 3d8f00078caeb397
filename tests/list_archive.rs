//! nengapiko_list, called with slices: 0, the list at the front of the buffer and the number of its
//! entries; or the refusal's number.

#[link(name = "nengapiko", kind = "static")]
extern "C" {
    fn nengapiko_list(
        recording: *const u8,
        size: usize,
        out: *mut u8,
        room: usize,
        entries: *mut usize,
    ) -> u32;
}

#[inline(always)]
pub fn list(recording: &[u8], out: &mut [u8], entries: &mut usize) -> u32 {
    // SAFETY: the pointers come from borrows that outlive the call, each with its own length.
    unsafe {
        nengapiko_list(
            recording.as_ptr(),
            recording.len(),
            out.as_mut_ptr(),
            out.len(),
            entries,
        )
    }
}
