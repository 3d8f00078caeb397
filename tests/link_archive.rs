//! nengapiko_play and nengapiko_convert, called with slices.

#[link(name = "nengapiko_tests", kind = "static")]
extern "C" {
    fn nengapiko_play(
        record: usize,
        script: *const u8,
        length: usize,
        out: *mut u8,
        room: usize,
    ) -> usize;
    fn nengapiko_convert(
        record: usize,
        script: *const u8,
        length: usize,
        out: *mut u8,
        room: usize,
        end: *mut usize,
    ) -> u32;
}

/// Writes the player's output for a script with records of so many bytes, and returns its length.
#[inline(always)]
pub fn play_sized(record: usize, script: &[u8], out: &mut [u8]) -> usize {
    // SAFETY: both pointers come from borrows that outlive the call, each with its own length;
    // the buffer is borrowed mutably, so nothing overlaps it.
    unsafe {
        nengapiko_play(
            record,
            script.as_ptr(),
            script.len(),
            out.as_mut_ptr(),
            out.len(),
        )
    }
}

/// The same for records of 4 bytes.
#[allow(dead_code)]
#[inline(always)]
pub fn play(script: &[u8], out: &mut [u8]) -> usize {
    play_sized(4, script, out)
}

/// Turns a script with records of so many bytes into the other form: its length, or the refusal.
#[allow(dead_code)]
pub fn convert(record: usize, script: &[u8], out: &mut [u8]) -> Result<usize, u32> {
    let mut end = usize::MAX;
    // SAFETY: as above; the end is a number of this function.
    let refused = unsafe {
        nengapiko_convert(
            record,
            script.as_ptr(),
            script.len(),
            out.as_mut_ptr(),
            out.len(),
            &mut end,
        )
    };
    match refused {
        0 => Ok(end),
        why => {
            assert!(end == usize::MAX, "a refusal changed the end");
            Err(why)
        }
    }
}
