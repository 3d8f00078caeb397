//! The frame writer and reader of include/nengapiko.h, called with slices.

#[link(name = "nengapiko", kind = "static")]
extern "C" {
    fn nengapiko_write(
        preamble: usize,
        frame_type: u8,
        long_address: bool,
        primary: bool,
        burst: bool,
        address: u64,
        command: u8,
        data: *const u8,
        count: usize,
        buffer: *mut u8,
        size: usize,
        place: usize,
        end: *mut usize,
    ) -> u32;

    fn nengapiko_read(bytes: *const u8, size: usize, fields: *mut u64) -> u32;
}

#[inline(always)]
#[allow(clippy::too_many_arguments)]
pub fn write(
    preamble: usize,
    frame_type: u8,
    long_address: bool,
    primary: bool,
    burst: bool,
    address: u64,
    command: u8,
    data: &[u8],
    buffer: &mut [u8],
    place: usize,
    end: &mut usize,
) -> u32 {
    // SAFETY: each pointer comes from a borrow that outlives the call, with its own length; what
    // is written is borrowed mutably, so nothing overlaps it.
    unsafe {
        nengapiko_write(
            preamble,
            frame_type,
            long_address,
            primary,
            burst,
            address,
            command,
            data.as_ptr(),
            data.len(),
            buffer.as_mut_ptr(),
            buffer.len(),
            place,
            end,
        )
    }
}

#[inline(always)]
pub fn read(bytes: &[u8], fields: &mut [u64; 11]) -> u32 {
    // SAFETY: as for write; the array has the eleven numbers that the reader fills.
    unsafe { nengapiko_read(bytes.as_ptr(), bytes.len(), fields.as_mut_ptr()) }
}
