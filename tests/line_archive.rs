//! nengapiko_ticks, called with slices.

use crate::called::over;

#[link(name = "nengapiko", kind = "static")]
extern "C" {
    fn nengapiko_ticks(from: *const u8, size: usize, to: *mut u8, room: usize) -> usize;
}

#[inline(always)]
pub fn ticks(recording: &[u8], events: &mut [u8]) -> usize {
    over(nengapiko_ticks, recording, events)
}
