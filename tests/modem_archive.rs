//! nengapiko_modem, called with slices.

use crate::called::over;

#[link(name = "nengapiko_tests", kind = "static")]
extern "C" {
    fn nengapiko_modem(from: *const u8, size: usize, to: *mut u8, room: usize) -> usize;
}

pub fn modem(script: &[u8], events: &mut [u8]) -> usize {
    over(nengapiko_modem, script, events)
}
