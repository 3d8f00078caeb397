//! Calls a function of an archive that is lent bytes to read and a buffer to write, and returns how
//! much of the buffer it used.

pub type Exported = unsafe extern "C" fn(*const u8, usize, *mut u8, usize) -> usize;

#[inline(always)]
pub fn over(exported: Exported, from: &[u8], to: &mut [u8]) -> usize {
    // SAFETY: both pointers come from borrows that outlive the call, each with its own length;
    // the buffer is borrowed mutably, so nothing overlaps it.
    unsafe { exported(from.as_ptr(), from.len(), to.as_mut_ptr(), to.len()) }
}
