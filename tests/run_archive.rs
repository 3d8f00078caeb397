//! nengapiko_run, called with slices.

const SLOTS: usize = 6;

/// The data limit of a link that is given none.
const NO_LIMIT: usize = 255;

#[link(name = "nengapiko_tests", kind = "static")]
extern "C" {
    fn nengapiko_run(
        sto: u16,
        hold: u16,
        rt2: u16,
        rt1_primary: u16,
        rt1_secondary: u16,
        retries: u8,
        limit: usize,
        preambles: *const u8,
        polling_addresses: *const u8,
        unique_addresses: *const u64,
        primary_start: u64,
        secondary_start: u64,
        ticks: *const u8,
        size: usize,
        events: *mut u8,
        room: usize,
        refusal: *mut u32,
    ) -> usize;
}

/// What a run is started with. A slot whose preamble is 0 has no device.
#[derive(Clone, Default)]
pub struct Setup {
    /// STO, HOLD, RT2, RT1 primary, RT1 secondary.
    pub profile: [u16; 5],
    pub retries: u8,
    pub limit: Option<usize>,
    pub preambles: [u8; SLOTS],
    pub polling_addresses: [u8; SLOTS],
    pub unique_addresses: [u64; SLOTS],
    /// The ticks in which primary and secondary start.
    pub starts: [u64; 2],
}

/// Runs a list of ticks, writes each tick's number and returns how many they are; or the number of the
/// start's refusal.
pub fn run(setup: &Setup, ticks: &[u8], events: &mut [u8]) -> Result<usize, u32> {
    let mut refusal = u32::MAX;
    let [sto, hold, rt2, rt1_primary, rt1_secondary] = setup.profile;
    // SAFETY: each pointer comes from a borrow that outlives the call, a slice's with its own
    // length, an array's with the six elements that are read; what is written is borrowed mutably, so
    // nothing overlaps it.
    let count = unsafe {
        nengapiko_run(
            sto,
            hold,
            rt2,
            rt1_primary,
            rt1_secondary,
            setup.retries,
            setup.limit.unwrap_or(NO_LIMIT),
            setup.preambles.as_ptr(),
            setup.polling_addresses.as_ptr(),
            setup.unique_addresses.as_ptr(),
            setup.starts[0],
            setup.starts[1],
            ticks.as_ptr(),
            ticks.len(),
            events.as_mut_ptr(),
            events.len(),
            &mut refusal,
        )
    };
    match refusal {
        0 => Ok(count),
        _ => Err(refusal),
    }
}
