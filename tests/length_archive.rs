//! nengapiko_data_length and nengapiko_longest_wait of libnengapiko.a.

#[link(name = "nengapiko", kind = "static")]
extern "C" {
    fn nengapiko_data_length(
        sto: u16,
        hold: u16,
        rt2: u16,
        rt1_primary: u16,
        rt1_secondary: u16,
        retries: u8,
        wait: u32,
        length: *mut u8,
    ) -> u32;
    fn nengapiko_longest_wait(
        sto: u16,
        hold: u16,
        rt2: u16,
        rt1_primary: u16,
        rt1_secondary: u16,
        retries: u8,
        length: usize,
        bursting: bool,
        wait: *mut u32,
    ) -> u32;
}

/// STO, HOLD, RT2, RT1 primary, RT1 secondary.
pub type Profile = [u16; 5];

/// What is returned, and what then stands where this stood before.
pub fn data_length(profile: Profile, retries: u8, wait: u32, before: u8) -> (u32, u8) {
    let [sto, hold, rt2, rt1p, rt1s] = profile;
    let mut length = before;
    // SAFETY: the pointer is to a byte of this function.
    let returned =
        unsafe { nengapiko_data_length(sto, hold, rt2, rt1p, rt1s, retries, wait, &mut length) };
    (returned, length)
}

pub fn longest_wait(
    profile: Profile,
    retries: u8,
    length: usize,
    bursting: bool,
    before: u32,
) -> (u32, u32) {
    let [sto, hold, rt2, rt1p, rt1s] = profile;
    let mut wait = before;
    // SAFETY: the pointer is to a number of this function.
    let returned = unsafe {
        nengapiko_longest_wait(
            sto, hold, rt2, rt1p, rt1s, retries, length, bursting, &mut wait,
        )
    };
    (returned, wait)
}
