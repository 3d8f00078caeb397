//! Records of the player's scripts, and the room that its output needs.

pub const POLL: u8 = 1;
pub const ANSWER: u8 = 2;
pub const ASK: u8 = 3;
pub const BURST_ON: u8 = 4;
pub const BURST_OFF: u8 = 5;

pub fn record(tick: u16, party: u8, action: u8, argument: u8) -> [u8; 4] {
    let [high, low] = tick.to_be_bytes();
    [high, low, party << 4 | action, argument]
}

pub fn stop(tick: u16) -> [u8; 4] {
    record(tick, 0, 0, 0)
}

/// The most that the output of so many ticks can need: the header, and a line for each tick.
pub fn room(ticks: u16) -> usize {
    30 + 25 * usize::from(ticks)
}
