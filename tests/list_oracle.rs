//! The list of a recording in plain Rust, document 02, item 9, by jumps from each start to the end that
//! the byte count and passed-over silence give. It shares nothing with the archive.

use super::frame_oracle::{ACK, BACK, PREAMBLE, STX};

/// Bytes of an entry.
pub const ENTRY: usize = 9;

const SOUND: u8 = 0x20;
const BROKEN: u8 = 0;
const WHOLE: u8 = 1;
const DAMAGED: u8 = 2;

/// 21: an odd length, or a tick that no recording has.
pub fn is_bad(recording: &[u8]) -> bool {
    let bad = recording.chunks_exact(2).fold(0, |bad, tick| {
        let silent = u8::from(tick[0] == 0);
        bad | tick[0] % 32 | u8::from(tick[0] > 0x80) | silent * tick[1]
    });
    bad != 0 || recording.len() % 2 != 0
}

pub fn put(list: &mut Vec<u8>, tick: usize, verdict: u8) {
    list.extend((tick as u64).to_be_bytes());
    list.push(verdict);
}

/// What became of a frame.
enum End {
    At(usize, u8),
    /// By a character: the others are passed over up to a silent tick.
    Broken(usize),
    Cut,
}

struct Line<'a>(&'a [u8]);

impl Line<'_> {
    fn ticks(&self) -> usize {
        self.0.len() / 2
    }

    fn kind(&self, tick: usize) -> u8 {
        self.0[2 * tick]
    }

    fn character(&self, tick: usize) -> u8 {
        self.0[2 * tick + 1]
    }

    fn silent(&self, tick: usize) -> bool {
        self.kind(tick) == 0
    }

    /// The next character inside a frame: one silent tick is passed over.
    fn next(&self, tick: usize) -> Result<usize, End> {
        for at in tick..tick + 2 {
            if at >= self.ticks() {
                return Err(End::Cut);
            }
            if !self.silent(at) {
                return Ok(at);
            }
        }
        Err(End::At(tick + 1, BROKEN))
    }

    /// So many characters: the tick behind them, their exclusive-or and whether one is damaged.
    fn run(&self, from: usize, need: usize, sum: u8, harm: bool) -> Result<(usize, u8, bool), End> {
        if let Some(ticks) = self.0.get(2 * from..2 * (from + need)) {
            let mut other = 0;
            let mut all = sum;
            for tick in ticks.chunks_exact(2) {
                other |= tick[0] ^ SOUND;
                all ^= tick[1];
            }
            if other == 0 {
                return Ok((from + need, all, harm));
            }
        }
        let (mut tick, mut all, mut hurt) = (from, sum, harm);
        for _ in 0..need {
            let at = self.next(tick)?;
            all ^= self.character(at);
            hurt |= self.kind(at) != SOUND;
            tick = at + 1;
        }
        Ok((tick, all, hurt))
    }

    /// The delimiter, behind the preamble that begins at this tick.
    fn delimiter(&self, start: usize) -> Result<usize, End> {
        if self.kind(start) != SOUND || self.character(start) != PREAMBLE {
            return Err(End::Broken(start));
        }
        let mut preambles = 1;
        let mut tick = start + 1;
        loop {
            let at = self.next(tick)?;
            if self.kind(at) != SOUND {
                return Err(End::Broken(at));
            }
            if self.character(at) != PREAMBLE {
                return if preambles < 2 {
                    Err(End::Broken(at))
                } else {
                    Ok(at)
                };
            }
            preambles += 1;
            tick = at + 1;
        }
    }

    fn frame(&self, start: usize) -> Result<End, End> {
        let at = self.delimiter(start)?;
        let delimiter = self.character(at);
        let kind = delimiter & 7;
        if delimiter & 0x18 != 0 || ![STX, ACK, BACK].contains(&kind) {
            return Err(End::Broken(at));
        }
        let address = if delimiter & 0x80 != 0 { 5 } else { 1 };
        let head = address + usize::from(delimiter >> 5 & 3) + 1;
        let (tick, sum, harm) = self.run(at + 1, head, delimiter, false)?;
        let at = self.next(tick)?;
        let count = self.character(at);
        if self.kind(at) != SOUND || (kind != STX && count < 2) {
            return Err(End::Broken(at));
        }
        let (tick, sum, harm) = self.run(at + 1, usize::from(count) + 1, sum ^ count, harm)?;
        let verdict = if harm || sum != 0 { DAMAGED } else { WHOLE };
        Ok(End::At(tick - 1, verdict))
    }

    fn silence(&self, from: usize) -> usize {
        (from..self.ticks())
            .find(|&tick| self.silent(tick))
            .unwrap_or(self.ticks())
    }
}

/// The list of a good recording.
pub fn by_jumps(recording: &[u8]) -> Vec<u8> {
    let line = Line(recording);
    let mut list = Vec::new();
    let mut tick = 0;
    if line.ticks() > 0 && !line.silent(0) {
        put(&mut list, 0, BROKEN);
        tick = line.silence(1);
    }
    while tick < line.ticks() {
        if line.silent(tick) {
            tick += 1;
            continue;
        }
        match line.frame(tick).unwrap_or_else(|end| end) {
            End::At(end, verdict) => {
                put(&mut list, end, verdict);
                tick = end + 1;
            }
            End::Broken(end) => {
                put(&mut list, end, BROKEN);
                tick = line.silence(end + 1);
            }
            End::Cut => break,
        }
    }
    list
}

/// The same by what a tick reader tells: 2 broken, 3 whole, 4 damaged, and 1, passed over, in tick 0.
pub fn by_ticks(events: &[u8]) -> Vec<u8> {
    let mut list = Vec::new();
    for (tick, &event) in events.iter().enumerate() {
        match event {
            1 if tick == 0 => put(&mut list, tick, BROKEN),
            2 => put(&mut list, tick, BROKEN),
            3 => put(&mut list, tick, WHOLE),
            4 => put(&mut list, tick, DAMAGED),
            _ => {}
        }
    }
    list
}
