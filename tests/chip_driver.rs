//! The modem chip of libnengapiko_tests.a, access by access, and the driver of
//! crates/modem/specs/Driver.antt over its registers.

use crate::modem_archive::modem;

/// Operations of a script, as crates/modem_c/specs/Script.antt says.
const READ: u8 = 0x00;
const WRITE: u8 = 0x20;
const BEGINS_SILENT: u8 = 0x30;
const BEGINS: u8 = 0x40;
const ENDS: u8 = 0x50;
const CHARACTER_OUT: u8 = 0x60;

/// The ninth bit of a character: odd parity.
pub fn ninth(character: u8) -> u8 {
    u8::from(character.count_ones() % 2 == 0)
}

/// The accesses so far.
#[derive(Default)]
pub struct Chip {
    script: Vec<u8>,
}

impl Chip {
    /// One access more: the script is run again, and gives the last number.
    fn access(&mut self, operation: u8, value: u8) -> u8 {
        self.script.extend([operation, value]);
        let mut given = vec![0; self.script.len() / 2];
        assert_eq!(modem(&self.script, &mut given), given.len());
        given[given.len() - 1]
    }

    fn read(&mut self, byte: u8) -> u8 {
        self.access(READ + byte, 0)
    }

    fn write(&mut self, byte: u8, value: u8) {
        assert_eq!(self.access(WRITE + byte, value), 0);
    }

    /// A tick begins: the kind of what is heard without a chip, and the character.
    pub fn begin(&mut self, (kind, c): (u8, u8)) {
        match kind {
            0 => self.access(BEGINS_SILENT, 0),
            1 => self.access(BEGINS + ninth(c), c),
            2 => self.access(BEGINS + 1 - ninth(c), c),
            _ => self.access(BEGINS + 2 * (kind - 2) + c % 2, c),
        };
    }

    /// What the driver hears.
    pub fn heard(&mut self) -> (u8, u8) {
        let received = self.read(0) & 0x20 != 0;
        let damage = self.read(3);
        let c = self.read(2);
        (if received { 1 + damage } else { 0 }, c)
    }

    /// What the driver writes for what is sent.
    pub fn send(&mut self, sent: Option<u8>) {
        let control = self.read(1);
        match sent {
            None => self.write(1, control & 0x7F),
            Some(c) => {
                self.write(1, control | 0x80);
                self.write(2, c);
            }
        }
    }

    /// The tick ends: the character that goes out, and its ninth bit.
    pub fn end(&mut self) -> Option<(u8, u8)> {
        let c = self.access(CHARACTER_OUT, 0);
        let out = self.access(ENDS, 0);
        (out != 0).then(|| (c, out - 1))
    }
}
