//! The latest readings table of document 02, items 7 and 8, in plain Rust, written from their sentences: a
//! table that may have been lent with any content, and a history, which has no table at all. It shares
//! nothing with the archive.

#![allow(dead_code)]

const ROW_BYTES: usize = 255;
const BUFFER_SHORT: u32 = 15;
const TABLE_FULL: u32 = 20;

const WHOLE: u64 = 3;
const ACK: u8 = 6;
const BACK: u8 = 1;

/// The bits of the second data byte that are meant for one master only.
pub const OWN_BITS: u8 = 0x40 | 0x10;

/// The second data byte as one master's host is shown it.
pub fn shown(stored: u8, bits: u8) -> u8 {
    stored & !OWN_BITS | bits & OWN_BITS
}

/// A frame that is to be entered.
#[derive(Clone, Debug, PartialEq)]
pub struct Reading {
    pub tick: u64,
    pub address: u64,
    pub command: u8,
    /// Whether it is to the primary.
    pub primary: bool,
    pub data: Vec<u8>,
}

impl Reading {
    /// That of 17 results with their data, if these tell one: an undamaged long ACK or BACK of an address
    /// that a frame can carry and that is not 0, with 2 data bytes at least and bit 7 of the first clear.
    pub fn told(tick: u64, results: &[u64; 17], bytes: &[u8; 255]) -> Option<Reading> {
        let [_, _, _, event, kind, long, primary, _, address, _, command, count, ..] = *results;
        let from_device = matches!(kind as u8, ACK | BACK);
        let has_address = (1..1 << 38).contains(&address);
        let data = &bytes[..usize::from(count as u8)];
        let is_reading = event == WHOLE && long == 1 && from_device && has_address;
        (is_reading && data.len() >= 2 && data[0] < 0x80).then(|| Reading {
            tick,
            address,
            command: command as u8,
            primary: primary == 1,
            data: data.to_vec(),
        })
    }

    fn key(&self) -> (u64, u8) {
        (self.address, self.command)
    }

    /// The bits of the master that it is to.
    fn own_bits(&self) -> u8 {
        self.data[1] & OWN_BITS
    }

    /// Its data as they are stored.
    fn stored(&self) -> Vec<u8> {
        let mut data = self.data.clone();
        data[1] &= !OWN_BITS;
        data
    }
}

/// A row, laid out as `struct nengapiko_reading`; all 0 is a cleared one.
#[repr(C)]
#[derive(Clone, Copy, Debug, Default, PartialEq)]
pub struct Row {
    pub address: u64,
    pub tick: u64,
    pub place: usize,
    pub command: u8,
    pub count: u8,
    pub primary: u8,
    pub secondary: u8,
    pub spare: u32,
}

const _: () = assert!(std::mem::size_of::<Row>() == 32);

fn row_of(reading: &Reading, at: usize, [primary, secondary]: [u8; 2]) -> Row {
    Row {
        address: reading.address,
        tick: reading.tick,
        place: ROW_BYTES * at,
        command: reading.command,
        count: reading.data.len() as u8,
        primary,
        secondary,
        spare: 0,
    }
}

/// A table with its byte area, lent with any content.
#[derive(Clone, Debug, PartialEq)]
pub struct Table {
    pub rows: Vec<Row>,
    pub area: Vec<u8>,
}

impl Table {
    pub fn clear(&mut self) {
        self.rows.fill(Row::default());
    }

    pub fn find(&self, address: u64, command: u8) -> Option<usize> {
        let is_it = |row: &Row| address != 0 && (row.address, row.command) == (address, command);
        self.rows.iter().position(is_it)
    }

    pub fn enter(&mut self, reading: Option<Reading>) -> u32 {
        if self.area.len() < ROW_BYTES * self.rows.len() {
            return BUFFER_SHORT;
        }
        let Some(reading) = reading else {
            return 0;
        };
        let found = self.find(reading.address, reading.command);
        let empty = || self.rows.iter().position(|row| row.address == 0);
        let Some(at) = found.or_else(empty) else {
            return TABLE_FULL;
        };
        let mut bits = match found {
            Some(at) => [self.rows[at].primary, self.rows[at].secondary],
            None => [0, 0],
        };
        bits[usize::from(!reading.primary)] = reading.own_bits();
        self.rows[at] = row_of(&reading, at, bits);
        self.area[ROW_BYTES * at..][..reading.data.len()].copy_from_slice(&reading.stored());
        0
    }
}

/// The readings that were entered in a table of so many rows, all empty at first, in their order.
pub struct History {
    rows: usize,
    entered: Vec<Entered>,
    clears: usize,
}

struct Entered {
    reading: Reading,
    row: usize,
    /// How often the table had been cleared before.
    clears: usize,
}

impl History {
    pub fn new(rows: usize) -> History {
        History {
            rows,
            entered: Vec::new(),
            clears: 0,
        }
    }

    pub fn clear(&mut self) {
        self.clears += 1;
    }

    /// The readings since the last clear.
    fn current(&self) -> impl DoubleEndedIterator<Item = &Entered> {
        self.entered
            .iter()
            .filter(|entered| entered.clears == self.clears)
    }

    /// How many keys were entered since the last clear: each took the next row.
    pub fn keys(&self) -> usize {
        self.current()
            .map(|entered| entered.row + 1)
            .max()
            .unwrap_or(0)
    }

    /// A key has one row, and a new key the next one.
    pub fn enter(&mut self, reading: Reading) -> u32 {
        let same = |entered: &&Entered| entered.reading.key() == reading.key();
        let row = match self.current().find(same) {
            Some(entered) => entered.row,
            None => self.keys(),
        };
        if row == self.rows {
            return TABLE_FULL;
        }
        let clears = self.clears;
        self.entered.push(Entered {
            reading,
            row,
            clears,
        });
        0
    }

    /// The bits of a master in a row: those of the newest reading to it since the last clear.
    fn bits(&self, at: usize, primary: bool) -> u8 {
        let to_it = |entered: &&Entered| entered.row == at && entered.reading.primary == primary;
        let newest = self.current().rev().find(to_it);
        newest.map_or(0, |entered| entered.reading.own_bits())
    }

    /// What each row must hold: the newest reading since the last clear, and each master's bits.
    pub fn rows(&self) -> Vec<Row> {
        let newest = |at| self.current().rev().find(|entered| entered.row == at);
        let row = |at| match newest(at) {
            Some(entered) => row_of(
                &entered.reading,
                at,
                [true, false].map(|to| self.bits(at, to)),
            ),
            None => Row::default(),
        };
        (0..self.rows).map(row).collect()
    }

    /// What the area must hold, by what it was lent with: a byte of a row is that of the newest reading,
    /// of whichever key, that has so many data bytes.
    pub fn area(&self, lent: &[u8]) -> Vec<u8> {
        let byte = |place: usize, lent: u8| {
            let (row, at) = (place / ROW_BYTES, place % ROW_BYTES);
            let reaches =
                |entered: &&Entered| entered.row == row && entered.reading.data.len() > at;
            let newest = self.entered.iter().rev().find(reaches);
            newest.map_or(lent, |entered| entered.reading.stored()[at])
        };
        lent.iter()
            .enumerate()
            .map(|(place, &lent)| byte(place, lent))
            .collect()
    }
}
