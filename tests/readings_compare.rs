//! Compares the latest readings table of the archives, over rows and over flat numbers, with the one in
//! plain Rust: the cases of tests/data/item-07 and item-08, which others worked out; random operations on
//! tables that were lent with any content; and from cleared tables on with a plain history. Compared are
//! after every operation what it returns, every field of every row, every byte of the area, and what is
//! found for a key; and for every byte and bits what a host is shown.

#[allow(dead_code)]
mod frames;
#[path = "oracles.rs"]
mod oracles;
mod readings_archive;
mod readings_oracle;

use frames::Xorshift;
use readings_archive::{Bytes, Results, NUMBERS};
use readings_oracle::{shown, History, Reading, Row, Table, OWN_BITS};
use std::process::ExitCode;

const ROUNDS: usize = 4_000;
const OPERATIONS: usize = 40;

/// What stands behind a frame's data in its buffer.
const PATTERN: u8 = 0xA5;

const ADDRESSES: [u64; 8] = [0, 1, 2, 3, 4, (1 << 38) - 1, 1 << 38, u64::MAX];
const COMMANDS: [u8; 4] = [0, 3, 11, 255];

/// What is done with a table.
enum Operation {
    Clear,
    Enter {
        tick: u64,
        results: Results,
        bytes: Bytes,
    },
}

/// A table of the archive, in both its forms.
struct Tables {
    rows: Vec<Row>,
    area: Vec<u8>,
    numbers: Vec<u64>,
    flat_area: Vec<u8>,
}

/// Numbers that belong to no row.
const LEFT_OVER: [u64; NUMBERS - 1] = [7; NUMBERS - 1];

impl Tables {
    fn of(table: &Table, left_over: usize) -> Tables {
        let numbers = table.rows.iter().flat_map(|row| {
            let [command, count, primary, secondary] =
                [row.command, row.count, row.primary, row.secondary].map(u64::from);
            let place = row.place as u64;
            [
                row.address,
                command,
                row.tick,
                count,
                place,
                primary,
                secondary,
            ]
        });
        Tables {
            rows: table.rows.clone(),
            area: table.area.clone(),
            numbers: numbers.chain(LEFT_OVER[..left_over].to_vec()).collect(),
            flat_area: table.area.clone(),
        }
    }

    /// What both forms return.
    fn operate(&mut self, operation: &Operation) -> [u32; 2] {
        let Operation::Enter {
            tick,
            results,
            bytes,
        } = operation
        else {
            readings_archive::clear(&mut self.rows);
            let in_rows = self.rows.len() * NUMBERS;
            self.numbers[..in_rows].fill(0);
            return [0, 0];
        };
        let (rows, area) = (&mut self.rows, &mut self.area);
        let (numbers, flat_area) = (&mut self.numbers, &mut self.flat_area);
        [
            readings_archive::enter(rows, area, *tick, results, bytes),
            readings_archive::enter_flat(numbers, flat_area, *tick, results, bytes),
        ]
    }

    /// What of these differs from the table that they must be.
    fn difference(&self, wanted: &Table) -> Option<&'static str> {
        let flat = self.numbers.chunks_exact(NUMBERS).map(|row| Row {
            address: row[0],
            command: row[1] as u8,
            tick: row[2],
            count: row[3] as u8,
            place: row[4] as usize,
            primary: row[5] as u8,
            secondary: row[6] as u8,
            spare: 0,
        });
        let flat_wanted = wanted.rows.iter().map(|row| Row { spare: 0, ..*row });
        let left_over = self.numbers.chunks_exact(NUMBERS).remainder();
        let finds = |&address: &u64| {
            COMMANDS.iter().all(|&command| {
                let found = readings_archive::find(&self.rows, address, command);
                found == wanted.find(address, command).unwrap_or(wanted.rows.len())
            })
        };
        let parts = [
            (self.rows == wanted.rows, "a row"),
            (self.area == wanted.area, "the area"),
            (flat.eq(flat_wanted), "a row of flat numbers"),
            (self.flat_area == wanted.area, "the area of flat numbers"),
            (
                left_over.iter().all(|&number| number == 7),
                "what is left over",
            ),
            (ADDRESSES.iter().all(finds), "what is found"),
        ];
        parts.iter().find(|(same, _)| !same).map(|&(_, name)| name)
    }
}

#[derive(Default)]
struct Compared {
    operations: u64,
    /// By what is returned: 0 of a reading and of anything else, 15 and 20.
    entered: u64,
    not_entered: u64,
    short: u64,
    full: u64,
    differences: u64,
}

impl Compared {
    fn count(&mut self, is_reading: bool, returned: u32) {
        self.operations += 1;
        match (returned, is_reading) {
            (0, true) => self.entered += 1,
            (0, false) => self.not_entered += 1,
            (15, _) => self.short += 1,
            _ => self.full += 1,
        }
    }

    fn check(&mut self, same: bool, what: impl Fn() -> String) {
        if !same {
            self.differences += 1;
            println!("readings_compare: {}", what());
        }
    }

    /// Both forms after an operation: what they returned, and what they hold.
    fn compare(&mut self, tables: &Tables, returned: [u32; 2], refusal: u32, wanted: &Table) {
        let operation = self.operations;
        self.check(returned == [refusal, refusal], || {
            format!("operation {operation}: {returned:?}, wanted {refusal}")
        });
        let difference = tables.difference(wanted);
        self.check(difference.is_none(), || {
            format!("operation {operation}: {difference:?} differs")
        });
    }

    fn print(&self, name: &str) {
        println!(
            "readings_compare: {name}, {} operations, {} entered, {} not entered, {} refused with 15, \
             {} with 20, {} differences",
            self.operations, self.entered, self.not_entered, self.short, self.full, self.differences
        );
    }

    /// Whether each answer occurred and nothing differs.
    fn is_good(&self) -> bool {
        let occurred = [self.entered, self.not_entered, self.short, self.full];
        self.differences == 0 && occurred.iter().all(|&count| count > 0)
    }
}

// ---- the cases that others worked out

/// What the area holds at first.
fn filled(size: usize) -> Vec<u8> {
    (0..size)
        .map(|place| (place as u8).wrapping_mul(37).wrapping_add(11))
        .collect()
}

/// A case: the table as it was lent and as it must be at the end, and the operations with what each must
/// return.
struct Case {
    lent: Table,
    last: Table,
    operations: Vec<(Operation, u32)>,
}

fn numbers(fields: &[&str]) -> Vec<u64> {
    let number = |field: &&str| field.parse().expect("a number");
    fields.iter().map(number).collect()
}

fn unhexed(digits: &str) -> Vec<u8> {
    let digits = if digits == "-" { "" } else { digits };
    let byte = |at| u8::from_str_radix(&digits[2 * at..2 * at + 2], 16).expect("two digits");
    (0..digits.len() / 2).map(byte).collect()
}

impl Case {
    fn new(rows: usize, size: usize) -> Case {
        let lent = Table {
            rows: vec![Row::default(); rows],
            area: filled(size),
        };
        Case {
            last: lent.clone(),
            lent,
            operations: Vec::new(),
        }
    }

    fn read_row(table: &mut Table, fields: &[&str]) {
        let fields = numbers(fields);
        table.rows[fields[0] as usize] = Row {
            address: fields[1],
            command: fields[2] as u8,
            tick: fields[3],
            count: fields[4] as u8,
            place: fields[5] as usize,
            primary: fields.get(6).map_or(0, |&bits| bits as u8),
            secondary: fields.get(7).map_or(0, |&bits| bits as u8),
            spare: 0,
        };
    }

    fn read_frame(&mut self, event: u64, fields: &[&str], refusal: &str) {
        let data = unhexed(fields[8]);
        let header = numbers(&fields[..8]);
        let mut results = [0; 17];
        results[3] = event;
        results[4..9].copy_from_slice(&header[1..6]);
        results[9..12].copy_from_slice(&[header[7], header[6], data.len() as u64]);
        let mut bytes = [PATTERN; 255];
        bytes[..data.len()].copy_from_slice(&data);
        let enter = Operation::Enter {
            tick: header[0],
            results,
            bytes,
        };
        let refusal = refusal.parse().unwrap_or(0);
        self.operations.push((enter, refusal));
    }

    fn read_line(&mut self, line: &str) {
        let fields: Vec<&str> = line.split(' ').collect();
        match fields[..] {
            ["row", ..] => Case::read_row(&mut self.lent, &fields[1..]),
            ["is", ..] => Case::read_row(&mut self.last, &fields[1..]),
            ["data", place, digits] => {
                let place: usize = place.parse().expect("a place");
                for (place, byte) in (place..).zip(unhexed(digits)) {
                    self.last.area[place] = as_stored(place, byte);
                }
            }
            ["clear"] => self.operations.push((Operation::Clear, 0)),
            ["frame", .., refusal] => {
                self.read_frame(3, &fields[1..], refusal_of(&fields, refusal))
            }
            ["damaged", .., refusal] => {
                self.read_frame(4, &fields[1..], refusal_of(&fields, refusal));
            }
            _ => panic!("no line of a case: {line}"),
        }
    }
}

/// A second data byte is stored without the bits that are meant for one master only; the cases of item 7
/// have it with them.
fn as_stored(place: usize, byte: u8) -> u8 {
    match place % 255 {
        1 => byte & !OWN_BITS,
        _ => byte,
    }
}

/// The refusal of a frame, or a word that is no number.
fn refusal_of<'a>(fields: &[&'a str], last: &'a str) -> &'a str {
    match fields.contains(&"entered") {
        true => "entered",
        false => last,
    }
}

fn cases(text: &str) -> Vec<Case> {
    let mut cases: Vec<Case> = Vec::new();
    for line in text.lines().filter(|line| !line.starts_with('#')) {
        match line.strip_prefix("case ") {
            Some(sizes) => {
                let sizes = numbers(&sizes.split(' ').collect::<Vec<&str>>());
                cases.push(Case::new(sizes[0] as usize, sizes[1] as usize));
            }
            None => cases.last_mut().expect("a case").read_line(line),
        }
    }
    cases
}

/// Whether an operation tells a reading; the cases say it by what they want, this for what is counted.
fn reading_of(operation: &Operation) -> Option<Reading> {
    match operation {
        Operation::Clear => None,
        Operation::Enter {
            tick,
            results,
            bytes,
        } => Reading::told(*tick, results, bytes),
    }
}

/// Each form, and the table in plain Rust, must end as the case says.
fn run_cases(compared: &mut Compared, cases: &[Case], says_bits: bool) {
    for (number, case) in cases.iter().enumerate() {
        let mut tables = Tables::of(&case.lent, 0);
        let mut table = case.lent.clone();
        for (operation, refusal) in &case.operations {
            let reading = reading_of(operation);
            compared.count(reading.is_some(), *refusal);
            let returned = tables.operate(operation);
            let by_oracle = operate(&mut table, operation);
            compared.check(returned == [*refusal; 2] && by_oracle == *refusal, || {
                format!("case {number}: {returned:?} and {by_oracle}, wanted {refusal}")
            });
        }
        let last = match says_bits {
            true => case.last.clone(),
            false => with_bits(&case.last, &table),
        };
        let difference = tables.difference(&last);
        compared.check(difference.is_none() && table == last, || {
            format!("case {number}: {difference:?} differs")
        });
    }
}

/// The end of a case of item 7, whose rows say nothing of the bits that item 8 keeps apart: they are those
/// of this table.
fn with_bits(last: &Table, table: &Table) -> Table {
    let mut last = last.clone();
    for (row, bits) in last.rows.iter_mut().zip(&table.rows) {
        (row.primary, row.secondary) = (bits.primary, bits.secondary);
    }
    last
}

fn recorded(compared: &mut Compared) {
    let (item_7, item_8) = (
        cases(include_str!("data/item-07/cases.txt")),
        cases(include_str!("data/item-08/cases.txt")),
    );
    assert_eq!((item_7.len(), item_8.len()), (96, 102));
    run_cases(compared, &item_7, false);
    run_cases(compared, &item_8, true);
}

/// What a host is shown.
fn every_byte(compared: &mut Compared) {
    for stored in 0..=255 {
        for bits in 0..=255 {
            let (given, wanted) = (readings_archive::status(stored, bits), shown(stored, bits));
            compared.check(given == wanted, || {
                format!("{stored:02X} with {bits:02X} is shown as {given:02X}, wanted {wanted:02X}")
            });
        }
    }
}

// ---- random operations

fn operate(table: &mut Table, operation: &Operation) -> u32 {
    match operation {
        Operation::Clear => {
            table.clear();
            0
        }
        Operation::Enter { .. } => table.enter(reading_of(operation)),
    }
}

/// Any word with this lowest byte.
fn any_word(random: &mut Xorshift, number: u8) -> u64 {
    random.next() << 8 | u64::from(number)
}

/// What is told instead: what a tick may tell beside readings, and what no tick tells.
fn spoil(random: &mut Xorshift, results: &mut Results, bytes: &mut Bytes) {
    match random.below(10) {
        0 => results[3] = random.pick(&[0, 1, 2, 4, 259]),
        1 => results[4] = random.pick(&[0, 2, 5, 7]),
        2 => results[4] = any_word(random, results[4] as u8),
        3 => results[5] = random.pick(&[0, 2, 257]),
        4 => results[8] = random.pick(&ADDRESSES),
        5 => results[8] |= random.next() << 38,
        6 => results[10] = any_word(random, results[10] as u8),
        7 => results[11] = random.pick(&[0, 1, 256, 257]),
        8 => results[11] = any_word(random, results[11] as u8),
        _ => bytes[0] |= 0x80,
    }
}

/// Mostly readings of few keys.
fn random_operation(random: &mut Xorshift, tick: u64) -> Operation {
    if random.below(30) == 0 {
        return Operation::Clear;
    }
    let count: u8 = random.pick(&[2, 2, 3, 7, 30, 254, 255]);
    let mut bytes = [PATTERN; 255];
    bytes[..usize::from(count)].copy_from_slice(&random.bytes(count.into()));
    bytes[0] &= 0x7F;
    let mut results = [0; 17].map(|_: u64| random.next());
    let [frame_type, primary, command] =
        [&[6, 1][..], &[0, 1], &COMMANDS[..2]].map(|of| random.pick(of));
    results[3..6].copy_from_slice(&[3, frame_type.into(), 1]);
    results[6] = primary.into();
    results[8] = random.pick(&ADDRESSES[1..6]);
    results[10..12].copy_from_slice(&[command.into(), count.into()]);
    for _ in 0..random.pick(&[0, 0, 0, 1, 2]) {
        spoil(random, &mut results, &mut bytes);
    }
    Operation::Enter {
        tick: random.pick(&[tick, tick, tick, 0, u64::MAX]),
        results,
        bytes,
    }
}

/// Any content: holes, equal keys, any numbers.
fn random_table(random: &mut Xorshift) -> Table {
    let row = |random: &mut Xorshift| Row {
        address: random.pick(&ADDRESSES),
        command: random.pick(&COMMANDS),
        tick: random.next(),
        count: random.byte(),
        place: random.next() as usize,
        primary: random.byte(),
        secondary: random.byte(),
        spare: random.next() as u32,
    };
    let rows = random.below(10);
    let size =
        (255 * rows + random.pick(&[0, 0, 0, 1, 300])).saturating_sub(random.pick(&[0, 0, 1]));
    Table {
        rows: (0..rows).map(|_| row(random)).collect(),
        area: random.bytes(size),
    }
}

/// From tables that were lent with any content.
fn any_tables(compared: &mut Compared) {
    let mut random = Xorshift(0x2545_F491_4F6C_DD1D);
    for _ in 0..ROUNDS {
        let mut table = random_table(&mut random);
        let mut tables = Tables::of(&table, random.below(NUMBERS));
        for tick in 0..OPERATIONS as u64 {
            let operation = random_operation(&mut random, tick);
            let returned = tables.operate(&operation);
            let refusal = operate(&mut table, &operation);
            compared.count(reading_of(&operation).is_some(), refusal);
            compared.compare(&tables, returned, refusal, &table);
        }
    }
}

/// From cleared tables on: what a history says, without a table.
fn histories(compared: &mut Compared) {
    let mut random = Xorshift(0x9E37_79B9_7F4A_7C15);
    for round in 0..ROUNDS / 10 {
        let mut lent = random_table(&mut random);
        lent.clear();
        let is_short = lent.area.len() < 255 * lent.rows.len();
        let mut tables = Tables::of(&lent, 0);
        let mut history = History::new(lent.rows.len());
        for tick in 0..OPERATIONS as u64 {
            let operation = random_operation(&mut random, (round * OPERATIONS) as u64 + tick);
            let reading = reading_of(&operation);
            let is_reading = reading.is_some();
            let refusal = match (&operation, reading) {
                (Operation::Clear, _) => {
                    history.clear();
                    0
                }
                _ if is_short => 15,
                (_, Some(reading)) => history.enter(reading),
                _ => 0,
            };
            let returned = tables.operate(&operation);
            let wanted = Table {
                rows: history.rows(),
                area: history.area(&lent.area),
            };
            compared.count(is_reading, refusal);
            compared.compare(&tables, returned, refusal, &wanted);
        }
    }
}

fn main() -> ExitCode {
    let parts: [(&str, fn(&mut Compared)); 3] = [
        ("recorded", recorded),
        ("any_tables", any_tables),
        ("histories", histories),
    ];
    let mut good = true;
    for (name, compare) in parts {
        let mut compared = Compared::default();
        compare(&mut compared);
        compared.print(name);
        good &= compared.is_good();
    }
    let mut compared = Compared::default();
    every_byte(&mut compared);
    println!(
        "readings_compare: every_byte, {} differences",
        compared.differences
    );
    good &= compared.differences == 0;
    match good {
        true => ExitCode::SUCCESS,
        false => ExitCode::FAILURE,
    }
}
