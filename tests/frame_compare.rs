//! Compares the archive with the oracle: answer, end and whole buffer of the writer, answer and
//! all fields of the reader. The inputs are the same in every run.

mod archive;
mod frames;
#[path = "oracles.rs"]
mod oracles;

use frames::*;
use oracles::frame_oracle::{self, *};
use std::process::ExitCode;

const WRITE_ANSWERS: [u32; 7] = [
    TAKEN,
    REFUSED_PREAMBLE,
    REFUSED_ADDRESS,
    REFUSED_DATA_LONG,
    REFUSED_DATA_LENGTH,
    REFUSED_NO_DELIMITER,
    REFUSED_BUFFER_SHORT,
];
const READ_ANSWERS: [u32; 5] = [
    TAKEN,
    REFUSED_FEW_PREAMBLES,
    REFUSED_NO_DELIMITER,
    REFUSED_ENDS_EARLY,
    REFUSED_UNSOUND,
];
const NO_TYPE: u8 = 3;

/// Bytes on each side of the writer's buffer that belong to nobody.
const GUARD: usize = 16;
const LARGEST_BUFFER: usize = 400;
const PATTERN: [u8; GUARD + LARGEST_BUFFER + GUARD] = pattern();
const PATTERN_END: usize = 0x5EED_5EED;
const PATTERN_FIELDS: Fields = [0xA5A5_5A5A_0FF0_F00F; 11];

const DIFFERENCES_SHOWN: u64 = 5;

const fn pattern<const SIZE: usize>() -> [u8; SIZE] {
    let mut bytes = [0; SIZE];
    let mut i = 0;
    while i < SIZE {
        bytes[i] = (i * 89 + 0x35) as u8;
        i += 1;
    }
    bytes
}

/// What the writer is asked.
#[derive(Clone)]
struct Request {
    preamble: usize,
    frame_type: u8,
    long_address: bool,
    primary: bool,
    burst: bool,
    address: u64,
    command: u8,
    data: Vec<u8>,
    size: usize,
    place: usize,
}

impl Request {
    /// A request that is taken.
    fn sound(random: &mut Xorshift) -> Request {
        let long_address = random.flag();
        let count = 2 + random.below(254);
        Request {
            preamble: 5 + random.below(16),
            frame_type: random.pick(&TYPES),
            long_address,
            primary: random.flag(),
            burst: random.flag(),
            address: random.next() >> if long_address { 26 } else { 58 },
            command: random.byte(),
            data: random.bytes(count),
            size: LONGEST_FRAME + 40,
            place: random.below(40),
        }
    }

    fn length(&self) -> usize {
        frame_length(self.preamble, self.long_address, self.data.len())
    }

    /// Makes the buffer end `spare` bytes behind the frame, or before its end if below 0.
    fn fit(&mut self, spare: isize) {
        self.size = (self.place + self.length())
            .saturating_add_signed(spare)
            .min(LARGEST_BUFFER);
    }

    fn describe(&self) -> String {
        format!(
            "preamble {} type {} long {} primary {} burst {} address {:#x} command {:#x} \
             size {} place {} data {}",
            self.preamble,
            self.frame_type,
            self.long_address,
            self.primary,
            self.burst,
            self.address,
            self.command,
            self.size,
            self.place,
            hex(&self.data)
        )
    }
}

type Write = fn(usize, u8, bool, bool, bool, u64, u8, &[u8], &mut [u8], usize, &mut usize) -> u32;

/// What a writer left behind: its answer, and everything that it might have changed.
#[derive(PartialEq)]
struct Written {
    answer: u32,
    end: usize,
    arena: [u8; PATTERN.len()],
}

impl Written {
    fn by(write: Write, request: &Request) -> Written {
        let (mut end, mut arena) = (PATTERN_END, PATTERN);
        let answer = write(
            request.preamble,
            request.frame_type,
            request.long_address,
            request.primary,
            request.burst,
            request.address,
            request.command,
            &request.data,
            &mut arena[GUARD..][..request.size],
            request.place,
            &mut end,
        );
        Written { answer, end, arena }
    }

    fn describe(&self) -> String {
        format!(
            "answer {} end {} buffer {}",
            self.answer,
            self.end,
            hex(&self.arena)
        )
    }
}

struct Family {
    name: &'static str,
    inputs: u64,
}

#[derive(Default)]
struct Comparison {
    families: Vec<Family>,
    write_answers: [u64; 16],
    read_answers: [u64; 16],
    differences: u64,
    /// Every frame that a writer family wrote.
    frames: Vec<Vec<u8>>,
}

impl Comparison {
    fn family(&mut self, name: &'static str) {
        self.families.push(Family { name, inputs: 0 });
    }

    fn count_input(&mut self) {
        if let Some(family) = self.families.last_mut() {
            family.inputs += 1;
        }
    }

    fn inputs(&self) -> u64 {
        self.families.iter().map(|family| family.inputs).sum()
    }

    fn write(&mut self, request: &Request) {
        let by_archive = Written::by(archive::write, request);
        let by_oracle = Written::by(frame_oracle::write, request);
        self.count_input();
        self.write_answers[by_oracle.answer as usize] += 1;
        if by_archive != by_oracle {
            self.difference(|| {
                [
                    request.describe(),
                    by_archive.describe(),
                    by_oracle.describe(),
                ]
            });
        } else if by_oracle.answer == TAKEN {
            let frame = &by_oracle.arena[GUARD + request.place..GUARD + by_oracle.end];
            self.frames.push(frame.to_vec());
        }
    }

    fn read(&mut self, bytes: &[u8]) {
        let (mut by_archive, mut by_oracle) = (PATTERN_FIELDS, PATTERN_FIELDS);
        let archive_answer = archive::read(bytes, &mut by_archive);
        let oracle_answer = frame_oracle::read(bytes, &mut by_oracle);
        self.count_input();
        self.read_answers[oracle_answer as usize] += 1;
        if (archive_answer, by_archive) != (oracle_answer, by_oracle) {
            self.difference(|| {
                [
                    format!("bytes {}", hex(bytes)),
                    format!("answer {archive_answer} fields {by_archive:x?}"),
                    format!("answer {oracle_answer} fields {by_oracle:x?}"),
                ]
            });
        }
    }

    fn read_at_every_length(&mut self, bytes: &[u8]) {
        for length in 0..=bytes.len() {
            self.read(&bytes[..length]);
        }
    }

    fn difference(&mut self, describe: impl FnOnce() -> [String; 3]) {
        self.differences += 1;
        if self.differences <= DIFFERENCES_SHOWN {
            let [input, archive, oracle] = describe();
            println!("difference\n  input    {input}\n  archive  {archive}\n  oracle   {oracle}");
        }
    }

    /// Prints the counts; tells whether all agreed and every answer occurred.
    fn report(&self) -> bool {
        println!("{:<44}{:>10}", "family", "inputs");
        for family in &self.families {
            println!("{:<44}{:>10}", family.name, family.inputs);
        }
        let writes = occurrences("write", &WRITE_ANSWERS, &self.write_answers);
        let reads = occurrences("read", &READ_ANSWERS, &self.read_answers);
        println!(
            "frame_compare: {} inputs, {} differences",
            self.inputs(),
            self.differences
        );
        writes && reads && self.differences == 0
    }
}

/// Prints how often each answer occurred; tells whether each did.
fn occurrences(function: &str, answers: &[u32], counts: &[u64; 16]) -> bool {
    println!("{:<44}{:>10}", format!("{function}: answer"), "times");
    let mut all = true;
    for &answer in answers {
        let times = counts[answer as usize];
        println!("{answer:>6}{times:>48}");
        if times == 0 {
            println!("frame_compare: {function} never answered {answer}");
            all = false;
        }
    }
    all
}

fn hex(bytes: &[u8]) -> String {
    bytes.iter().map(|byte| format!("{byte:02x}")).collect()
}

fn write_types(comparison: &mut Comparison, random: &mut Xorshift) {
    comparison.family("write: every type, all flags, preambles 0-30");
    for frame_type in 0..=u8::MAX {
        for flags in 0..8 {
            for preamble in 0..=30 {
                comparison.write(&Request {
                    preamble,
                    frame_type,
                    long_address: flags & 4 != 0,
                    primary: flags & 2 != 0,
                    burst: flags & 1 != 0,
                    address: random.next() >> 58,
                    ..Request::sound(random)
                });
            }
        }
    }
}

fn write_data_lengths(comparison: &mut Comparison, random: &mut Xorshift) {
    comparison.family("write: data lengths 0-256, preambles 0-30");
    for count in 0..=256 {
        for frame_type in [STX, ACK, BACK, NO_TYPE] {
            for preamble in 0..=30 {
                comparison.write(&Request {
                    preamble,
                    frame_type,
                    data: random.bytes(count),
                    ..Request::sound(random)
                });
            }
        }
    }
}

fn write_addresses(comparison: &mut Comparison, random: &mut Xorshift) {
    comparison.family("write: addresses at each power of two");
    for exponent in 0..u64::BITS {
        let power = 1u64 << exponent;
        for address in [
            power - 1,
            power,
            power + 1,
            power | random.next() >> (63 - exponent),
        ] {
            for flags in 0..8 {
                comparison.write(&Request {
                    long_address: flags & 4 != 0,
                    primary: flags & 2 != 0,
                    burst: flags & 1 != 0,
                    address,
                    ..Request::sound(random)
                });
            }
        }
    }
}

fn write_places(comparison: &mut Comparison, random: &mut Xorshift) {
    comparison.family("write: places and buffer sizes at the edges");
    for _ in 0..500 {
        let mut request = Request::sound(random);
        let length = request.length();
        for place in [0, 1, 2, 7, 31] {
            request.place = place;
            for spare in -4..=4 {
                request.fit(spare);
                comparison.write(&request);
            }
        }
        for size in [0, 1, length - 1, length, length + 1, length + 9] {
            request.size = size;
            let around_end = size.saturating_sub(length + 2)..=size + 2;
            let largest = [
                usize::MAX,
                usize::MAX - 1,
                usize::MAX - length,
                usize::MAX / 2 + 1,
            ];
            for place in around_end.chain(largest) {
                request.place = place;
                comparison.write(&request);
            }
        }
    }
}

fn write_random(comparison: &mut Comparison, random: &mut Xorshift) {
    comparison.family("write: several edges at once, random");
    for _ in 0..400_000 {
        let mut request = Request::sound(random);
        if random.below(4) == 0 {
            request.preamble = random.below(31);
        }
        if random.below(4) == 0 {
            request.address = random.next() >> random.pick(&[0, 24, 25, 26, 56, 57, 58]);
        }
        if random.below(4) == 0 {
            let count = random.pick(&[0, 1, 2, 3, 254, 255, 256, 257, 300]);
            request.data = random.bytes(count);
        }
        if random.below(4) == 0 {
            request.frame_type = random.byte() & 0x87;
        }
        if random.below(4) == 0 {
            request.fit(random.below(9) as isize - 4);
        }
        comparison.write(&request);
    }
}

fn read_written(comparison: &mut Comparison) {
    comparison.family("read: written frames at every length");
    let mut frames = std::mem::take(&mut comparison.frames);
    frames.dedup(); // one frame is written at many places
    for frame in frames {
        comparison.read_at_every_length(&frame);
    }
}

fn read_expansion(comparison: &mut Comparison, random: &mut Xorshift) {
    comparison.family("read: expansion bytes 0-3 at every length");
    for high_bits in 0..8 {
        for frame_type in TYPES {
            for preamble in 0..=30 {
                for count in [0, 1, 2, 3, 12, 254, 255, random.byte()] {
                    let body = body(random, high_bits << 5 | frame_type, count);
                    comparison.read_at_every_length(&sealed(preamble, &body));
                }
            }
        }
    }
}

fn read_preambles(comparison: &mut Comparison, random: &mut Xorshift) {
    comparison.family("read: preambles 0-30, 255-258 and 1000");
    for _ in 0..2_000 {
        let (delimiter, count) = (delimiter(random), count(random));
        let body = body(random, delimiter, count);
        for preamble in (0..=30).chain(255..=258).chain([1000]) {
            comparison.read(&sealed(preamble, &body));
        }
    }
    for preamble in 0..=1000 {
        comparison.read(&vec![PREAMBLE; preamble]);
    }
}

fn read_damaged(comparison: &mut Comparison, random: &mut Xorshift) {
    comparison.family("read: each bit of a frame turned");
    for _ in 0..1_500 {
        let mut frame = random_frame(random);
        for bit in 0..frame.len() * 8 {
            frame[bit / 8] ^= 1 << (bit % 8);
            comparison.read(&frame);
            frame[bit / 8] ^= 1 << (bit % 8);
        }
    }
}

fn read_trailing(comparison: &mut Comparison, random: &mut Xorshift) {
    comparison.family("read: bytes behind the frame");
    for _ in 0..20_000 {
        let frame = random_frame(random);
        let some = 1 + random.below(40);
        for behind in [
            vec![0],
            vec![PREAMBLE; some],
            random.bytes(some),
            random_frame(random),
        ] {
            comparison.read(&[&frame[..], &behind].concat());
        }
    }
}

fn read_headers(comparison: &mut Comparison, random: &mut Xorshift) {
    comparison.family("read: every delimiter with every count");
    for delimiter in 0..=u8::MAX {
        for count in 0..=u8::MAX {
            let mut frame = sealed(2, &body(random, delimiter, count));
            comparison.read(&frame);
            frame.pop();
            comparison.read(&frame);
            frame.push(random.byte());
            comparison.read(&frame);
        }
    }
    comparison.family("read: mutated headers");
    for _ in 0..300_000 {
        let mut frame = random_frame(random);
        for _ in 0..=random.below(3) {
            let at = random.below(frame.len().min(34));
            frame[at] = random.byte();
        }
        comparison.read(&frame);
    }
}

fn read_random(comparison: &mut Comparison, random: &mut Xorshift) {
    comparison.family("read: random bytes");
    for _ in 0..500_000 {
        let mut bytes = vec![PREAMBLE; random.below(4)];
        for _ in 0..random.below(40) {
            let byte = match random.below(4) {
                0 => PREAMBLE,
                1 => delimiter(random),
                2 => random.byte() & 0x0F,
                _ => random.byte(),
            };
            bytes.push(byte);
        }
        comparison.read(&bytes);
    }
}

fn main() -> ExitCode {
    let mut comparison = Comparison::default();
    let mut random = Xorshift(0x2545_F491_4F6C_DD1D);
    write_types(&mut comparison, &mut random);
    write_data_lengths(&mut comparison, &mut random);
    write_addresses(&mut comparison, &mut random);
    write_places(&mut comparison, &mut random);
    write_random(&mut comparison, &mut random);
    read_written(&mut comparison);
    read_expansion(&mut comparison, &mut random);
    read_preambles(&mut comparison, &mut random);
    read_damaged(&mut comparison, &mut random);
    read_trailing(&mut comparison, &mut random);
    read_headers(&mut comparison, &mut random);
    read_random(&mut comparison, &mut random);
    match comparison.report() {
        true => ExitCode::SUCCESS,
        false => ExitCode::FAILURE,
    }
}
