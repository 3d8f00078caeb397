//! Frames written and read per second, through the archive and by the oracle in plain Rust.

#[path = "../tests/archive.rs"]
mod archive;
#[path = "../tests/frame_oracle.rs"]
mod frame_oracle;
mod rounds;

use frame_oracle::{frame_length, ACK, LONGEST_FRAME, STX};
use rounds::by_turns;
use std::hint::black_box;

const CALLS: usize = 500_000;

struct Frame {
    name: &'static str,
    preamble: usize,
    frame_type: u8,
    long_address: bool,
    address: u64,
    data: Vec<u8>,
}

impl Frame {
    fn length(&self) -> usize {
        frame_length(self.preamble, self.long_address, self.data.len())
    }
}

fn frames() -> [Frame; 3] {
    let data = |count: u8| (0..count).map(|byte| byte.wrapping_mul(37)).collect();
    [
        Frame {
            name: "shortest",
            preamble: 5,
            frame_type: STX,
            long_address: false,
            address: 1,
            data: data(0),
        },
        Frame {
            name: "usual",
            preamble: 5,
            frame_type: ACK,
            long_address: true,
            address: 0x26_1234_5678,
            data: data(12),
        },
        Frame {
            name: "longest",
            preamble: 20,
            frame_type: ACK,
            long_address: true,
            address: 0x26_1234_5678,
            data: data(255),
        },
    ]
}

/// One call of one of the two writers.
macro_rules! written_by {
    ($write:path, $frame:expr, $buffer:expr) => {{
        let (frame, mut end) = (black_box($frame), 0);
        let answer = $write(
            frame.preamble,
            frame.frame_type,
            frame.long_address,
            true,
            false,
            frame.address,
            3,
            &frame.data,
            black_box($buffer),
            0,
            &mut end,
        );
        black_box((answer, end));
    }};
}

/// One call of one of the two readers.
macro_rules! read_by {
    ($read:path, $bytes:expr) => {{
        let mut fields = [0; 11];
        black_box($read(black_box($bytes), &mut fields));
        black_box(&fields);
    }};
}

/// Measures the two by turns and prints one row.
fn compare(operation: &str, frame: &Frame, by_archive: impl FnMut(), by_oracle: impl FnMut()) {
    let measured = by_turns(CALLS, by_archive, by_oracle);
    println!(
        "{:<6} {:<9} {:>5}  {:>7.1}  {:>6.1}  {:>6.2}  {:>8.2}  {:>7.2}",
        operation,
        frame.name,
        frame.length(),
        measured.archive,
        measured.oracle,
        measured.median,
        measured.smallest,
        measured.largest,
    );
}

fn main() {
    println!("                         ns per frame    throughput archive/oracle");
    println!("call   frame     bytes  archive  oracle  median  smallest  largest");
    for frame in &frames() {
        let mut buffers = [[0; LONGEST_FRAME]; 2];
        let [archive_buffer, oracle_buffer] = &mut buffers;
        compare(
            "write",
            frame,
            || written_by!(archive::write, frame, archive_buffer),
            || written_by!(frame_oracle::write, frame, oracle_buffer),
        );
        let bytes = &buffers[1][..frame.length()];
        compare(
            "read",
            frame,
            || read_by!(archive::read, bytes),
            || read_by!(frame_oracle::read, bytes),
        );
    }
}
