//! The exclusive-or of some bytes: the archive by words and byte by byte, plain Rust by words and, for
//! the long rows, a copy of the same bytes. The start varies from call to call.

#[path = "../tests/check_archive.rs"]
mod check_archive;
#[path = "../tests/check_oracle.rs"]
mod check_oracle;
mod rounds;

use rounds::{median, nanoseconds};
use std::arch::asm;
use std::hint::black_box;

const COUNTS: [usize; 6] = [5, 9, 22, 263, 4_096, 65_536];
const LONGEST: usize = 65_536;
/// From here on a copy is measured too.
const LONG: usize = 4_096;
/// The starts are 0 to 63, each behind one that is 7 below it.
const STARTS: usize = 64;
const STEP: usize = 7;
/// Many short rounds, so that most of them are not interrupted: so many bytes in each, and for each
/// call so many more.
const ROUNDS: usize = 401;
const ROUND: usize = 2_000_000;
const CALL: usize = 100;

/// A round of one of the forms: so many calls, each from the next start; nanoseconds of one.
fn round(calls: usize, mut call: impl FnMut(usize) -> u8) -> f64 {
    let (mut start, mut sum) = (0, 0);
    let time = nanoseconds(calls, || {
        // A call must not wait for the result of the one before it, as code does that sets only the
        // low byte of the result's register.
        // SAFETY: it only clears a register that is free here.
        unsafe { asm!("xor eax, eax", out("eax") _) };
        start = (start + STEP) % STARTS;
        sum ^= call(start);
    });
    black_box(sum);
    time
}

/// What the rounds of a form took.
struct Form {
    times: Vec<f64>,
}

impl Form {
    fn smallest(&self) -> f64 {
        self.times.iter().copied().fold(f64::INFINITY, f64::min)
    }

    /// The throughput of another form to this one's: of the smallest times, and the median of the rounds.
    fn below(&self, other: &Form) -> String {
        let rounds = self.times.iter().zip(&other.times);
        format!(
            "{:>8.2} {:>6.2}",
            self.smallest() / other.smallest(),
            median(rounds.map(|(own, other)| own / other).collect()),
        )
    }
}

/// The forms by turns: the archive by words and by bytes, plain Rust by words, a copy.
fn measure(bytes: &[u8], copied: &mut [u8], count: usize) -> [Form; 4] {
    let calls = ROUND / (count + CALL);
    let mut forms = [(); 4].map(|()| Form { times: Vec::new() });
    for _ in 0..ROUNDS {
        let times = [
            round(calls, |start| {
                check_archive::by_words(start as u8, bytes, start, count)
            }),
            round(calls, |start| {
                check_archive::by_bytes(start as u8, bytes, start, count)
            }),
            round(calls, |start| {
                check_oracle::by_words(start as u8, bytes, start, count)
            }),
            round(calls, |start| {
                copied[..count].copy_from_slice(&bytes[start..start + count]);
                black_box(&copied)[0]
            }),
        ];
        for (form, time) in forms.iter_mut().zip(times) {
            form.times.push(time);
        }
    }
    forms
}

fn main() {
    let bytes: Vec<u8> = (0..LONGEST + STARTS)
        .map(|place| (place * 37 >> 3) as u8)
        .collect();
    let mut copied = vec![0; LONGEST];
    println!("          smallest ns of a call           words to bytes   words to plain");
    println!(" bytes    words    bytes    plain     copy smallest median smallest median");
    for count in COUNTS {
        let [words, by_bytes, plain, copy] = measure(&bytes, &mut copied, black_box(count));
        let copy = match count {
            LONG.. => format!("{:.1}", copy.smallest()),
            _ => "-".to_string(),
        };
        println!(
            "{count:>6} {:>8.2} {:>8.2} {:>8.2} {copy:>8} {} {}",
            words.smallest(),
            by_bytes.smallest(),
            plain.smallest(),
            by_bytes.below(&words),
            plain.below(&words),
        );
    }
}
