//! Loads from seed numbers: the archive against plain Rust, by the number of records. Each call has
//! another seed.

#[path = "../tests/load_archive.rs"]
mod load_archive;
#[path = "../tests/load_oracle.rs"]
mod load_oracle;
mod rounds;

use rounds::by_turns;
use std::hint::black_box;

const COUNTS: [u32; 3] = [64, 1_024, 65_536];
/// Records in a round.
const ROUND: usize = 2_000_000;

fn main() {
    let mut script = vec![0; 4 * 65_536];
    let mut other = script.clone();
    println!("records  archive ns  plain ns   ratio  smallest  largest  archive records a second");
    for count in COUNTS {
        let (mut seed, mut other_seed) = (1, 1);
        let measured = by_turns(
            ROUND / count as usize,
            || {
                seed = load_oracle::draw(seed);
                load_archive::load(black_box(seed), black_box(count), black_box(&mut script));
            },
            || {
                other_seed = load_oracle::draw(other_seed);
                load_oracle::load(
                    black_box(other_seed),
                    black_box(count),
                    black_box(&mut other),
                );
            },
        );
        println!(
            "{count:>7} {:>11.0} {:>9.0} {:>7.2} {:>9.2} {:>8.2} {:>25.0}",
            measured.archive,
            measured.oracle,
            measured.median,
            measured.smallest,
            measured.largest,
            f64::from(count) * 1e9 / measured.archive,
        );
    }
}
