//! Measures the archive and the oracle by turns, in one process. Each program uses a part of this.
#![allow(dead_code)]

use std::time::Instant;

const ROUNDS: usize = 15;

/// Nanoseconds of one call as medians of the rounds; the ratio of throughput, archive to oracle,
/// in each round. A ratio above 1 says that the archive is faster.
pub struct Measured {
    pub archive: f64,
    pub oracle: f64,
    pub median: f64,
    pub smallest: f64,
    pub largest: f64,
}

pub fn by_turns(
    calls: usize,
    mut by_archive: impl FnMut(),
    mut by_oracle: impl FnMut(),
) -> Measured {
    let rounds: Vec<(f64, f64)> = (0..ROUNDS)
        .map(|_| {
            (
                nanoseconds(calls, &mut by_archive),
                nanoseconds(calls, &mut by_oracle),
            )
        })
        .collect();
    let ratios = || rounds.iter().map(|(archive, oracle)| oracle / archive);
    Measured {
        archive: median(rounds.iter().map(|round| round.0).collect()),
        oracle: median(rounds.iter().map(|round| round.1).collect()),
        median: median(ratios().collect()),
        smallest: ratios().fold(f64::INFINITY, f64::min),
        largest: ratios().fold(0.0, f64::max),
    }
}

pub fn nanoseconds(calls: usize, mut call: impl FnMut()) -> f64 {
    let start = Instant::now();
    for _ in 0..calls {
        call();
    }
    start.elapsed().as_nanos() as f64 / calls as f64
}

pub fn median(mut numbers: Vec<f64>) -> f64 {
    numbers.sort_by(f64::total_cmp);
    numbers[numbers.len() / 2]
}
