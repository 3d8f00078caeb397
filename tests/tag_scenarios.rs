//! The scenarios of document 02's item 6: what every party does in each tick, as scenario_run.rs says.

mod calls;
mod engine_archive;
#[path = "oracles.rs"]
mod oracles;
mod scenario_run;
mod scenarios;

use std::process::ExitCode;

const FOLDER: &str = "tests/data/item-06";
const KINDS: [&str; 12] = [
    "tag", "two", "wish", "bit7", "none", "burst", "harm", "foreign", "clean", "many", "damage",
    "hand",
];

fn main() -> ExitCode {
    let scenarios = scenarios::stored(FOLDER, &KINDS);
    match scenario_run::agree("tag_scenarios", &scenarios) {
        true => ExitCode::SUCCESS,
        false => ExitCode::FAILURE,
    }
}
