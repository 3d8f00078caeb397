//! Runs the programs play, convert and load, which rt builds in their folders, with their arguments: the
//! plays of tests/data/item-11, words that are no record size, conversions there and back, and scripts
//! that are longer than the programs' room.

use std::fs;
use std::io::Write;
use std::process::{Command, ExitCode, Stdio};
use std::thread;

/// Document 01's example.
const EXAMPLE: [u8; 12] = [0, 0, 1, 0, 0, 0x2C, 0x22, 2, 0, 0x3C, 0, 0];
const LISTING: &[u8] = b"tick party type master length\n42 0 STX 0 10\n55 2 ACK 0 12\n";

/// How many records the programs hold.
const HELD: u32 = 524_289;

/// What a program writes for this input.
fn run(program: &str, arguments: &[&str], input: Vec<u8>) -> Vec<u8> {
    let mut child = Command::new(format!("crates/{program}/out/{program}"))
        .args(arguments)
        .stdin(Stdio::piped())
        .stdout(Stdio::piped())
        .spawn()
        .expect("rt ci has built the programs");
    let mut stdin = child.stdin.take().unwrap();
    // a program that refuses may not read all
    let writer = thread::spawn(move || drop(stdin.write_all(&input)));
    let output = child.wait_with_output().unwrap();
    writer.join().unwrap();
    assert!(
        output.status.success(),
        "{program} {arguments:?}: {}",
        output.status
    );
    output.stdout
}

/// Requests of the primary in so many ticks, and a stop: a good script of the new form.
fn long_script(calls: u32) -> Vec<u8> {
    let mut script = Vec::new();
    for tick in 0..calls {
        script.extend(tick.to_be_bytes());
        script.extend([0x01, 0]);
    }
    script.extend(calls.to_be_bytes());
    script.extend([0, 0]);
    script
}

fn main() -> ExitCode {
    let mut runs = 0;
    let mut differences = 0;
    let mut check = |what: &str, given: Vec<u8>, wanted: &[u8]| {
        runs += 1;
        if given != wanted {
            differences += 1;
            println!("different: {what}");
        }
    };
    let example = || EXAMPLE.to_vec();
    check("play", run("play", &[], example()), LISTING);
    check("play 4", run("play", &["4"], example()), LISTING);
    for words in [&["5"][..], &["44"], &["six"], &[""], &["0"], &["4", "6"]] {
        check(
            &format!("play {words:?}"),
            run("play", words, example()),
            b"24\n",
        );
        check(
            &format!("convert {words:?}"),
            run("convert", words, example()),
            b"24\n",
        );
    }
    check("convert", run("convert", &[], example()), b"24\n");

    let index = include_str!("data/item-11/plays/INDEX.txt");
    for name in index
        .lines()
        .map(|line| line.split([' ', ':']).next().unwrap())
    {
        let script = fs::read(format!("tests/data/item-11/plays/{name}.bin")).unwrap();
        let listing = fs::read(format!("tests/data/item-11/plays/{name}.txt")).unwrap();
        check(name, run("play", &["6"], script), &listing);
    }

    // a load in both forms
    let load = run("load", &["1", "64"], Vec::new());
    let turned = run("convert", &["4"], load.clone());
    let played = run("play", &[], load.clone());
    check(
        "a load in the new form",
        run("play", &["6"], turned.clone()),
        &played,
    );
    check("a load turned back", run("convert", &["6"], turned), &load);

    // a script that just fits, and longer ones, good and bad
    let mut busiest = Vec::new();
    for tick in 0..65_536u32 {
        for party in 0..8u8 {
            busiest.extend(tick.to_be_bytes());
            busiest.extend([party << 4 | if party < 2 { 1 } else { 2 }, 2]);
        }
    }
    busiest.extend(65_535u32.to_be_bytes());
    busiest.extend([0, 0]);
    let last = busiest.len() - 6;
    assert!(busiest.len() == 6 * HELD as usize);
    let back = run("convert", &["6"], busiest.clone());
    let again = run("convert", &["4"], back.clone());
    check("the longest script there and back", again, &busiest);
    busiest[last + 5] = 1;
    check(
        "the longest script, bad",
        run("play", &["6"], busiest),
        b"16\n",
    );
    for calls in [HELD, HELD + 1, 3 * HELD] {
        let good = long_script(calls);
        check("a long script", run("play", &["6"], good.clone()), b"15\n");
        check(
            "a long script",
            run("convert", &["6"], good.clone()),
            b"25\n",
        );
        for place in [100, 6 * HELD as usize + 4, good.len() - 8, good.len() - 1] {
            let mut bad = good.clone();
            bad[place] = 0xEE;
            check(
                "a long script, bad",
                run("play", &["6"], bad.clone()),
                b"16\n",
            );
            check("a long script, bad", run("convert", &["6"], bad), b"16\n");
        }
        // early, and where the programs' first piece of 524,288 records ends
        for record in [9, HELD as usize - 2, HELD as usize - 1] {
            let (gone, left) = good.split_at(6 * record);
            let twice = [gone, &left[..6], left].concat();
            check("a call twice", run("play", &["6"], twice), b"16\n");
            let stopped = [gone, &left[..4], &[0, 0][..], left].concat();
            check("a stop between", run("play", &["6"], stopped), b"16\n");
        }
        let cut = good[..good.len() - 6].to_vec();
        check("no stop", run("play", &["6"], cut), b"16\n");
    }
    let old = vec![0; 6 * HELD as usize + 10];
    check("a long old script", run("play", &[], old.clone()), b"16\n");
    check("a long old script", run("convert", &["4"], old), b"16\n");
    println!("programs: {runs} runs, {differences} differences");
    if differences == 0 {
        ExitCode::SUCCESS
    } else {
        ExitCode::FAILURE
    }
}
