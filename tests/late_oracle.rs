//! A run of the link in plain Rust in which each master starts at a tick of its own, with FSK and
//! three retries, as the number of each tick. It shares nothing with the archive.

use crate::oracles::device_oracle::{Device, Wish};
use crate::oracles::frame_oracle;
use crate::oracles::master_oracle::Master;
use crate::oracles::tick_oracle::{Damage, Heard};
use crate::tick_list::{Call, Tick, REVISION, SENDS, TAKEN};

const MASTERS: usize = 2;

fn ask(master: &mut Master, call: &Option<Call>) -> bool {
    let Some(Call::Ask {
        preamble,
        long_address,
        address,
        command,
        data,
    }) = call
    else {
        return false;
    };
    let preambles = usize::from(*preamble);
    let answer = master.ask(preambles, REVISION, *long_address, *address, *command, data);
    answer == frame_oracle::TAKEN
}

/// The devices' polling and unique addresses are given in the slots' order. `sends` is called with the
/// tick, the party and the character of each that is sent.
pub fn numbers(
    starts: [usize; MASTERS],
    addresses: &[(u64, u64)],
    ticks: &[Tick],
    mut sends: impl FnMut(usize, usize, u8),
) -> Vec<u8> {
    let mut masters = [Master::start(true), Master::start(false)];
    let mut devices: Vec<Device> = addresses
        .iter()
        .map(|&(polling, unique)| Device::start(polling, unique))
        .collect();
    let mut heard = Heard::Silence;
    let mut numbers = Vec::with_capacity(ticks.len());
    for (tick, calls) in ticks.iter().enumerate() {
        let mut number = 0;
        let mut sent = Vec::new();
        for (party, master) in masters.iter_mut().enumerate() {
            if tick < starts[party] {
                continue;
            }
            master.take(heard);
            if ask(master, &calls[party]) {
                number += TAKEN[party];
            }
            if let Some(character) = master.send() {
                number += SENDS[party];
                sent.push(character);
                sends(tick, party, character);
            }
        }
        for (at, device) in devices.iter_mut().enumerate() {
            let party = MASTERS + at;
            device.take(heard);
            if let Some(Call::Answer { data }) = &calls[party] {
                device.answer(data, Wish::AsItIs);
            }
            if let Some(character) = device.send() {
                sent.push(character);
                sends(tick, party, character);
            }
        }
        heard = match sent[..] {
            [] => Heard::Silence,
            [character] => Heard::Character(character),
            _ => Heard::Damaged(0, Damage::Framing),
        };
        numbers.push(number + sent.len() as u8);
    }
    numbers
}
