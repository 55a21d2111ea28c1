//! A mix of random programs: sixteen of 64 records in one store, each run for
//! a while in its turn. No single jump pattern can be learnt from it.

use super::rows::{start, step, Row};
use crate::event::Event;
use crate::plain::{number, Command, RECORDS};
use crate::random::Random;

const PROGRAMS: usize = 16;
const LENGTH: usize = RECORDS / PROGRAMS;
/// A program's subroutine, from here to its last record.
const SUBROUTINE: usize = LENGTH - 8;

/// The row of the mix.
pub fn row(seed: u64) -> Row {
    let mut random = Random::new(seed);
    let mut program = Vec::with_capacity(RECORDS);
    let mut events = Vec::new();
    for first in (0..RECORDS).step_by(LENGTH) {
        program.extend((0..LENGTH).map(|at| record(&mut random, first, at)));
        events.extend([start(first), Event::Run(400)]);
    }
    // Position reached and a limit switch on, so that no WAIT holds.
    let sample = [10, 10, 1, 1, 0, 1, 240, 30, 1, 0, 40_000, 5, 6, 0, 1, 0];
    let before = vec![Event::Sample(sample)];
    Row { name: "mix", unit: "step", program, before, events, times: 10 }
}

/// The record `at` so far into the program that begins at `first`.
fn record(random: &mut Random, first: usize, at: usize) -> Command {
    let target = |at: usize| (first + at) as i32;
    match at {
        _ if at == LENGTH - 1 => step(number::RSUB, 0, 0, 0),
        _ if at == SUBROUTINE - 1 => step(number::JA, 0, 0, target(0)),
        _ if at >= SUBROUTINE => command(random),
        _ if random.once_in(12) => step(number::CSUB, 0, 0, target(SUBROUTINE)),
        _ if random.once_in(5) => {
            let ahead = random.between(at as i64 + 1, SUBROUTINE as i64 - 1) as usize;
            step(number::JC, random.below(12) as u8, 0, target(ahead))
        }
        _ => command(random),
    }
}

/// A command that leads to the next record; a few are refused.
pub fn command(random: &mut Random) -> Command {
    let value = random.below(100_000) as i32;
    let variable = random.below(58) as u8;
    let axis = random.pick(&[11, 43, 44, 50, 52, 53, 56, 93, 100, 209, 240]);
    match random.below(40) {
        0..8 => step(number::CALC, random.below(10) as u8, 0, value),
        8..13 => step(number::CALCX, random.below(11) as u8, 0, 0),
        13..17 => step(number::COMP, 0, 0, value),
        17..19 => step(number::SAP, axis, 0, value),
        19..22 => step(number::GAP, axis, 0, 0),
        22..24 => step(number::SGP, variable, 2, value),
        24..27 => step(number::GGP, variable, 2, 0),
        27..29 => step(number::AGP, variable, 2, 0),
        29 => step(number::AAP, axis, 0, 0),
        30 => step(number::STGP, variable, 2, 0),
        31 => step(number::RSGP, variable, 2, 0),
        32 => step(number::SIO, random.below(4) as u8, 2, value & 1),
        33..35 => step(number::GIO, random.below(3) as u8, 1, 0),
        35 => step(number::MVP, random.below(2) as u8, 0, value),
        36 => step(random.pick(&[number::ROR, number::ROL, number::MST]), 0, 0, value % 5000),
        37 => step(number::CLE, random.below(5) as u8, 0, 0),
        38 => step(number::WAIT, random.below(4) as u8, 0, 0),
        _ => step(random.pick(&[number::STAP, number::RSAP]), 56, 0, 0),
    }
}
