//! The programs that the rows run and check.

use super::rows::step;
use crate::plain::{number, Command, RECORDS};
use crate::random::Random;

fn jump(target: usize) -> Command {
    step(number::JA, 0, 0, target as i32)
}

/// Counts to a hundred, over and over.
pub fn counting() -> Vec<Command> {
    vec![
        step(number::CALC, 0, 0, 1),
        step(number::COMP, 0, 0, 100),
        step(number::JC, 5, 0, 4),
        jump(0),
        step(number::CALC, 5, 0, 0xff),
        jump(6),
        step(number::CALC, 9, 0, 0),
        jump(0),
    ]
}

/// Eight calls within each other, eight returns, and again.
pub fn calls() -> Vec<Command> {
    let mut program = vec![step(number::CSUB, 0, 0, 2), jump(0)];
    for call in 1..8 {
        program.push(step(number::CSUB, 0, 0, 2 * call + 2));
        program.push(step(number::RSUB, 0, 0, 0));
    }
    program.push(step(number::RSUB, 0, 0, 0));
    program
}

/// A leveller: reads a tilt, moves against it, waits until it is there or the
/// time is up, and stops at a limit switch.
pub fn tilt() -> Vec<Command> {
    vec![
        step(number::GIO, 0, 1, 0),
        step(number::CALC, 1, 0, 32_768),
        step(number::CALC, 3, 0, 64),
        step(number::COMP, 0, 0, 40),
        step(number::JC, 4, 0, 10),
        step(number::COMP, 0, 0, -40),
        step(number::JC, 6, 0, 13),
        step(number::MST, 0, 0, 0),
        step(number::WAIT, 0, 0, 1),
        jump(0),
        step(number::SAP, 43, 0, 2000),
        step(number::MVP, 1, 0, -100),
        jump(15),
        step(number::SAP, 43, 0, 4000),
        step(number::MVP, 1, 0, 100),
        step(number::WAIT, 1, 0, 3),
        step(number::JC, 8, 0, 20),
        step(number::GAP, 52, 0, 0),
        step(number::COMP, 0, 0, 3000),
        step(number::JC, 7, 0, 0),
        step(number::CLE, 1, 0, 0),
        step(number::SIO, 0, 2, 1),
        step(number::MVP, 0, 0, 0),
        step(number::WAIT, 3, 0, 2),
        step(number::CLE, 0, 0, 0),
        step(number::SIO, 0, 2, 0),
        jump(0),
    ]
}

/// Sets, reads and stores user variables: three stores in twelve steps.
pub fn user_variables() -> Vec<Command> {
    vec![
        step(number::SGP, 20, 2, 5),
        step(number::GGP, 0, 2, 0),
        step(number::CALC, 0, 0, 3),
        step(number::AGP, 0, 2, 0),
        step(number::STGP, 0, 2, 0),
        step(number::GGP, 1, 2, 0),
        step(number::CALC, 7, 0, 0x55),
        step(number::AGP, 1, 2, 0),
        step(number::STGP, 1, 2, 0),
        step(number::SGP, 55, 2, -1),
        step(number::STGP, 55, 2, 0),
        jump(0),
    ]
}

/// Sixteen steps on numbers that do not come again for long: X is odd, so that
/// nothing is divided by zero.
pub fn divisions() -> Vec<Command> {
    vec![
        step(number::CALC, 2, 0, 1_664_525),
        step(number::CALC, 0, 0, 1_013_904_223),
        step(number::CALCX, 9, 0, 0),
        step(number::CALC, 6, 0, 1),
        step(number::CALCX, 10, 0, 0),
        step(number::CALCX, 2, 0, 0),
        step(number::CALCX, 3, 0, 0),
        step(number::CALC, 0, 0, 12_345),
        step(number::CALCX, 2, 0, 0),
        step(number::CALC, 1, 0, 77),
        step(number::CALCX, 3, 0, 0),
        step(number::CALCX, 2, 0, 0),
        step(number::CALC, 7, 0, 0x5555),
        step(number::CALCX, 4, 0, 0),
        step(number::CALCX, 10, 0, 0),
        jump(0),
    ]
}

/// Every command that may lead to the next record, in turn, and STOP.
pub fn straight() -> Vec<Command> {
    let kinds = [
        step(number::ROR, 0, 0, 100),
        step(number::ROL, 0, 0, 100),
        step(number::MST, 0, 0, 0),
        step(number::MVP, 1, 0, 10),
        step(number::SAP, 142, 0, 50),
        step(number::GAP, 221, 0, 0),
        step(number::STAP, 10, 0, 0),
        step(number::RSAP, 110, 0, 0),
        step(number::SGP, 55, 2, 77),
        step(number::GGP, 130, 0, 0),
        step(number::STGP, 0, 2, 0),
        step(number::RSGP, 55, 2, 0),
        step(number::SIO, 3, 2, 1),
        step(number::GIO, 2, 1, 0),
        step(number::CALC, 3, 0, 7),
        step(number::COMP, 0, 0, 1),
        step(number::CALCX, 10, 0, 0),
        step(number::AAP, 240, 0, 0),
        step(number::AGP, 66, 0, 0),
        step(number::CLE, 4, 0, 0),
        step(number::WAIT, 3, 0, 10),
    ];
    let next = |address: usize| match address % (kinds.len() + 2) {
        kind if kind < kinds.len() => kinds[kind],
        kind if kind == kinds.len() => step(number::JC, 11, 0, address as i32 + 1),
        _ => jump(address + 1),
    };
    let mut program: Vec<Command> = (0..RECORDS - 1).map(next).collect();
    program.push(step(number::STOP, 0, 0, 0));
    program
}

/// Jumps to anywhere, and at the end a call of the beginning: every point is
/// reached, each depth only after the one above it was followed to its end.
pub fn every_depth_late(random: &mut Random) -> Vec<Command> {
    let mut program: Vec<Command> =
        (0..RECORDS).map(|_| jump_conditionally(random, 0, RECORDS)).collect();
    program[RECORDS - 2] = step(number::CSUB, 0, 0, 0);
    program
}

/// Eight calls, each of the next record, so that all nine depths come to the
/// jumps behind them together.
pub fn every_depth_at_once(random: &mut Random) -> Vec<Command> {
    let mut program: Vec<Command> =
        (0..8).map(|address| step(number::CSUB, 0, 0, address + 1)).collect();
    program.resize_with(RECORDS - 1, || jump_conditionally(random, 8, RECORDS));
    program.push(step(number::STOP, 0, 0, 0));
    program
}

fn jump_conditionally(random: &mut Random, first: usize, end: usize) -> Command {
    let target = random.between(first as i64, end as i64 - 1) as i32;
    step(number::JC, random.below(12) as u8, 0, target)
}
