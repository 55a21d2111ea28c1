//! The rows of the benchmark: on which board they begin, which events one pass
//! has, and in what a time is given.

use super::programs;
use super::random_mix;
use crate::event::{Bytes, Event};
use crate::plain::{self, build_command, number, Command, DATAGRAM_LENGTH};
use crate::random::Random;

/// One row.
pub struct Row {
    pub name: &'static str,
    /// What a time is given for: a step, a datagram and so on.
    pub unit: &'static str,
    pub program: Vec<Command>,
    /// What comes before the clock starts.
    pub before: Vec<Event>,
    pub events: Vec<Event>,
    /// How often a pass has these events: so often that the clock, which is
    /// read once before and once behind it, is not what is measured.
    pub times: usize,
}

/// The board's address, as a new board has it.
const BOARD: u8 = 1;
/// The seed of all that is random here.
const SEED: u64 = 2_026;

/// All rows, in the order they are shown.
pub fn rows() -> Vec<Row> {
    let mut rows = step_rows();
    rows.extend(run_rows());
    rows.extend(datagram_rows());
    rows.extend(other_event_rows());
    rows.extend(check_rows());
    rows.extend(display_rows());
    rows
}

fn step_rows() -> Vec<Row> {
    let row = |name, program| Row {
        name,
        unit: "step",
        program,
        before: vec![start(0)],
        events: vec![Event::Run(1000)],
        times: 100,
    };
    vec![
        row("loop", programs::counting()),
        row("calls", programs::calls()),
        Row { events: tilt_periods(), times: 1, ..row("tilt", programs::tilt()) },
        row("user", programs::user_variables()),
        row("divide", programs::divisions()),
        random_mix::row(SEED),
    ]
}

/// What the tilt program meets: a sample, a tick and a run, over and over.
fn tilt_periods() -> Vec<Event> {
    let mut random = Random::new(SEED);
    let mut events = Vec::new();
    for sample in samples(&mut random, 1000) {
        events.extend([Event::Sample(sample), Event::Tick, Event::Run(20)]);
    }
    events
}

fn run_rows() -> Vec<Row> {
    let row = |name, before| Row {
        name,
        unit: "run",
        program: programs::counting(),
        before,
        events: vec![Event::Run(10)],
        times: 2000,
    };
    vec![row("run-10", vec![start(0)]), row("run-stopped", Vec::new())]
}

fn datagram_rows() -> Vec<Row> {
    let row = |name, events: Vec<Event>| Row {
        name,
        unit: "datagram",
        program: programs::tilt(),
        before: Vec::new(),
        times: 4000 / events.len(),
        events,
    };
    let reads: Vec<Command> =
        plain::ROWS.iter().map(|row| step(number::GAP, row.number, 0, 0)).collect();
    let sets = settings().into_iter().map(|(kind, value)| step(number::SAP, kind, 0, value));
    let variables = (0..plain::USER_VARIABLES as i32)
        .map(|variable| step(number::SGP, variable as u8, 2, variable * variable - 1000));
    vec![
        row("datagrams", mixed_datagrams()),
        row("d-gap", reads.iter().map(|&command| datagram(command)).collect()),
        row("d-sap", sets.map(datagram).collect()),
        row("d-sgp-user", variables.map(datagram).collect()),
        row("d-not-ours", reads.iter().map(|&command| to_board(BOARD + 1, command)).collect()),
        row("d-damaged", reads.iter().map(|&command| damaged(command, 1)).collect()),
    ]
}

/// Every parameter that may be set, with the value in the middle of its range,
/// or the default where that is a gap.
fn settings() -> Vec<(u8, i32)> {
    let settable = plain::ROWS.iter().filter(|row| plain::settable(row.number).is_some());
    let value = |row: &plain::Row| match row.low / 2 + row.high / 2 {
        middle if row.allows(middle) => middle,
        _ => row.default,
    };
    settable.map(|row| (row.number, value(row))).collect()
}

/// A display's talk: much is read and set, some of it refused, damaged, for
/// another board or cut short.
fn mixed_datagrams() -> Vec<Event> {
    let (mut random, settings) = (Random::new(SEED), settings());
    (0..2000).map(|_| mixed_datagram(&mut random, &settings)).collect()
}

fn mixed_datagram(random: &mut Random, settings: &[(u8, i32)]) -> Event {
    let (parameter, value) = random.pick(settings);
    let variable = random.below(56) as u8;
    let operand = 1 + random.below(1000) as i32;
    match random.below(100) {
        0..20 => datagram(step(number::SAP, parameter, 0, value)),
        20..40 => datagram(step(number::GAP, parameter, 0, 0)),
        40..48 => datagram(step(number::STAP, random.pick(&[10, 43, 56, 93, 142]), 0, 0)),
        48..54 => datagram(step(number::GGP, variable, 2, 0)),
        54..60 => datagram(step(number::GGP, random.pick(&[66, 73, 76, 77, 128, 130]), 0, 0)),
        60..74 => datagram(step(number::CALC, random.below(10) as u8, 0, operand)),
        74..90 => datagram(refused(random)),
        90..96 => damaged(step(number::GAP, parameter, 0, 0), 0x10),
        96..99 => to_board(2, step(number::GAP, parameter, 0, 0)),
        _ => cut_short(step(number::GAP, parameter, 0, 0)),
    }
}

fn refused(random: &mut Random) -> Command {
    random.pick(&[
        step(13, 0, 0, 0),
        step(number::SAP, 4, 0, 200),
        step(number::SAP, 142, 0, 51),
        step(number::GAP, 56, 1, 0),
        step(number::JA, 0, 0, 10),
        step(number::CALC, 3, 0, 0),
    ])
}

fn other_event_rows() -> Vec<Row> {
    let row = |name, unit, program, before, event| Row {
        name,
        unit,
        program,
        before,
        events: vec![event],
        times: 2000,
    };
    let waiting = vec![step(number::WAIT, 0, 0, i32::MAX)];
    let armed = vec![start(0), Event::Run(1)];
    let given = samples(&mut Random::new(SEED), 64).into_iter().map(Event::Sample).collect();
    let quiet = |name, unit, event| row(name, unit, programs::tilt(), Vec::new(), event);
    vec![
        Row { events: given, times: 50, ..quiet("sample", "sample", Event::Tick) },
        quiet("tick", "tick", Event::Tick),
        row("tick-armed", "tick", waiting, armed, Event::Tick),
        quiet("power-up", "power-up", Event::PowerUp),
    ]
}

fn check_rows() -> Vec<Row> {
    let row = |name, program, times| Row {
        name,
        unit: "check",
        program,
        before: Vec::new(),
        events: vec![Event::Check],
        times,
    };
    let mut random = Random::new(SEED);
    vec![
        row("check-stop", vec![step(number::STOP, 0, 0, 0)], 1000),
        row("check-straight", programs::straight(), 50),
        row("check-worst", programs::every_depth_late(&mut random), 50),
        row("check-passed", programs::every_depth_at_once(&mut random), 50),
    ]
}

fn display_rows() -> Vec<Row> {
    let row = |name, unit, events| Row {
        name,
        unit,
        program: Vec::new(),
        before: Vec::new(),
        events,
        times: 100,
    };
    let mut random = Random::new(SEED);
    let builds = (0..64).map(|_| Event::Build {
        length: DATAGRAM_LENGTH,
        address: BOARD,
        command: random_mix::command(&mut random),
    });
    let builds: Vec<Event> = builds.collect();
    // A reply has the form of a command, so each is read back.
    let reads = builds.iter().map(|build| match *build {
        Event::Build { command, .. } => Event::Read(frame(BOARD, command)),
        _ => unreachable!("only builds stand here"),
    });
    let reads = row("read", "reply", reads.collect());
    vec![row("build", "command", builds), reads]
}

/// Samples of a board whose tilt and position move.
fn samples(random: &mut Random, count: usize) -> Vec<[i32; 16]> {
    let mut sample = || {
        let position = random.between(-5000, 5000) as i32;
        let reached = i32::from(!random.once_in(4));
        let limit = i32::from(random.once_in(10));
        let tilt = random.below(65_536) as i32;
        let alarm = i32::from(random.once_in(20));
        [position, position, reached, limit, 0, 0, 240, 31, 1, 0, tilt, 7, 9, alarm, 0, 0]
    };
    (0..count).map(|_| sample()).collect()
}

/// A command's fields in the order of a record.
pub fn step(number: u8, kind: u8, motor: u8, value: i32) -> Command {
    Command { number, kind, motor, value }
}

/// The datagram that runs the program from an address.
pub fn start(address: usize) -> Event {
    datagram(step(number::RUN_PROGRAM, 1, 0, address as i32))
}

fn datagram(command: Command) -> Event {
    to_board(BOARD, command)
}

fn to_board(address: u8, command: Command) -> Event {
    Event::Datagram(frame(address, command))
}

fn frame(address: u8, command: Command) -> Bytes {
    let mut bytes = [0; DATAGRAM_LENGTH];
    build_command(&mut bytes, address, command);
    Bytes::new(&bytes).expect("nine bytes are few enough")
}

/// A datagram whose checksum is off by `damage`.
fn damaged(command: Command, damage: u8) -> Event {
    let mut bytes = frame(BOARD, command);
    let last = &mut bytes.as_mut_slice()[DATAGRAM_LENGTH - 1];
    *last = last.wrapping_add(damage);
    Event::Datagram(bytes)
}

fn cut_short(command: Command) -> Event {
    let bytes = frame(BOARD, command);
    Event::Datagram(Bytes::new(&bytes.as_slice()[..8]).expect("eight bytes are few enough"))
}

#[cfg(test)]
mod tests {
    use super::*;

    #[test]
    fn a_pass_has_many_events() {
        for row in rows() {
            assert!(row.events.len() * row.times >= 50, "{}", row.name);
        }
    }
}
