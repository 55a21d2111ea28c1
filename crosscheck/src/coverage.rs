//! Counts what a cross-check tried, so that a reader sees what was reached.

mod rare;

use std::fmt;

use crate::board::{Answer, Board};
use crate::event::Event;
use crate::plain::{number, status, Command, Registers};
use rare::Seen;
pub use rare::{Rare, Rares};

/// All statuses, in the order of the tables' columns.
const STATUSES: [u8; 13] = [0, 1, 2, 3, 4, 5, 6, 20, 21, 22, 23, 100, 101];
/// Where each status stands in `STATUSES`.
static COLUMN: [u8; 256] = columns();
/// The row of a step at address 1,024, behind those of the commands.
const END_ROW: usize = 256;

const fn columns() -> [u8; 256] {
    let mut columns = [0; 256];
    let mut column = 0;
    while column < STATUSES.len() {
        columns[STATUSES[column] as usize] = column as u8;
        column += 1;
    }
    columns
}

type Row = [u64; STATUSES.len()];

/// How often each thing happened.
pub struct Coverage {
    /// By command, then status: datagrams of nine bytes that are ours.
    direct: Vec<Row>,
    /// Datagrams that are not, and those with 20 or 23.
    not_obeyed: Row,
    /// By command, then status: program steps, those of 130 too.
    steps: Vec<Row>,
    samples: Row,
    ticks: Row,
    runs: Row,
    power_ups: Row,
    checks: Row,
    builds: Row,
    reads: Row,
    /// Checks refused at each depth.
    depths: [u64; 9],
    rares: Rares,
}

impl Default for Coverage {
    fn default() -> Coverage {
        Coverage::new()
    }
}

impl Coverage {
    pub fn new() -> Coverage {
        let none = [0; STATUSES.len()];
        Coverage {
            direct: vec![none; 256],
            not_obeyed: none,
            steps: vec![none; 257],
            samples: none,
            ticks: none,
            runs: none,
            power_ups: none,
            checks: none,
            builds: none,
            reads: none,
            depths: [0; 9],
            rares: Rares::new(),
        }
    }

    /// Counts an event with its answer and the registers around it.
    pub fn count(
        &mut self,
        event: &Event,
        answer: Answer,
        before: &Registers,
        after: &Registers,
        unheld: bool,
    ) {
        if unheld {
            self.rares.mark(Rare::UnheldPlace);
        }
        match (event, answer) {
            (Event::Datagram(bytes), Answer::Datagram { status, replied }) => {
                if !replied {
                    return add(&mut self.not_obeyed, status);
                }
                let seven = bytes.as_slice()[1..8].try_into();
                let seven = seven.expect("a datagram replied to has nine bytes");
                let command = Command::from_record(seven);
                add(&mut self.direct[command.number as usize], status);
                self.rares.direct(command, status, before, after);
            }
            (Event::Sample(_), Answer::Status(status)) => add(&mut self.samples, status),
            (Event::Tick, Answer::Status(status)) => add(&mut self.ticks, status),
            (Event::PowerUp, Answer::Status(status)) => {
                add(&mut self.power_ups, status);
                if after.running {
                    self.rares.mark(Rare::Autostart);
                }
            }
            (_, Answer::Ran { status, .. }) => add(&mut self.runs, status),
            (_, Answer::Verdict { status, depth, .. }) => {
                add(&mut self.checks, status);
                if status != status::DONE && status != status::LENGTH {
                    self.depths[depth as usize] += 1;
                }
            }
            (_, Answer::Built { status, .. }) => add(&mut self.builds, status),
            (_, Answer::Read { status, .. }) => add(&mut self.reads, status),
            _ => {}
        }
    }

    /// Counts an event's program steps, carrying them out again one by one
    /// from where the board was. A run is that many single steps: where they
    /// lead elsewhere, that is the report.
    pub fn count_steps(
        &mut self,
        event: &Event,
        answer: Answer,
        before: &Board,
        after: &Board,
    ) -> Result<(), String> {
        let steps = steps_of(event, answer);
        if steps == 0 {
            return Ok(());
        }
        let (mut registers, mut cells) = (before.registers.clone(), before.cells.clone());
        for _ in 0..steps {
            let seen = Seen::new(&registers, before.record(registers.address));
            let status = registers.step(&before.program, &mut cells);
            let row = seen.command.map_or(END_ROW, |command| command.number as usize);
            add(&mut self.steps[row], status);
            self.rares.step(&seen, status, &registers);
        }
        if registers == after.registers && cells == after.cells {
            return Ok(());
        }
        Err(format!("{event}: its {steps} steps, one by one, lead elsewhere on the plain board"))
    }

    /// The named rare points with no count: a sign of a generator too shallow.
    pub fn missed(&self) -> Vec<&'static str> {
        self.rares.missed()
    }
}

/// How many program steps an event had: those of a run, or the one of a 130.
fn steps_of(event: &Event, answer: Answer) -> usize {
    match (event, answer) {
        (_, Answer::Ran { steps, .. }) => steps,
        (Event::Datagram(bytes), Answer::Datagram { status: status::DONE, .. }) => {
            usize::from(bytes.as_slice()[1] == number::ONE_STEP)
        }
        _ => 0,
    }
}

fn add(row: &mut Row, status: u8) {
    row[COLUMN[status as usize] as usize] += 1;
}

fn sum(rows: &[Row]) -> Row {
    let mut total = [0; STATUSES.len()];
    for row in rows {
        for (cell, count) in total.iter_mut().zip(row) {
            *cell += count;
        }
    }
    total
}

impl fmt::Display for Coverage {
    fn fmt(&self, f: &mut fmt::Formatter) -> fmt::Result {
        writeln!(f, "Events by kind and status")?;
        let shown = &STATUSES;
        head(f, shown)?;
        line(f, "datagram, obeyed or refused", &sum(&self.direct), shown)?;
        line(f, "datagram without reply", &self.not_obeyed, shown)?;
        line(f, "sample", &self.samples, shown)?;
        line(f, "tick", &self.ticks, shown)?;
        line(f, "run (its last step)", &self.runs, shown)?;
        line(f, "power-up", &self.power_ups, shown)?;
        line(f, "program check", &self.checks, shown)?;
        line(f, "build", &self.builds, shown)?;
        line(f, "reading", &self.reads, shown)?;
        line(f, "program step", &sum(&self.steps), shown)?;
        writeln!(f, "\nDatagrams replied to, by command and status")?;
        by_command(f, &self.direct, &[1, 2, 3, 4, 5, 6, 100, 101])?;
        writeln!(f, "\nProgram steps, by command and status")?;
        by_command(f, &self.steps, &[2, 3, 4, 5, 6, 100])?;
        writeln!(f, "\nChecks refused, by the depth of the point named: {:?}", self.depths)?;
        writeln!(f, "\nRare points\n{}", self.rares)
    }
}

fn head(f: &mut fmt::Formatter, shown: &[u8]) -> fmt::Result {
    write!(f, "{:<28}", "")?;
    shown.iter().try_for_each(|status| write!(f, "{status:>11}"))?;
    writeln!(f)
}

fn line(f: &mut fmt::Formatter, name: &str, row: &Row, shown: &[u8]) -> fmt::Result {
    write!(f, "{name:<28}")?;
    for &status in shown {
        match row[COLUMN[status as usize] as usize] {
            0 => write!(f, "{:>11}", ".")?,
            count => write!(f, "{count:>11}")?,
        }
    }
    writeln!(f)
}

/// One line for each command of a name, one for all the others.
fn by_command(f: &mut fmt::Formatter, rows: &[Row], shown: &[u8]) -> fmt::Result {
    head(f, shown)?;
    let mut others = Vec::new();
    for (command, row) in rows.iter().enumerate() {
        match command_name(command) {
            Some(name) => line(f, &format!("{command:>4} {name}"), row, shown)?,
            None => others.push(*row),
        }
    }
    line(f, "     all others", &sum(&others), shown)
}

fn command_name(command: usize) -> Option<&'static str> {
    if command == END_ROW {
        return Some("(address 1,024)");
    }
    let name = match command as u8 {
        number::ROR => "ROR",
        number::ROL => "ROL",
        number::MST => "MST",
        number::MVP => "MVP",
        number::SAP => "SAP",
        number::GAP => "GAP",
        number::STAP => "STAP",
        number::RSAP => "RSAP",
        number::SGP => "SGP",
        number::GGP => "GGP",
        number::STGP => "STGP",
        number::RSGP => "RSGP",
        number::SIO => "SIO",
        number::GIO => "GIO",
        number::CALC => "CALC",
        number::COMP => "COMP",
        number::CALCX => "CALCX",
        number::AAP => "AAP",
        number::AGP => "AGP",
        number::CLE => "CLE",
        control => return flow_or_control_name(control),
    };
    Some(name)
}

fn flow_or_control_name(command: u8) -> Option<&'static str> {
    let name = match command {
        number::JC => "JC",
        number::JA => "JA",
        number::CSUB => "CSUB",
        number::RSUB => "RSUB",
        number::WAIT => "WAIT",
        number::STOP => "STOP",
        number::STOP_PROGRAM => "stop",
        number::RUN_PROGRAM => "run",
        number::ONE_STEP => "one step",
        number::RESET_PROGRAM => "reset",
        number::START_DOWNLOAD => "start download",
        number::END_DOWNLOAD => "end download",
        number::READ_PROGRAM => "read program",
        number::RUNNING => "running",
        number::DEFAULTS => "defaults",
        number::RESTART => "restart",
        _ => return None,
    };
    Some(name)
}
