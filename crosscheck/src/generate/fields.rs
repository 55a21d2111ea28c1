//! The fields of commands: mostly sensible, often at the ends of a range.

use super::Generator;
use crate::board::Board;
use crate::plain::{number, place_of, Command, ROWS, USER_VARIABLES};

/// Numbers that tend to matter.
const BORDERS: [i32; 34] = [
    0,
    1,
    -1,
    2,
    -2,
    3,
    4,
    7,
    8,
    -7,
    10,
    100,
    255,
    256,
    1000,
    1023,
    1024,
    1025,
    1234,
    4321,
    4000,
    -4000,
    4001,
    65_535,
    65_536,
    200_000,
    -200_000,
    i32::MAX,
    i32::MIN,
    i32::MAX - 1,
    i32::MIN + 1,
    1 << 30,
    0x5555_5555,
    -32_769,
];

/// Direct commands with how often each comes.
const DIRECT: [(u64, u8); 39] = [
    (20, number::ROR),
    (20, number::ROL),
    (10, number::MST),
    (30, number::MVP),
    (60, number::SAP),
    (30, number::GAP),
    (25, number::STAP),
    (25, number::RSAP),
    (60, number::SGP),
    (30, number::GGP),
    (20, number::STGP),
    (20, number::RSGP),
    (20, number::SIO),
    (20, number::GIO),
    (60, number::CALC),
    (20, number::COMP),
    (40, number::CALCX),
    (40, number::AAP),
    (40, number::AGP),
    (12, number::CLE),
    (3, number::JC),
    (3, number::JA),
    (3, number::CSUB),
    (3, number::RSUB),
    (3, number::WAIT),
    (3, number::STOP),
    (12, number::STOP_PROGRAM),
    (20, number::RUN_PROGRAM),
    (80, number::ONE_STEP),
    (10, number::RESET_PROGRAM),
    (16, number::START_DOWNLOAD),
    (10, number::END_DOWNLOAD),
    (20, number::READ_PROGRAM),
    (10, number::RUNNING),
    (10, number::DEFAULTS),
    (6, number::RESTART),
    (3, 136),
    (3, 13),
    (3, 0),
];

/// Steps with how often each comes.
const STEPS: [(u64, u8); 27] = [
    (10, number::ROR),
    (10, number::ROL),
    (5, number::MST),
    (16, number::MVP),
    (30, number::SAP),
    (20, number::GAP),
    (10, number::STAP),
    (10, number::RSAP),
    (24, number::SGP),
    (16, number::GGP),
    (10, number::STGP),
    (10, number::RSGP),
    (10, number::SIO),
    (12, number::GIO),
    (50, number::CALC),
    (30, number::COMP),
    (30, number::CALCX),
    (20, number::AAP),
    (20, number::AGP),
    (8, number::CLE),
    (60, number::JC),
    (14, number::JA),
    (36, number::CSUB),
    (24, number::RSUB),
    (50, number::WAIT),
    (6, number::STOP),
    (2, 0),
];

impl Generator {
    pub(super) fn byte(&mut self) -> u8 {
        self.random.bits() as u8
    }

    /// Any number, often one that matters.
    pub(super) fn value(&mut self) -> i32 {
        match self.random.below(8) {
            0 => self.random.bits() as i32,
            1 => self.random.between(-70_000, 70_000) as i32,
            2 => 1 << self.random.below(32),
            _ => self.random.pick(&BORDERS),
        }
    }

    /// An address, often at an end of the store; now and then wrong.
    pub(super) fn address(&mut self) -> i32 {
        match self.random.below(16) {
            0 => self.random.pick(&[1024, -1, 1025, i32::MIN, i32::MAX, 65_536]),
            1..=4 => self.random.between(1015, 1023) as i32,
            5..=6 => self.random.between(0, 1023) as i32,
            _ => self.random.between(0, 24) as i32,
        }
    }

    /// Fields without sense.
    pub(super) fn wild_command(&mut self) -> Command {
        Command { number: self.byte(), kind: self.byte(), motor: self.byte(), value: self.value() }
    }

    /// A command for direct mode.
    pub(super) fn direct_command(&mut self, board: &Board) -> Command {
        if self.random.once_in(60) {
            return self.wild_command();
        }
        let number = if board.registers.download && self.random.once_in(12) {
            number::END_DOWNLOAD
        } else {
            self.random.weighted(&DIRECT)
        };
        self.command(board, number, 0, 24)
    }

    /// A record for a program whose jumps lead to `length` addresses from
    /// `first` on.
    pub(super) fn program_command(&mut self, board: &Board, first: i64, length: i64) -> Command {
        let number = self.random.weighted(&STEPS);
        self.command(board, number, first, length)
    }

    /// The command with fields that mean something to it, one of them spoilt
    /// now and then.
    fn command(&mut self, board: &Board, number: u8, first: i64, length: i64) -> Command {
        let value = self.value();
        let mut command = Command { number, kind: 0, motor: 0, value };
        self.fill_in(board, &mut command, first, length);
        match self.random.below(40) {
            0 => command.kind = self.byte(),
            1 => command.kind = command.kind.wrapping_add(1),
            2 => command.motor = self.random.pick(&[0, 1, 2, 3, 255]),
            3 => command.value = self.value(),
            _ => {}
        }
        command
    }

    fn fill_in(&mut self, board: &Board, command: &mut Command, first: i64, length: i64) {
        match command.number {
            number::ROR | number::ROL => self.velocity(board, command),
            number::MVP => self.position(board, command),
            number::SAP | number::AAP => self.axis_value(command),
            number::GAP | number::STAP | number::RSAP => command.kind = self.axis_number(),
            number::SGP | number::AGP | number::GGP => self.global(command),
            number::STGP | number::RSGP => self.user_variable(command),
            number::SIO | number::GIO => self.port(command),
            number::CALC => self.operation(board, command, 9),
            number::CALCX => self.operation(board, command, 10),
            number::COMP => self.comparison(board, command),
            number::CLE => command.kind = self.random.below(6) as u8,
            number::JC | number::JA | number::CSUB => {
                command.kind = self.random.below(13) as u8;
                command.value = self.target(first, length);
            }
            number::WAIT => self.wait(command),
            number::RUN_PROGRAM | number::START_DOWNLOAD | number::READ_PROGRAM => {
                command.kind = self.random.weighted(&[(10, 0), (12, 1), (1, 2)]);
                command.value = self.address();
            }
            number::DEFAULTS | number::RESTART => {
                command.value = self.random.weighted(&[(6, 1234), (1, 4321), (1, 0)]);
            }
            _ => command.kind = self.random.below(3) as u8,
        }
    }

    fn target(&mut self, first: i64, length: i64) -> i32 {
        if self.random.once_in(30) {
            return self.address();
        }
        (first + self.random.between(0, length)) as i32
    }

    fn velocity(&mut self, board: &Board, command: &mut Command) {
        let limit = board.registers.parameter(43).unwrap_or(0);
        let least = limit.wrapping_neg();
        let near = [limit, least, limit.wrapping_add(1), least.wrapping_sub(1), 0, i32::MIN];
        if self.random.once_in(2) {
            command.value = self.random.pick(&near);
        }
    }

    /// A position; for REL often just at or beyond what 32 bits hold.
    fn position(&mut self, board: &Board, command: &mut Command) {
        command.kind = self.random.weighted(&[(4, 0), (8, 1), (1, 2)]);
        let actual = board.registers.parameter(52).unwrap_or(0);
        if self.random.once_in(3) {
            let end = if actual >= 0 { i32::MAX } else { i32::MIN };
            let room = end.wrapping_sub(actual);
            command.value = self.random.pick(&[room, room.wrapping_add(1), room.wrapping_sub(1)]);
        }
    }

    fn axis_number(&mut self) -> u8 {
        if self.random.once_in(20) {
            return self.byte();
        }
        ROWS[self.random.below(ROWS.len() as u64) as usize].number
    }

    /// A parameter and a value around its range.
    fn axis_value(&mut self, command: &mut Command) {
        command.kind = if self.random.once_in(6) { 50 } else { self.axis_number() };
        let Some(row) = place_of(command.kind).map(|place| &ROWS[place]) else {
            return;
        };
        command.value = match self.random.below(8) {
            0 => row.low.wrapping_sub(1),
            1 => row.high.wrapping_add(1),
            2 => row.low,
            3 => row.high,
            4 => row.gap.unwrap_or(row.default),
            5 => self.value(),
            _ => self.random.between(row.low.into(), row.high.into()) as i32,
        };
    }

    fn global(&mut self, command: &mut Command) {
        if self.random.once_in(2) {
            return self.user_variable(command);
        }
        command.motor = 0;
        command.kind = self.random.pick(&[66, 73, 73, 76, 77, 77, 128, 130, 74]);
        command.value = match command.kind {
            66 => self.random.pick(&[0, 1, 1, 2, 255, 256, -1]),
            73 => self.random.weighted(&[(5, 1234), (9, 4321), (1, 0), (1, 1)]),
            76 => self.random.pick(&[0, 1, 2, 255, 256, -1]),
            _ => self.random.pick(&[0, 1, 1, 2, -1]),
        };
    }

    fn user_variable(&mut self, command: &mut Command) {
        command.motor = 2;
        let last = USER_VARIABLES as u8 - 1;
        command.kind = match self.random.below(8) {
            0 => last + self.random.below(2) as u8,
            _ => self.random.below(u64::from(last) + 1) as u8,
        };
    }

    fn port(&mut self, command: &mut Command) {
        command.motor = if command.number == number::SIO { 2 } else { self.random.below(3) as u8 };
        command.kind = self.random.below(5) as u8;
        command.value = self.random.pick(&[0, 0, 1, 1, 1, 2, -1]);
    }

    /// An operation; a division is likelier where it is delicate.
    fn operation(&mut self, board: &Board, command: &mut Command, last: u64) {
        let least = board.registers.accumulator == i32::MIN;
        command.kind = if least && self.random.once_in(2) {
            self.random.pick(&[3, 4])
        } else {
            self.random.below(last + 1) as u8
        };
        let divides = command.kind == 3 || command.kind == 4;
        if divides && self.random.once_in(2) {
            command.value = self.random.pick(&[-1, -1, -1, 0, 1, 2, -2]);
        }
    }

    fn comparison(&mut self, board: &Board, command: &mut Command) {
        let accumulator = board.registers.accumulator;
        if self.random.once_in(2) {
            let near = [accumulator, accumulator.wrapping_add(1), accumulator.wrapping_sub(1)];
            command.value = self.random.pick(&near);
        }
    }

    fn wait(&mut self, command: &mut Command) {
        command.kind = self.random.weighted(&[(5, 0), (3, 1), (3, 2), (3, 3), (1, 4)]);
        command.value = match self.random.below(12) {
            0 => self.value(),
            1..=2 => -1,
            3 => 0,
            _ => self.random.between(0, 4) as i32,
        };
    }
}
