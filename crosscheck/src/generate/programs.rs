//! Structured programs: loops, calls within calls, programs that pass the
//! check or nearly pass it.

use super::{Event, Generator};
use crate::board::Board;
use crate::plain::{number, Command, RECORDS};

fn flow(number: u8, target: usize) -> Command {
    Command { number, kind: 0, motor: 0, value: target as i32 }
}

impl Generator {
    fn put(&mut self, address: usize, command: Command) {
        if address < RECORDS {
            self.pending.push_back(Event::Record { address, record: command.to_record() });
        }
    }

    /// A program somewhere in the store, then a start in it and some runs.
    pub(super) fn program(&mut self, board: &Board) {
        let first = match self.random.below(8) {
            0 => 1012 + self.random.below(10) as usize,
            1 => self.random.below(1000) as usize,
            _ => 0,
        };
        let length = match self.random.below(4) {
            0 => self.call_chain(board, first),
            1 => self.waits(board, first),
            _ => self.mixture(board, first),
        };
        if board.registers.download {
            self.send(board, number::END_DOWNLOAD, 0, 0);
        }
        self.send(board, number::RUN_PROGRAM, 1, (first % RECORDS) as i32);
        for _ in 0..2 + self.random.below(4) {
            let budget = 1 + self.random.below(2 * length as u64);
            self.pending.push_back(Event::Run(budget));
            if self.random.once_in(2) {
                self.pending.push_back(Event::Tick);
            }
        }
    }

    /// Steps as they come, jumps among them.
    fn mixture(&mut self, board: &Board, first: usize) -> usize {
        let length = 3 + self.random.below(24) as usize;
        for address in first..first + length {
            let command = self.program_command(board, first as i64, length as i64);
            self.put(address, command);
        }
        let end = self.random.pick(&[number::STOP, number::JA, number::JA]);
        self.put(first + length, flow(end, first));
        length + 1
    }

    /// Six to nine calls within each other, then as many returns or more.
    fn call_chain(&mut self, board: &Board, first: usize) -> usize {
        let calls = 6 + self.random.below(4) as usize;
        // Each call is followed by a return, so the chain unwinds through them.
        for call in 0..calls {
            self.put(first + 2 * call, flow(number::CSUB, first + 2 * call + 2));
            self.put(first + 2 * call + 1, flow(number::RSUB, 0));
        }
        let innermost = first + 2 * calls;
        let command = self.program_command(board, first as i64, 2 * calls as i64);
        self.put(innermost, command);
        self.put(innermost + 1, flow(number::RSUB, 0));
        2 * calls + 2
    }

    /// Waits of all types, with the accumulator loaded between them.
    fn waits(&mut self, board: &Board, first: usize) -> usize {
        let length = 4 + self.random.below(8) as usize;
        for address in first..first + length {
            let command = if self.random.once_in(3) {
                let value = self.random.between(-1, 3) as i32;
                Command { number: number::CALC, kind: 9, motor: 0, value }
            } else {
                let mut command = self.program_command(board, first as i64, length as i64);
                if self.random.once_in(2) {
                    command = Command { number: number::WAIT, ..command };
                    self.wait_fields(&mut command);
                }
                command
            };
            self.put(address, command);
        }
        self.put(first + length, flow(number::JA, first));
        length + 1
    }

    fn wait_fields(&mut self, command: &mut Command) {
        command.kind = self.random.below(4) as u8;
        command.motor = 0;
        command.value = self.random.pick(&[0, 1, 1, 2, 3, -1]);
    }

    /// Through the line: 132, some commands, 133 most times.
    pub(super) fn download(&mut self, board: &Board) {
        if board.registers.running {
            self.send(board, number::STOP_PROGRAM, 0, 0);
        }
        if board.registers.locked() && !self.random.once_in(4) {
            self.send(board, number::SGP, 73, 4321);
        }
        let first = self.address();
        self.send(board, number::START_DOWNLOAD, 0, first);
        let length = 2 + self.random.below(12);
        for _ in 0..length {
            let command = self.program_command(board, first.into(), length as i64);
            let bytes = super::frame(board, command);
            self.pending.push_back(super::datagram_of(&bytes));
        }
        if !self.random.once_in(5) {
            self.send(board, number::END_DOWNLOAD, 0, 0);
            self.send(board, number::READ_PROGRAM, 1, first);
        }
    }

    /// A program that passes the check, spoilt in one record half the time,
    /// and the check of it.
    pub(super) fn checked_program(&mut self, board: &Board) {
        let functions = self.random.below(11) as usize;
        let mut starts = vec![0];
        for _ in 0..functions {
            let length = 2 + self.random.below(5) as usize;
            starts.push(starts[starts.len() - 1] + length);
        }
        let length = 2 + self.random.below(5) as usize;
        let end = starts[functions] + length;
        starts.push(end);
        for function in 0..=functions {
            self.function(board, &starts, function);
        }
        if self.random.once_in(2) {
            self.spoil_record(board, starts[functions], end);
        }
        self.pending.push_back(Event::Check);
    }

    /// Puts a record that is likely bad, half the time where the last function
    /// stands, which is the deepest.
    fn spoil_record(&mut self, board: &Board, last_function: usize, end: usize) {
        let first = if self.random.once_in(2) { last_function } else { 0 };
        let address = self.random.between(first as i64, end as i64 - 1) as usize;
        let command = match self.random.below(4) {
            0 => self.wild_command(),
            1 => flow(self.random.pick(&[number::RSUB, number::CSUB, number::JA]), RECORDS - 1),
            2 => {
                let number = self.random.pick(&[number::CSUB, number::CSUB, number::JC]);
                flow(number, RECORDS + self.random.below(2) as usize)
            }
            _ => self.program_command(board, 0, end as i64),
        };
        self.put(address, command);
    }

    /// One function: calls only later ones and jumps only within itself.
    fn function(&mut self, board: &Board, starts: &[usize], function: usize) {
        let (first, end) = (starts[function], starts[function + 1]);
        let later = starts.len() - 2 - function;
        // One call to the next function at least, so that chains grow long.
        let chained = self.random.between(first as i64, end as i64 - 2) as usize;
        for address in first..end - 1 {
            let command = match self.random.below(12) {
                _ if address == chained && later > 0 => flow(number::CSUB, starts[function + 1]),
                0 if later > 0 => {
                    let called = function + 1 + self.random.below(later as u64) as usize;
                    flow(number::CSUB, starts[called])
                }
                1..=3 => {
                    let target = self.random.between(first as i64, end as i64 - 1) as usize;
                    let kind = self.random.below(12) as u8;
                    Command { kind, ..flow(number::JC, target) }
                }
                _ => self.good_command(board),
            };
            self.put(address, command);
        }
        let last = if function == 0 { number::STOP } else { number::RSUB };
        self.put(end - 1, flow(last, 0));
    }

    /// A command that leads to the next record, mostly without fault.
    fn good_command(&mut self, board: &Board) -> Command {
        match self.random.below(6) {
            0 => Command { number: number::CALC, kind: 0, motor: 7, value: self.value() },
            1 => Command { number: number::COMP, kind: 9, motor: 9, value: self.value() },
            2 => Command { number: number::WAIT, kind: 0, motor: 9, value: -1 },
            3 => Command { number: number::GAP, kind: 221, motor: 0, value: self.value() },
            4 => Command { number: number::SAP, kind: 56, motor: 0, value: i32::MAX },
            _ if self.random.once_in(12) => self.program_command(board, 0, 20),
            _ => Command { number: number::CALCX, kind: 10, motor: 0, value: 0 },
        }
    }

    /// A program that fills the whole store and is reached at every depth.
    pub(super) fn full_store(&mut self, board: &Board) {
        for address in 0..RECORDS {
            let command = match self.random.below(16) {
                _ if address < 8 => flow(number::CSUB, address + 1),
                0..=2 => Command {
                    kind: self.random.below(12) as u8,
                    ..flow(number::JC, self.random.below(RECORDS as u64) as usize)
                },
                3 if self.random.once_in(200) => self.program_command(board, 0, 1000),
                _ => self.good_command_without_fault(),
            };
            self.put(address, command);
        }
        let last = self.random.pick(&[number::JA, number::STOP, number::STOP, number::COMP]);
        self.put(RECORDS - 1, flow(last, 8));
        for _ in 0..8 {
            self.pending.push_back(Event::Check);
            let address = self.random.below(RECORDS as u64) as usize;
            let command = self.program_command(board, 0, 1000);
            self.put(address, command);
        }
        self.pending.push_back(Event::Check);
    }

    fn good_command_without_fault(&mut self) -> Command {
        let value = self.value();
        let (number, kind) = self.random.pick(&[
            (number::CALC, 0),
            (number::CALCX, 3),
            (number::COMP, 200),
            (number::GAP, 10),
            (number::AAP, 43),
            (number::CLE, 4),
            (number::MVP, 1),
        ]);
        Command { number, kind, motor: 0, value }
    }
}
