//! What both boards are made of: registers of their own, and the stores lent
//! to them.

use crate::event::Event;
use crate::plain::{CELLS_LENGTH, PROGRAM_LENGTH, RECORD_LENGTH};

/// Registers and stores.
#[derive(Clone)]
pub struct Lent<R> {
    pub registers: R,
    pub program: Vec<u8>,
    pub cells: Vec<u8>,
    pub reply: Vec<u8>,
}

impl<R: Clone> Lent<R> {
    /// Takes over what another has, in place.
    pub fn take_over(&mut self, other: &Lent<R>) {
        self.registers.clone_from(&other.registers);
        self.program.clone_from(&other.program);
        self.cells.clone_from(&other.cells);
        self.reply.clone_from(&other.reply);
    }

    /// The stores by their names, in the order of a script's numbers for them.
    pub fn stores(&self) -> [(&'static str, &[u8]); 3] {
        [
            ("program store", &self.program),
            ("parameter store", &self.cells),
            ("reply buffer", &self.reply),
        ]
    }

    /// Sets up a record, a cell or a store's length. False, and nothing done,
    /// for another event, or where the store has another length.
    pub fn set_up_store(&mut self, event: &Event) -> bool {
        match *event {
            Event::Record { address, record } if self.program.len() == PROGRAM_LENGTH => {
                let at = address * RECORD_LENGTH;
                self.program[at..at + RECORD_LENGTH].copy_from_slice(&record);
            }
            Event::Cell { cell, value } if self.cells.len() == CELLS_LENGTH => {
                self.cells[cell * 4..cell * 4 + 4].copy_from_slice(&value.to_be_bytes());
            }
            Event::Length { which, length } => match which {
                0 => self.program.resize(length, 0),
                1 => self.cells.resize(length, 0),
                _ => self.reply.resize(length, 0),
            },
            _ => return false,
        }
        true
    }
}
