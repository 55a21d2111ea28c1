//! The events: datagram, sample, tick, run and power-up, each judged in the
//! paper's order before anything is touched.

use super::registers::{Registers, EAL, P211, P212, P213, P220, P221, P51, P52, P55};
use super::sheet::{self, Access, Row, ROWS};
use super::steps::Ran;
use super::store::{self, read_cell, write_cell, Cells};
use super::wire::{self, Frame, Seven};
use super::{status, GREATEST_BUDGET};

/// Writes the 91 default cells.
pub fn new_cells(cells: &mut [u8]) -> u8 {
    match store::parts_mut(cells) {
        Some(cells) => {
            put_default_cells(cells);
            status::DONE
        }
        None => status::LENGTH,
    }
}

/// Writes the 91 default cells into a store of the right length.
pub fn put_default_cells(cells: &mut Cells) {
    let stored = ROWS.iter().filter(|row| row.access == Access::Stored);
    for (cell, row) in stored.enumerate() {
        write_cell(cells, cell, row.default);
    }
    write_cell(cells, sheet::CELL_66, sheet::DEFAULT_66.into());
    write_cell(cells, sheet::CELL_73, sheet::DEFAULT_73);
    write_cell(cells, sheet::CELL_76, sheet::DEFAULT_76.into());
    write_cell(cells, sheet::CELL_77, sheet::DEFAULT_77);
    cells[sheet::CELL_USER..].fill([0; 4]);
}

impl Registers {
    /// The registers as power-up leaves them; `None` for cells of another
    /// length.
    pub fn powered_up(cells: &[u8]) -> Option<Registers> {
        let mut registers = Registers::cleared();
        (registers.power_up(cells) == status::DONE).then_some(registers)
    }

    /// Power-up.
    pub fn power_up(&mut self, cells: &[u8]) -> u8 {
        match store::parts(cells) {
            Some(cells) => {
                self.take_cells(cells);
                status::DONE
            }
            None => status::LENGTH,
        }
    }

    /// What power-up does: each cell's value if it is in range, else the
    /// default; all else 0, and running exactly if global 77 is 1.
    #[inline(always)]
    pub fn take_cells(&mut self, cells: &Cells) {
        *self = Registers { axis: sheet::DEFAULTS, ..Registers::cleared() };
        for (cell, &place) in sheet::STORED_PLACES.iter().enumerate() {
            self.axis[place] = taken(&ROWS[place], read_cell(cells, cell));
        }
        self.module_address = match u8::try_from(read_cell(cells, sheet::CELL_66)) {
            Ok(address) if address >= 1 => address,
            _ => sheet::DEFAULT_66,
        };
        self.lock = bit_cell(cells, sheet::CELL_73, sheet::DEFAULT_73);
        self.reply_address =
            u8::try_from(read_cell(cells, sheet::CELL_76)).unwrap_or(sheet::DEFAULT_76);
        self.autostart = bit_cell(cells, sheet::CELL_77, sheet::DEFAULT_77);
        self.running = self.autostart == 1;
        for (value, cell) in self.user.iter_mut().zip(&cells[sheet::CELL_USER..]) {
            *value = i32::from_be_bytes(*cell);
        }
    }

    /// A datagram: 0 where there is no reply, 20 or 23, else its status.
    #[inline]
    pub fn datagram(
        &mut self,
        program: &mut [u8],
        cells: &mut [u8],
        reply: &mut [u8],
        bytes: &[u8],
    ) -> u8 {
        let reply = <&mut Frame>::try_from(reply);
        let (Some(program), Some(cells), Ok(reply)) =
            (store::parts_mut(program), store::parts_mut(cells), reply)
        else {
            return status::LENGTH;
        };
        if !self.in_range() {
            return status::REGISTERS;
        }
        let Ok(bytes) = <&Frame>::try_from(bytes) else {
            return status::NONE;
        };
        let [address, seven @ .., sum] = bytes;
        if *address != self.module_address {
            return status::NONE;
        }
        // A command may change the addresses; the reply has those before it.
        let (to, from) = (self.reply_address, self.module_address);
        let outcome = if wire::checksum(bytes) == *sum {
            self.obey(Seven(seven), program, cells)
        } else {
            Err(status::CHECKSUM)
        };
        let (status, value) = outcome.unwrap_or_else(|refusal| (refusal, 0));
        wire::write_frame(reply, [to, from, status, seven[0]], value);
        status
    }

    /// A sample, its fields in the script's order.
    #[inline]
    pub fn sample(&mut self, sample: &[i32; 16]) -> u8 {
        if !self.in_range() {
            return status::REGISTERS;
        }
        if !sample_in_range(sample) {
            return status::SAMPLE;
        }
        for (field, place) in [P51, P52, P55, P211, P212, P213, P220, P221].into_iter().enumerate()
        {
            self.axis[place] = sample[field];
        }
        self.digital = [sample[8] as u8, sample[9] as u8];
        self.analog = [sample[10], sample[11], sample[12]];
        // An alarm that is on sets its flag, one that is off clears nothing.
        for alarm in 0..3 {
            self.flags[EAL + alarm] |= sample[13 + alarm] as u8;
        }
        status::DONE
    }

    /// A tick of 10 ms.
    #[inline]
    pub fn tick(&mut self) -> u8 {
        if !self.in_range() {
            return status::REGISTERS;
        }
        if self.wait.armed && self.wait.count > 0 {
            self.wait.count -= 1;
        }
        status::DONE
    }

    /// Runs at most `budget` steps.
    #[inline]
    pub fn run(&mut self, program: &[u8], cells: &mut [u8], budget: usize) -> Ran {
        let (Some(program), Some(cells)) = (store::parts(program), store::parts_mut(cells)) else {
            return Ran { status: status::LENGTH, steps: 0 };
        };
        if !self.in_range() {
            return Ran { status: status::REGISTERS, steps: 0 };
        }
        if budget > GREATEST_BUDGET {
            return Ran { status: status::BUDGET, steps: 0 };
        }
        if !self.running || budget == 0 {
            return Ran { status: status::DONE, steps: 0 };
        }
        self.steps(program, cells, budget)
    }

    /// One step, whether the program is running or not: its status. For
    /// looking at a run step by step.
    pub fn step(&mut self, program: &[u8], cells: &mut [u8]) -> u8 {
        match (store::parts(program), store::parts_mut(cells)) {
            (Some(program), Some(cells)) => self.steps(program, cells, 1).status,
            _ => status::LENGTH,
        }
    }
}

#[inline(always)]
fn sample_in_range(sample: &[i32; 16]) -> bool {
    let bits = sample[2..6].iter().chain(&sample[8..10]).chain(&sample[13..16]);
    // Of numbers below a power of two their OR is below it as well, so one
    // test serves them all; a negative one has the highest bit.
    let bits = bits.fold(0, |all, &field| all | field);
    let analog = sample[10] | sample[11] | sample[12];
    (0..=1).contains(&bits)
        && (0..=65_535).contains(&analog)
        && ROWS[P220].allows(sample[6])
        && ROWS[P221].allows(sample[7])
}

/// A cell's value, or the row's default where it is out of range.
#[inline(always)]
pub fn taken(row: &Row, value: i32) -> i32 {
    if row.allows(value) {
        value
    } else {
        row.default
    }
}

#[inline(always)]
fn bit_cell(cells: &Cells, cell: usize, default: i32) -> i32 {
    match read_cell(cells, cell) {
        value @ 0..=1 => value,
        _ => default,
    }
}
