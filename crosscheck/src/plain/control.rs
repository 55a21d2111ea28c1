//! Direct mode: what becomes of a datagram's command, and the control
//! commands from 128 up.

use super::direct::{wanted, Done, Outcome};
use super::events::put_default_cells;
use super::registers::{Order, Registers};
use super::sheet::{self, Access, KEY, ROWS};
use super::store::{Cells, Program};
use super::wire::Seven;
use super::{number, status, RECORDS};

impl Registers {
    /// Obeys a datagram's command: its status and the value replied, or the
    /// status that refuses it.
    #[inline(always)]
    pub fn obey(
        &mut self,
        command: Seven,
        program: &mut Program,
        cells: &mut Cells,
    ) -> Result<(u8, i32), u8> {
        let value = match command.number() {
            0..=127 if self.download => {
                self.store_record(command, program)?;
                return Ok((status::STORED, command.value()));
            }
            number::JC..=number::RSUB | number::WAIT | number::STOP => {
                return Err(status::NOT_NOW);
            }
            0..=127 => self.obey_directly(command, cells)?,
            _ => self.control(command, program, cells)?,
        };
        Ok((status::DONE, value))
    }

    /// Direct mode: the value read, or the new accumulator for CALC and CALCX,
    /// else the value sent. What is read leaves the accumulator.
    #[inline(always)]
    fn obey_directly(&mut self, command: Seven, cells: &mut Cells) -> Outcome {
        let mut hand = self.hand();
        self.carry_out(command, &mut hand, cells)?;
        match command.number() {
            number::GAP | number::GGP | number::GIO => Ok(hand.accumulator),
            number::CALC | number::CALCX => {
                self.accumulator = hand.accumulator;
                Ok(hand.accumulator)
            }
            _ => Ok(command.value()),
        }
    }

    /// Download mode: puts the command at the write address.
    fn store_record(&mut self, command: Seven, program: &mut Program) -> Done {
        wanted(command.number() != 0, status::COMMAND)?;
        self.unlocked()?;
        let record = program.get_mut(usize::from(self.write_address)).ok_or(status::VALUE)?;
        *record = *command.0;
        self.write_address += 1;
        Ok(())
    }

    #[inline(never)]
    fn control(&mut self, command: Seven, program: &Program, cells: &mut Cells) -> Outcome {
        match command.number() {
            number::STOP_PROGRAM => self.stop_program(),
            number::RUN_PROGRAM => self.run_program(command)?,
            number::ONE_STEP => self.one_step(program, cells)?,
            number::RESET_PROGRAM => self.reset_program(),
            number::START_DOWNLOAD => self.start_download(command)?,
            number::END_DOWNLOAD => self.download = false,
            number::READ_PROGRAM => return read_program(command, program),
            number::RUNNING => return Ok(self.running.into()),
            number::DEFAULTS => self.restore_defaults(command, cells)?,
            number::RESTART => self.restart(command, cells)?,
            _ => return Err(status::COMMAND),
        }
        Ok(command.value())
    }

    fn stop_program(&mut self) {
        self.running = false;
        self.drop_wait();
    }

    fn run_program(&mut self, command: Seven) -> Done {
        wanted(!self.download, status::NOT_NOW)?;
        match command.kind() {
            0 => {}
            1 => {
                self.address = record_address(command.value())? as u16;
                self.empty_stack();
                self.drop_wait();
            }
            _ => return Err(status::TYPE),
        }
        self.running = true;
        Ok(())
    }

    /// The step's own status is not shown.
    fn one_step(&mut self, program: &Program, cells: &mut Cells) -> Done {
        wanted(!self.running && !self.download, status::NOT_NOW)?;
        self.steps(program, cells, 1);
        Ok(())
    }

    fn reset_program(&mut self) {
        self.running = false;
        self.address = 0;
        self.empty_stack();
        self.drop_wait();
        self.download = false;
    }

    fn start_download(&mut self, command: Seven) -> Done {
        wanted(!self.running, status::NOT_NOW)?;
        let address = record_address(command.value())?;
        self.unlocked()?;
        self.download = true;
        self.write_address = address as u16;
        self.drop_wait();
        Ok(())
    }

    /// 137: read-only parameters and all else that is not named stay.
    fn restore_defaults(&mut self, command: Seven, cells: &mut Cells) -> Done {
        wanted(!self.running, status::NOT_NOW)?;
        key(command)?;
        self.unlocked()?;
        for (value, row) in self.axis.iter_mut().zip(&ROWS) {
            if row.access != Access::Read {
                *value = row.default;
            }
        }
        self.module_address = sheet::DEFAULT_66;
        self.lock = sheet::DEFAULT_73;
        self.reply_address = sheet::DEFAULT_76;
        self.autostart = sheet::DEFAULT_77;
        self.user.fill(0);
        put_default_cells(cells);
        self.give_order(Order::Stopped, 0);
        Ok(())
    }

    fn restart(&mut self, command: Seven, cells: &Cells) -> Done {
        key(command)?;
        self.take_cells(cells);
        Ok(())
    }
}

/// 134: the record's value, or its other three bytes as one number.
fn read_program(command: Seven, program: &Program) -> Outcome {
    wanted(command.kind() <= 1, status::TYPE)?;
    let record = Seven(&program[record_address(command.value())?]);
    if command.kind() == 0 {
        return Ok(record.value());
    }
    let [number, kind, motor] = [record.number(), record.kind(), record.motor()].map(i32::from);
    Ok(number * 65_536 + kind * 256 + motor)
}

/// The value as the address of a record, 0 to 1,023.
#[inline(always)]
pub fn record_address(value: i32) -> Result<usize, u8> {
    wanted((0..RECORDS as i32).contains(&value), status::VALUE)?;
    Ok(value as usize)
}

/// 137 and 255 want a key, so that no stray datagram sets them off.
fn key(command: Seven) -> Done {
    wanted(command.value() == KEY, status::VALUE)
}
