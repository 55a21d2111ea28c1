//! The commands by number, and those that mean the same in direct mode and in
//! a program: motion, parameters, inputs and outputs, arithmetic.
//!
//! Each is judged in the paper's order - motor or bank, type, value, lock -
//! before it changes anything.

use super::events::taken;
use super::registers::{Order, Registers, P43, P50, P52};
use super::sheet::{self, KEY, USER_VARIABLES};
use super::steps::jump;
use super::store::{read_cell, write_cell, Cells};
use super::wire::Seven;
use super::{number, status};

/// The value a command reads, or the status that refuses it.
pub type Outcome = Result<i32, u8>;
/// Nothing, or the status that refuses the command.
pub type Done = Result<(), u8>;

/// The registers that the next step wants at once. A run carries them beside
/// the others and puts them back at its end; direct mode, which leaves two of
/// them and most times the accumulator, lends a copy of them.
pub struct Hand {
    pub accumulator: i32,
    pub address: usize,
    pub depth: usize,
}

/// Where a step that was not refused leads.
pub enum Next {
    /// To the record behind it.
    On,
    /// To the address that it has put into the hand.
    There,
    /// Nowhere, and the run ends: a STOP, or a WAIT that holds.
    Ends,
}

/// Where a command leads, or the status that refuses it.
pub type Carried = Result<Next, u8>;

impl Registers {
    /// Carries out a command. What it reads or calculates goes into the hand's
    /// accumulator.
    ///
    /// One match for all commands, long as it is, with each of them inlined:
    /// so a command is told apart once, and a step calls nothing.
    #[inline(always)]
    pub fn carry_out(&mut self, command: Seven, hand: &mut Hand, cells: &mut Cells) -> Carried {
        let accumulator = hand.accumulator;
        match command.number() {
            number::JC => return self.jump_conditionally(command, hand),
            number::JA => return jump(command, hand),
            number::CSUB => return self.call(command, hand),
            number::RSUB => return self.return_from_call(hand),
            number::WAIT => return self.wait(command, accumulator),
            number::STOP => return self.stop(hand),
            number::ROR => self.rotate(command, command.value())?,
            number::ROL => self.rotate(command, command.value().wrapping_neg())?,
            number::MST => self.motor_stop(command)?,
            number::MVP => self.move_to_position(command)?,
            number::SAP => self.set_axis(command, command.value())?,
            number::GAP => hand.accumulator = self.get_axis(command)?,
            number::STAP => self.store_axis(command, cells)?,
            number::RSAP => self.restore_axis(command, cells)?,
            number::SGP => self.set_global(command, command.value(), cells)?,
            number::GGP => hand.accumulator = self.get_global(command, hand.address)?,
            number::STGP => self.store_user(command, cells)?,
            number::RSGP => self.restore_user(command, cells)?,
            number::SIO => self.set_output(command)?,
            number::GIO => hand.accumulator = self.get_input_or_output(command)?,
            number::CALC => hand.accumulator = calc(command, accumulator)?,
            number::COMP => self.comparison = accumulator.cmp(&command.value()) as i8,
            number::CALCX => hand.accumulator = self.calcx(command, accumulator)?,
            number::AAP => self.set_axis(command, accumulator)?,
            number::AGP => self.set_global(command, accumulator, cells)?,
            number::CLE => self.clear_flags(command)?,
            _ => return Err(status::COMMAND),
        }
        Ok(Next::On)
    }

    /// ROR and ROL. The range is that of the value sent, so that negating
    /// -2147483648 cannot slip through.
    #[inline(always)]
    fn rotate(&mut self, command: Seven, velocity: i32) -> Done {
        motor_zero(command)?;
        let limit = self.axis[P43];
        wanted((-limit..=limit).contains(&command.value()), status::VALUE)?;
        self.give_order(Order::Velocity, velocity);
        Ok(())
    }

    #[inline(always)]
    fn motor_stop(&mut self, command: Seven) -> Done {
        motor_zero(command)?;
        self.give_order(Order::Stopped, 0);
        Ok(())
    }

    #[inline(always)]
    fn move_to_position(&mut self, command: Seven) -> Done {
        motor_zero(command)?;
        let target = match command.kind() {
            0 => command.value(),
            1 => self.axis[P52].checked_add(command.value()).ok_or(status::VALUE)?,
            _ => return Err(status::TYPE),
        };
        self.order_position(target);
        Ok(())
    }

    #[inline(always)]
    fn order_position(&mut self, target: i32) {
        self.axis[P50] = target;
        self.give_order(Order::Position, 0);
    }

    /// SAP and AAP.
    #[inline(always)]
    fn set_axis(&mut self, command: Seven, value: i32) -> Done {
        motor_zero(command)?;
        let (place, row) = sheet::settable(command.kind()).ok_or(status::TYPE)?;
        wanted(row.allows(value), status::VALUE)?;
        self.axis[place] = value;
        // Setting 50 acts as MVP ABS.
        if place == P50 {
            self.give_order(Order::Position, 0);
        }
        Ok(())
    }

    #[inline(always)]
    fn get_axis(&self, command: Seven) -> Outcome {
        motor_zero(command)?;
        let (place, _) = sheet::row_of(command.kind()).ok_or(status::TYPE)?;
        Ok(self.axis[place])
    }

    #[inline(always)]
    fn store_axis(&mut self, command: Seven, cells: &mut Cells) -> Done {
        motor_zero(command)?;
        let (place, cell) = sheet::stored_cell(command.kind()).ok_or(status::TYPE)?;
        self.unlocked()?;
        write_cell(cells, cell, self.axis[place]);
        Ok(())
    }

    #[inline(always)]
    fn restore_axis(&mut self, command: Seven, cells: &Cells) -> Done {
        motor_zero(command)?;
        let (place, cell) = sheet::stored_cell(command.kind()).ok_or(status::TYPE)?;
        self.axis[place] = taken(&sheet::ROWS[place], read_cell(cells, cell));
        Ok(())
    }

    /// SGP and AGP.
    #[inline(always)]
    fn set_global(&mut self, command: Seven, value: i32, cells: &mut Cells) -> Done {
        match command.motor() {
            0 => self.set_bank_0(command.kind(), value, cells)?,
            2 => self.user[user_variable(command)?] = value,
            _ => return Err(status::VALUE),
        }
        Ok(())
    }

    /// Globals of bank 0 reach their cells at once; the lock does not keep
    /// itself from being set.
    #[inline(always)]
    fn set_bank_0(&mut self, kind: u8, value: i32, cells: &mut Cells) -> Done {
        let allowed = sheet::global_allows(kind, value).ok_or(status::TYPE)?;
        wanted(allowed, status::VALUE)?;
        if kind == 73 {
            self.lock = i32::from(value == KEY);
            write_cell(cells, sheet::CELL_73, self.lock);
            return Ok(());
        }
        self.unlocked()?;
        let cell = match kind {
            66 => {
                self.module_address = value as u8;
                sheet::CELL_66
            }
            76 => {
                self.reply_address = value as u8;
                sheet::CELL_76
            }
            _ => {
                self.autostart = value;
                sheet::CELL_77
            }
        };
        write_cell(cells, cell, value);
        Ok(())
    }

    #[inline(always)]
    fn get_global(&self, command: Seven, address: usize) -> Outcome {
        match command.motor() {
            0 => self.get_bank_0(command.kind(), address),
            2 => Ok(self.user[user_variable(command)?]),
            _ => Err(status::VALUE),
        }
    }

    #[inline(always)]
    fn get_bank_0(&self, kind: u8, address: usize) -> Outcome {
        match kind {
            66 => Ok(self.module_address.into()),
            73 => Ok(self.lock),
            76 => Ok(self.reply_address.into()),
            77 => Ok(self.autostart),
            128 => Ok(self.running.into()),
            130 => Ok(address as i32),
            _ => Err(status::TYPE),
        }
    }

    #[inline(always)]
    fn store_user(&mut self, command: Seven, cells: &mut Cells) -> Done {
        bank_2(command)?;
        let variable = user_variable(command)?;
        self.unlocked()?;
        write_cell(cells, sheet::CELL_USER + variable, self.user[variable]);
        Ok(())
    }

    #[inline(always)]
    fn restore_user(&mut self, command: Seven, cells: &Cells) -> Done {
        bank_2(command)?;
        let variable = user_variable(command)?;
        self.user[variable] = read_cell(cells, sheet::CELL_USER + variable);
        Ok(())
    }

    #[inline(always)]
    fn set_output(&mut self, command: Seven) -> Done {
        bank_2(command)?;
        let output = self.outputs.get_mut(usize::from(command.kind())).ok_or(status::TYPE)?;
        wanted((0..=1).contains(&command.value()), status::VALUE)?;
        *output = command.value() as u8;
        Ok(())
    }

    #[inline(always)]
    fn get_input_or_output(&self, command: Seven) -> Outcome {
        let port = usize::from(command.kind());
        let value = match command.motor() {
            0 => self.digital.get(port).map(|&input| input.into()),
            1 => self.analog.get(port).copied(),
            2 => self.outputs.get(port).map(|&output| output.into()),
            _ => return Err(status::VALUE),
        };
        value.ok_or(status::TYPE)
    }

    /// Answers the accumulator as it then is.
    #[inline(always)]
    fn calcx(&mut self, command: Seven, accumulator: i32) -> Outcome {
        match command.kind() {
            8 => Ok(!self.x),
            9 => {
                self.x = accumulator;
                Ok(accumulator)
            }
            10 => Ok(std::mem::replace(&mut self.x, accumulator)),
            kind => arithmetic(kind, accumulator, self.x),
        }
    }

    #[inline(always)]
    fn clear_flags(&mut self, command: Seven) -> Done {
        match command.kind() {
            0 => self.flags = [0; 4],
            flag @ 1..=4 => self.flags[usize::from(flag) - 1] = 0,
            _ => return Err(status::TYPE),
        }
        Ok(())
    }

    /// Refuses with 5 while locked.
    #[inline(always)]
    pub fn unlocked(&self) -> Done {
        wanted(!self.locked(), status::LOCKED)
    }
}

/// Answers the accumulator as it then is.
#[inline(always)]
fn calc(command: Seven, accumulator: i32) -> Outcome {
    match command.kind() {
        8 => Ok(!accumulator),
        9 => Ok(command.value()),
        kind => arithmetic(kind, accumulator, command.value()),
    }
}

/// Types 0 to 7 of CALC and CALCX.
#[inline(always)]
fn arithmetic(kind: u8, left: i32, right: i32) -> Outcome {
    match kind {
        0 => Ok(left.wrapping_add(right)),
        1 => Ok(left.wrapping_sub(right)),
        2 => Ok(left.wrapping_mul(right)),
        3 | 4 if right == 0 => Err(status::VALUE),
        3 => Ok(left.wrapping_div(right)),
        4 => Ok(left.wrapping_rem(right)),
        5 => Ok(left & right),
        6 => Ok(left | right),
        7 => Ok(left ^ right),
        _ => Err(status::TYPE),
    }
}

/// Axis commands want motor 0.
#[inline(always)]
pub fn motor_zero(command: Seven) -> Done {
    wanted(command.motor() == 0, status::VALUE)
}

/// STGP, RSGP and SIO want bank 2.
#[inline(always)]
pub fn bank_2(command: Seven) -> Done {
    wanted(command.motor() == 2, status::VALUE)
}

/// The user variable that the type names.
#[inline(always)]
pub fn user_variable(command: Seven) -> Result<usize, u8> {
    let variable = usize::from(command.kind());
    wanted(variable < USER_VARIABLES, status::TYPE)?;
    Ok(variable)
}

/// The refusal of what has to hold and does not.
#[inline(always)]
pub fn wanted(holds: bool, refusal: u8) -> Done {
    if holds {
        Ok(())
    } else {
        Err(refusal)
    }
}
