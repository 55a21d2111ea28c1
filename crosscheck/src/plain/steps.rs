//! Program steps: the flow commands and the run of a program.

use super::control::record_address;
use super::direct::{motor_zero, Carried, Done, Hand, Next};
use super::registers::{Registers, Wait, ETO, P211, P212, P213, P55};
use super::store::{Cells, Program};
use super::wire::{Seven, RECORD_LENGTH};
use super::{number, status, END_ADDRESS};

// The steps' function begins at a multiple of 64 bytes: where its loop comes to
// lie otherwise hangs on all code before it, and moves its time by a quarter.
#[cfg(target_os = "linux")]
std::arch::global_asm!(r#".pushsection .text.steps, "ax""#, ".p2align 6", ".popsection");

/// What a run answers.
#[derive(Clone, Copy, Debug, PartialEq, Eq)]
pub struct Ran {
    pub status: u8,
    pub steps: usize,
}

impl Registers {
    /// Steps until the budget is used, the program stops, or a WAIT holds. The
    /// first step is carried out whatever the budget and whether the program
    /// is running or not.
    #[inline(never)]
    pub fn steps(&mut self, program: &Program, cells: &mut Cells, budget: usize) -> Ran {
        self.drop_before(program.get(usize::from(self.address)));
        let mut steps = 0;
        loop {
            let ran = self.steps_to_refusal(program, cells, budget - steps);
            steps += ran.steps;
            let goes_on = ran.status != status::DONE && self.refuse(ran.status);
            if !goes_on || steps == budget {
                return Ran { status: ran.status, steps };
            }
        }
    }

    /// Any step that is not a WAIT drops the wait. Only a run's first step can
    /// find one: a step leaves it only where it holds, and then the run ends.
    #[inline(always)]
    fn drop_before(&mut self, first: Option<&[u8; RECORD_LENGTH]>) {
        if first.is_none_or(|record| Seven(record).number() != number::WAIT) {
            self.drop_wait();
        }
    }

    /// Steps as `steps` does, but no further than a step that is refused: it
    /// is counted, and what becomes of it is left to `refuse`.
    ///
    /// All of a step is here, in one function that nothing is inlined around
    /// and that calls nothing: so accumulator, address and depth stay where
    /// they are from step to step, and no change elsewhere moves them.
    #[cfg_attr(target_os = "linux", link_section = ".text.steps")]
    #[inline(never)]
    fn steps_to_refusal(&mut self, program: &Program, cells: &mut Cells, budget: usize) -> Ran {
        let mut hand = self.hand();
        let mut left = budget;
        let status = loop {
            let Some(record) = program.get(hand.address) else {
                break status::VALUE;
            };
            match self.carry_out(Seven(record), &mut hand, cells) {
                Ok(Next::On) => hand.address += 1,
                Ok(Next::There) => {}
                Ok(Next::Ends) => break status::DONE,
                Err(refusal) => break refusal,
            }
            if left == 1 {
                break status::DONE;
            }
            left -= 1;
        };
        self.put_back(&hand);
        Ran { status, steps: budget - left + 1 }
    }

    /// What becomes of a refused step: it drops the wait and the address rises
    /// by one; but an unknown command and address 1,024 stop the program, and
    /// the address stays. Answers whether the program goes on.
    #[cold]
    #[inline(never)]
    fn refuse(&mut self, refusal: u8) -> bool {
        self.drop_wait();
        let stops = refusal == status::COMMAND || self.address == END_ADDRESS;
        if stops {
            self.running = false;
        } else {
            self.address += 1;
        }
        !stops
    }

    /// The registers that a run carries.
    #[inline(always)]
    pub fn hand(&self) -> Hand {
        Hand {
            accumulator: self.accumulator,
            address: usize::from(self.address),
            depth: usize::from(self.depth),
        }
    }

    #[inline(always)]
    fn put_back(&mut self, hand: &Hand) {
        self.accumulator = hand.accumulator;
        self.address = hand.address as u16;
        self.depth = hand.depth as u8;
    }

    #[inline(always)]
    pub fn jump_conditionally(&self, record: Seven, hand: &mut Hand) -> Carried {
        let jumps = match record.kind() {
            0 => hand.accumulator == 0,
            1 => hand.accumulator != 0,
            2 => self.comparison == 0,
            3 => self.comparison != 0,
            4 => self.comparison > 0,
            5 => self.comparison >= 0,
            6 => self.comparison < 0,
            7 => self.comparison <= 0,
            flag @ 8..=11 => self.flags[usize::from(flag) - 8] == 1,
            _ => return Err(status::TYPE),
        };
        // A wrong target is refused also where the condition does not hold.
        let target = record_address(record.value())?;
        if !jumps {
            return Ok(Next::On);
        }
        hand.address = target;
        Ok(Next::There)
    }

    #[inline(always)]
    pub fn call(&mut self, record: Seven, hand: &mut Hand) -> Carried {
        let target = record_address(record.value())?;
        let entry = self.stack.get_mut(hand.depth).ok_or(status::NOT_NOW)?;
        *entry = hand.address as u16 + 1;
        hand.depth += 1;
        hand.address = target;
        Ok(Next::There)
    }

    #[inline(always)]
    pub fn return_from_call(&mut self, hand: &mut Hand) -> Carried {
        // At depth 0 this is no entry's number.
        let top = hand.depth.wrapping_sub(1);
        let entry = self.stack.get_mut(top).ok_or(status::NOT_NOW)?;
        hand.depth = top;
        hand.address = usize::from(std::mem::take(entry));
        Ok(Next::There)
    }

    #[inline(always)]
    pub fn stop(&mut self, hand: &mut Hand) -> Carried {
        self.running = false;
        self.empty_stack();
        (hand.address, hand.depth) = (0, 0);
        Ok(Next::Ends)
    }

    #[inline(always)]
    pub fn wait(&mut self, record: Seven, accumulator: i32) -> Carried {
        let ticks = judge_wait(record)?;
        if !self.wait.armed {
            self.arm_wait(ticks, accumulator)?;
        }
        let run_out = self.wait.count == 0;
        let condition = match record.kind() {
            0 => run_out,
            1 => self.axis[P55] == 1,
            2 => self.axis[P213] == 1,
            _ => self.axis[P211] == 1 || self.axis[P212] == 1,
        };
        let timeout = run_out && self.wait.timed;
        if !condition && !timeout {
            return Ok(Next::Ends);
        }
        if !condition {
            self.flags[ETO] = 1;
        }
        self.drop_wait();
        Ok(Next::On)
    }

    /// Arms the count; without ticks it is the accumulator, which is judged
    /// only here.
    #[inline(always)]
    fn arm_wait(&mut self, ticks: Option<u32>, accumulator: i32) -> Done {
        let count = match ticks {
            Some(count) => count,
            None => u32::try_from(accumulator).map_err(|_| status::VALUE)?,
        };
        self.wait = Wait { armed: true, count, timed: count > 0 };
        Ok(())
    }
}

#[inline(always)]
pub fn jump(record: Seven, hand: &mut Hand) -> Carried {
    hand.address = record_address(record.value())?;
    Ok(Next::There)
}

/// The ticks a WAIT asks for; `None` for those in the accumulator.
#[inline(always)]
pub fn judge_wait(record: Seven) -> Result<Option<u32>, u8> {
    let value = record.value();
    match record.kind() {
        0 if value == -1 => return Ok(None),
        0 => {}
        1..=3 => motor_zero(record)?,
        _ => return Err(status::TYPE),
    }
    u32::try_from(value).map(Some).map_err(|_| status::VALUE)
}
