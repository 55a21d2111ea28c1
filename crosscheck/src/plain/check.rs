//! The program check: follows every way the records lead from address 0.
//!
//! An address is looked at for all depths that come to it together: its
//! record is judged once for them, and only CSUB and RSUB ask which they are.

use super::control::record_address;
use super::direct::{bank_2, motor_zero, user_variable, wanted, Done};
use super::sheet;
use super::steps::judge_wait;
use super::store::{self, Program};
use super::wire::Seven;
use super::{number, status, GREATEST_DEPTH, RECORDS};

/// What the check answers; the point is (0, 0) unless a bad one is named.
#[derive(Clone, Copy, Debug, PartialEq, Eq)]
pub struct Verdict {
    pub status: u8,
    pub address: u16,
    pub depth: u8,
}

/// A set of depths, a bit for each.
type Depths = u16;

const ZERO: Depths = 1;
const DEEPEST: Depths = 1 << GREATEST_DEPTH;
const ADDRESSES: usize = RECORDS + 1;
const WORD: usize = u64::BITS as usize;

/// The depths at which one address was found, and those of them that still
/// wait to be followed.
#[derive(Clone, Copy)]
struct Found {
    all: Depths,
    waiting: Depths,
}

/// Where a record leads, at every depth alike.
enum Way {
    Next,
    Jump(usize),
    Branch(usize),
    Call(usize),
    Return,
    End,
}

/// What the search has found so far.
struct Search {
    found: [Found; ADDRESSES],
    /// A bit for each address where some depth waits. One where none waits any
    /// more may still have its bit.
    waiting: [u64; ADDRESSES.div_ceil(WORD)],
    /// The lowest bad point, by address, then depth.
    worst: Option<Verdict>,
}

/// Checks the program begun at address 0.
pub fn check(program: &[u8]) -> Verdict {
    let Some(program) = store::parts(program) else {
        return Verdict { status: status::LENGTH, address: 0, depth: 0 };
    };
    let mut search = Search {
        found: [Found { all: 0, waiting: 0 }; ADDRESSES],
        waiting: [0; ADDRESSES.div_ceil(WORD)],
        worst: None,
    };
    search.put(0, ZERO);
    // Each depth waits at each address at most once, so the search ends.
    while let Some(address) = search.lowest_waiting() {
        let depths = search.take(address, 0);
        search.follow(program, address, depths);
    }
    search.worst.unwrap_or(Verdict { status: status::DONE, address: 0, depth: 0 })
}

impl Search {
    /// Lets the depths that are new at an address wait there.
    #[inline(always)]
    fn put(&mut self, address: usize, depths: Depths) {
        let found = &mut self.found[address];
        let new = depths & !found.all;
        if new != 0 {
            found.all |= new;
            found.waiting |= new;
            self.waiting[address / WORD] |= 1 << (address % WORD);
        }
    }

    /// The depths to follow at an address: those of these that are new there,
    /// and those that wait.
    #[inline(always)]
    fn take(&mut self, address: usize, depths: Depths) -> Depths {
        let found = &mut self.found[address];
        let taken = depths & !found.all | found.waiting;
        found.all |= depths;
        found.waiting = 0;
        taken
    }

    /// Takes the lowest address from those where depths wait. The lowest
    /// first, so that depths which come to an address by several ways meet.
    #[inline(always)]
    fn lowest_waiting(&mut self) -> Option<usize> {
        let (at, word) = self.waiting.iter_mut().enumerate().find(|(_, word)| **word != 0)?;
        let bit = word.trailing_zeros() as usize;
        *word &= *word - 1;
        Some(at * WORD + bit)
    }

    /// Follows the records from an address on, until they lead elsewhere, are
    /// bad, or come to where nothing is new.
    #[inline(always)]
    fn follow(&mut self, program: &Program, mut address: usize, mut depths: Depths) {
        while depths != 0 {
            match program.get(address).map_or(Err(status::VALUE), |record| way(Seven(record))) {
                Ok(Way::Next) => {}
                Ok(Way::Jump(target)) => return self.put(target, depths),
                Ok(Way::Branch(target)) => self.put(target, depths),
                Ok(Way::Call(target)) => {
                    self.refuse(address, depths & DEEPEST, status::NOT_NOW);
                    depths &= !DEEPEST;
                    self.put(target, depths << 1);
                }
                Ok(Way::Return) => return self.refuse(address, depths & ZERO, status::NOT_NOW),
                Ok(Way::End) => return,
                Err(status) => return self.refuse(address, depths, status),
            }
            address += 1;
            depths = self.take(address, depths);
        }
    }

    /// Keeps the lowest of the points at an address if it is the lowest so
    /// far; no depths are no points.
    #[inline(always)]
    fn refuse(&mut self, address: usize, depths: Depths, status: u8) {
        if depths == 0 {
            return;
        }
        let (address, depth) = (address as u16, depths.trailing_zeros() as u8);
        if self.worst.is_none_or(|named| (address, depth) < (named.address, named.depth)) {
            self.worst = Some(Verdict { status, address, depth });
        }
    }
}

/// Where a record leads, or the status of a bad one: it is judged by what it
/// says itself, all that does not hang on accumulator, X, parameters or lock.
///
/// One match for all commands, so that a record is told apart once.
#[inline(always)]
fn way(record: Seven) -> Result<Way, u8> {
    match record.number() {
        number::JA => return record_address(record.value()).map(Way::Jump),
        number::JC => {
            type_up_to(record, 11)?;
            return record_address(record.value()).map(Way::Branch);
        }
        number::CSUB => return record_address(record.value()).map(Way::Call),
        number::RSUB => return Ok(Way::Return),
        number::STOP => return Ok(Way::End),
        number::ROR | number::ROL | number::MST => motor_zero(record)?,
        number::MVP => {
            motor_zero(record)?;
            type_up_to(record, 1)?;
        }
        number::SAP => {
            let row = judge_settable(record)?;
            wanted(row.allows(record.value()), status::VALUE)?;
        }
        number::AAP => judge_settable(record).map(|_| ())?,
        number::GAP => judge_axis(record, sheet::row_of(record.kind()).is_some())?,
        number::STAP | number::RSAP => {
            judge_axis(record, sheet::stored_cell(record.kind()).is_some())?;
        }
        number::SGP => wanted(judge_settable_global(record)?, status::VALUE)?,
        number::AGP => judge_settable_global(record).map(|_| ())?,
        number::GGP => {
            let has = matches!(record.kind(), 66 | 73 | 76 | 77 | 128 | 130);
            judge_global(record, has.then_some(true))?;
        }
        number::STGP | number::RSGP => {
            bank_2(record)?;
            user_variable(record)?;
        }
        number::SIO => {
            bank_2(record)?;
            type_up_to(record, 3)?;
            wanted((0..=1).contains(&record.value()), status::VALUE)?;
        }
        number::GIO => judge_port(record)?,
        number::CALC => {
            type_up_to(record, 9)?;
            let divides = record.kind() == 3 || record.kind() == 4;
            wanted(!(divides && record.value() == 0), status::VALUE)?;
        }
        number::CALCX => type_up_to(record, 10)?,
        number::COMP => {}
        number::CLE => type_up_to(record, 4)?,
        number::WAIT => judge_wait(record).map(|_| ())?,
        _ => return Err(status::COMMAND),
    }
    Ok(Way::Next)
}

/// An axis command's motor and type; `on_sheet` says whether it has the type.
#[inline(always)]
fn judge_axis(record: Seven, on_sheet: bool) -> Done {
    motor_zero(record)?;
    wanted(on_sheet, status::TYPE)
}

#[inline(always)]
fn judge_settable(record: Seven) -> Result<&'static sheet::Row, u8> {
    motor_zero(record)?;
    sheet::settable(record.kind()).map(|(_, row)| row).ok_or(status::TYPE)
}

/// A global's bank and type, where it shall be set: whether it may have the
/// record's value.
#[inline(always)]
fn judge_settable_global(record: Seven) -> Result<bool, u8> {
    judge_global(record, sheet::global_allows(record.kind(), record.value()))
}

/// A global's bank and type; `in_bank_0` is what bank 0 answers to the type,
/// if it has it. Bank 2 allows all values.
#[inline(always)]
fn judge_global(record: Seven, in_bank_0: Option<bool>) -> Result<bool, u8> {
    match record.motor() {
        0 => in_bank_0.ok_or(status::TYPE),
        2 => user_variable(record).map(|_| true),
        _ => Err(status::VALUE),
    }
}

#[inline(always)]
fn judge_port(record: Seven) -> Done {
    match record.motor() {
        0 => type_up_to(record, 1),
        1 => type_up_to(record, 2),
        2 => type_up_to(record, 3),
        _ => Err(status::VALUE),
    }
}

#[inline(always)]
fn type_up_to(record: Seven, last: u8) -> Done {
    wanted(record.kind() <= last, status::TYPE)
}
