//! The plain implementation: the board written straight from document 01 as
//! one struct of registers that each event changes in place.
//!
//! It shares no code with the library, so that an error would have to be made
//! twice to stay hidden. It is also the benchmark's baseline.

mod check;
mod control;
mod direct;
mod events;
mod registers;
mod sheet;
mod steps;
mod store;
mod wire;

#[cfg(test)]
mod proved_table;

pub use check::{check, Verdict};
pub use events::new_cells;
pub use registers::{Order, Registers, Wait};
pub use sheet::{place_of, settable, Row, AXIS, CELLS, CELLS_LENGTH, ROWS, USER_VARIABLES};
pub use steps::Ran;
pub use wire::{
    build_command, checksum, read_reply, Command, Reply, DATAGRAM_LENGTH, RECORD_LENGTH,
};

/// Records of a program store; as an address, the end behind the last one.
pub const RECORDS: usize = 1024;
/// Bytes of a program store.
pub const PROGRAM_LENGTH: usize = RECORDS * RECORD_LENGTH;
/// The address behind the last record.
pub const END_ADDRESS: u16 = RECORDS as u16;
/// Entries of the call stack.
pub const GREATEST_DEPTH: u8 = 8;
/// The greatest budget of a run.
pub const GREATEST_BUDGET: usize = 1000;

/// The numbers answered.
pub mod status {
    /// No reply: length or address.
    pub const NONE: u8 = 0;
    /// Wrong checksum.
    pub const CHECKSUM: u8 = 1;
    /// Command unknown or not built.
    pub const COMMAND: u8 = 2;
    /// Type wrong, or access not allowed.
    pub const TYPE: u8 = 3;
    /// Motor, bank or value wrong.
    pub const VALUE: u8 = 4;
    /// Stored settings or program locked.
    pub const LOCKED: u8 = 5;
    /// Not available now.
    pub const NOT_NOW: u8 = 6;
    /// A lent store or buffer of another length.
    pub const LENGTH: u8 = 20;
    /// A sample field out of range.
    pub const SAMPLE: u8 = 21;
    /// Budget above 1,000.
    pub const BUDGET: u8 = 22;
    /// Registers out of range.
    pub const REGISTERS: u8 = 23;
    /// Done.
    pub const DONE: u8 = 100;
    /// Put in program memory.
    pub const STORED: u8 = 101;
}

/// The command numbers.
pub mod number {
    pub const ROR: u8 = 1;
    pub const ROL: u8 = 2;
    pub const MST: u8 = 3;
    pub const MVP: u8 = 4;
    pub const SAP: u8 = 5;
    pub const GAP: u8 = 6;
    pub const STAP: u8 = 7;
    pub const RSAP: u8 = 8;
    pub const SGP: u8 = 9;
    pub const GGP: u8 = 10;
    pub const STGP: u8 = 11;
    pub const RSGP: u8 = 12;
    pub const SIO: u8 = 14;
    pub const GIO: u8 = 15;
    pub const CALC: u8 = 19;
    pub const COMP: u8 = 20;
    pub const JC: u8 = 21;
    pub const JA: u8 = 22;
    pub const CSUB: u8 = 23;
    pub const RSUB: u8 = 24;
    pub const WAIT: u8 = 27;
    pub const STOP: u8 = 28;
    pub const CALCX: u8 = 33;
    pub const AAP: u8 = 34;
    pub const AGP: u8 = 35;
    pub const CLE: u8 = 36;
    pub const STOP_PROGRAM: u8 = 128;
    pub const RUN_PROGRAM: u8 = 129;
    pub const ONE_STEP: u8 = 130;
    pub const RESET_PROGRAM: u8 = 131;
    pub const START_DOWNLOAD: u8 = 132;
    pub const END_DOWNLOAD: u8 = 133;
    pub const READ_PROGRAM: u8 = 134;
    pub const RUNNING: u8 = 135;
    pub const DEFAULTS: u8 = 137;
    pub const RESTART: u8 = 255;
}
