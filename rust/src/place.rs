//! Where each register stands in the image of [`Registers`](crate::Registers).

use crate::REGISTERS;

/// The accumulator.
pub const ACCUMULATOR: usize = 0;
/// The X register.
pub const X: usize = 1;
/// The last comparison, accumulator against value: -1 less, 0 equal, 1 greater.
pub const COMPARISON: usize = 2;
/// Flag ETO, a WAIT's timeout.
pub const ETO: usize = 3;
/// Flag EAL.
pub const EAL: usize = 4;
/// Flag EDV.
pub const EDV: usize = 5;
/// Flag EPO.
pub const EPO: usize = 6;
/// The program address, 0 to 1,024.
pub const ADDRESS: usize = 7;
/// Running, 0 or 1.
pub const RUNNING: usize = 8;
/// Whether a wait is armed, 0 or 1.
pub const WAIT_ARMED: usize = 9;
/// The wait's count: a `u32` whose bits stand in the place.
pub const WAIT_COUNT: usize = 10;
/// Whether the wait was armed with a value above 0.
pub const WAIT_TIMED: usize = 11;
/// Download mode, 0 or 1.
pub const DOWNLOAD: usize = 12;
/// The write address of the download, 0 to 1,024.
pub const WRITE_ADDRESS: usize = 13;
/// The motion order: 0 stopped, 1 velocity, 2 position.
pub const ORDER: usize = 14;
/// The order's velocity, 0 unless the order is velocity.
pub const VELOCITY: usize = 15;
/// The first of the four outputs.
pub const OUTPUTS: usize = 16;
/// The first of the two digital inputs.
pub const DIGITAL_INPUTS: usize = 20;
/// The first of the three analog inputs.
pub const ANALOG_INPUTS: usize = 22;
/// The depth of the call stack, 0 to 8.
pub const DEPTH: usize = 25;
/// The first of the eight return addresses, first pushed first.
pub const STACK: usize = 26;
/// Global 66, the module address.
pub const MODULE_ADDRESS: usize = 34;
/// Global 73, the lock: 0 open, 1 locked.
pub const LOCK: usize = 35;
/// Global 76, the reply address.
pub const REPLY_ADDRESS: usize = 36;
/// Global 77, whether power-up starts the program.
pub const AUTOSTART: usize = 37;
/// The first of the 56 user variables.
pub const USER_VARIABLES: usize = 38;
/// The first of the 43 axis parameters, by rising number; see [`axis`].
pub const AXIS: usize = 94;

/// The numbers of the 43 axis parameters, in the order of their places.
pub const AXIS_NUMBERS: [u8; 43] = [
    10, 11, 14, 15, 43, 44, 47, 50, 51, 52, 53, 54, 55, 56, 70, 71, 72, 73, 74, 90, 91, 92, 93,
    100, 101, 102, 104, 105, 106, 107, 108, 110, 140, 141, 142, 209, 210, 211, 212, 213, 220, 221,
    240,
];

/// The place of an axis parameter, if there is one of that number.
pub fn axis(number: u8) -> Option<usize> {
    let index = AXIS_NUMBERS.binary_search(&number).ok()?;
    Some(AXIS + index)
}

/// A readable name for any place of the image, such as `axis 52`.
pub fn name(place: usize) -> String {
    match place {
        ACCUMULATOR => "accumulator".into(),
        X => "x".into(),
        COMPARISON => "last comparison".into(),
        ETO => "ETO".into(),
        EAL => "EAL".into(),
        EDV => "EDV".into(),
        EPO => "EPO".into(),
        ADDRESS => "program address".into(),
        RUNNING => "running".into(),
        WAIT_ARMED => "wait armed".into(),
        WAIT_COUNT => "wait count".into(),
        WAIT_TIMED => "wait timed".into(),
        DOWNLOAD => "download mode".into(),
        WRITE_ADDRESS => "write address".into(),
        ORDER => "order".into(),
        VELOCITY => "velocity".into(),
        OUTPUTS..DIGITAL_INPUTS => format!("output {}", place - OUTPUTS),
        DIGITAL_INPUTS..ANALOG_INPUTS => format!("digital input {}", place - DIGITAL_INPUTS),
        ANALOG_INPUTS..DEPTH => format!("analog input {}", place - ANALOG_INPUTS),
        DEPTH => "depth".into(),
        STACK..MODULE_ADDRESS => format!("return address {}", place - STACK),
        MODULE_ADDRESS => "global 66".into(),
        LOCK => "global 73".into(),
        REPLY_ADDRESS => "global 76".into(),
        AUTOSTART => "global 77".into(),
        USER_VARIABLES..AXIS => format!("user variable {}", place - USER_VARIABLES),
        AXIS..REGISTERS => format!("axis {}", AXIS_NUMBERS[place - AXIS]),
        _ => format!("place {place}"),
    }
}
