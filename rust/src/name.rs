//! Names for the numbers of a command, as `include/dhikmarul.h` has them, so
//! that no caller writes a bare number.

/// Command numbers.
pub mod command {
    /// Rotate right: value is the velocity.
    pub const ROR: u8 = 1;
    /// Rotate left.
    pub const ROL: u8 = 2;
    /// Motor stop.
    pub const MST: u8 = 3;
    /// Move to position.
    pub const MVP: u8 = 4;
    /// Set axis parameter.
    pub const SAP: u8 = 5;
    /// Get axis parameter: the working value.
    pub const GAP: u8 = 6;
    /// Store axis parameter in its cell.
    pub const STAP: u8 = 7;
    /// Restore axis parameter from its cell.
    pub const RSAP: u8 = 8;
    /// Set global parameter.
    pub const SGP: u8 = 9;
    /// Get global parameter.
    pub const GGP: u8 = 10;
    /// Store user variable.
    pub const STGP: u8 = 11;
    /// Restore user variable.
    pub const RSGP: u8 = 12;
    /// Set output.
    pub const SIO: u8 = 14;
    /// Get input or output.
    pub const GIO: u8 = 15;
    /// Calculate with a value.
    pub const CALC: u8 = 19;
    /// Compare the accumulator.
    pub const COMP: u8 = 20;
    /// Jump conditional (programs only).
    pub const JC: u8 = 21;
    /// Jump always (programs only).
    pub const JA: u8 = 22;
    /// Call subroutine (programs only).
    pub const CSUB: u8 = 23;
    /// Return (programs only).
    pub const RSUB: u8 = 24;
    /// Wait (programs only).
    pub const WAIT: u8 = 27;
    /// Stop (programs only).
    pub const STOP: u8 = 28;
    /// Calculate with X.
    pub const CALCX: u8 = 33;
    /// Accumulator to axis parameter.
    pub const AAP: u8 = 34;
    /// Accumulator to global parameter.
    pub const AGP: u8 = 35;
    /// Clear error flags.
    pub const CLE: u8 = 36;
    /// Stop the program.
    pub const STOP_PROGRAM: u8 = 128;
    /// Run the program.
    pub const RUN_PROGRAM: u8 = 129;
    /// One step.
    pub const STEP_PROGRAM: u8 = 130;
    /// Stop, address 0, stack empty.
    pub const RESET_PROGRAM: u8 = 131;
    /// Store what follows, from the address in value.
    pub const START_DOWNLOAD: u8 = 132;
    pub const END_DOWNLOAD: u8 = 133;
    /// Read the record at the address in value.
    pub const READ_PROGRAM: u8 = 134;
    /// Running 0 or 1.
    pub const GET_STATUS: u8 = 135;
    /// Value [`SURE`].
    pub const FACTORY_DEFAULTS: u8 = 137;
    /// As power-up; value [`SURE`].
    pub const RESET_BOARD: u8 = 255;
    /// The value that 137 and 255 want.
    pub const SURE: i32 = 1234;
}

/// Type words, each for the command in its name.
pub mod kind {
    pub const MVP_ABS: u8 = 0;
    pub const MVP_REL: u8 = 1;
    /// CALC and CALCX.
    pub const CALC_ADD: u8 = 0;
    pub const CALC_SUB: u8 = 1;
    pub const CALC_MUL: u8 = 2;
    pub const CALC_DIV: u8 = 3;
    pub const CALC_MOD: u8 = 4;
    pub const CALC_AND: u8 = 5;
    pub const CALC_OR: u8 = 6;
    pub const CALC_XOR: u8 = 7;
    pub const CALC_NOT: u8 = 8;
    /// CALC: value to accumulator; CALCX: accumulator to X.
    pub const CALC_LOAD: u8 = 9;
    /// Accumulator and X change places.
    pub const CALCX_SWAP: u8 = 10;
    /// Accumulator 0.
    pub const JC_ZE: u8 = 0;
    pub const JC_NZ: u8 = 1;
    /// The last COMP.
    pub const JC_EQ: u8 = 2;
    pub const JC_NE: u8 = 3;
    pub const JC_GT: u8 = 4;
    pub const JC_GE: u8 = 5;
    pub const JC_LT: u8 = 6;
    pub const JC_LE: u8 = 7;
    /// Timeout flag.
    pub const JC_ETO: u8 = 8;
    /// Alarm flag.
    pub const JC_EAL: u8 = 9;
    /// Deviation flag.
    pub const JC_EDV: u8 = 10;
    /// Position flag.
    pub const JC_EPO: u8 = 11;
    /// Value in 10 ms.
    pub const WAIT_TICKS: u8 = 0;
    /// Position reached.
    pub const WAIT_POS: u8 = 1;
    /// Home switch.
    pub const WAIT_REFSW: u8 = 2;
    /// Right or left switch.
    pub const WAIT_LIMSW: u8 = 3;
    pub const CLE_ALL: u8 = 0;
    pub const CLE_ETO: u8 = 1;
    pub const CLE_EAL: u8 = 2;
    pub const CLE_EDV: u8 = 3;
    pub const CLE_EPO: u8 = 4;
    /// 129: from the present address.
    pub const RUN_HERE: u8 = 0;
    /// 129: from the address in value.
    pub const RUN_FROM: u8 = 1;
    /// 134: the record's value.
    pub const PROGRAM_VALUE: u8 = 0;
    /// 134: command x 65,536 + type x 256 + motor.
    pub const PROGRAM_COMMAND: u8 = 1;
}

/// Values with a meaning of their own.
pub mod value {
    /// WAIT TICKS: as many ticks as the accumulator says.
    pub const WAIT_ACCUMULATOR: i32 = -1;
    /// Of an output, input, switch, alarm or flag.
    pub const OFF: i32 = 0;
    pub const ON: i32 = 1;
    /// Of the place `COMPARISON`.
    pub const LESS: i32 = -1;
    pub const EQUAL: i32 = 0;
    pub const GREATER: i32 = 1;
    /// A field that the command does not use.
    pub const UNUSED: i32 = 0;
    /// Where a new board answers.
    pub const BOARD_ADDRESS: i32 = 1;
    /// Where a new board replies to.
    pub const HOST_ADDRESS: i32 = 2;
}

/// Motors, banks and ports.
pub mod bank {
    /// The one motor.
    pub const MOTOR: u8 = 0;
    /// SGP, GGP, AGP: see [`super::global`].
    pub const BANK_SETTINGS: u8 = 0;
    /// User variables 0 to 55.
    pub const BANK_USER: u8 = 2;
    /// GIO: digital inputs 0, 1.
    pub const BANK_DIGITAL: u8 = 0;
    /// GIO: analog inputs 0, 1, 2.
    pub const BANK_ANALOG: u8 = 1;
    /// SIO, GIO: outputs 0 to 3.
    pub const BANK_OUTPUTS: u8 = 2;
    /// Type of SIO and GIO.
    pub const PORT_0: u8 = 0;
    pub const PORT_1: u8 = 1;
    pub const PORT_2: u8 = 2;
    pub const PORT_3: u8 = 3;
}

/// Axis parameters: access, range, default.
pub mod axis {
    /// RWE, 1..255, 4.
    pub const MOTOR_POLE_PAIRS: u8 = 10;
    /// RWE, 0..18000, 2000.
    pub const MAXIMUM_CURRENT: u8 = 11;
    /// RWE, 0, 1 or 3, 3.
    pub const MOTOR_TYPE: u8 = 14;
    /// RWE, 0..3, 0.
    pub const COMMUTATION_MODE: u8 = 15;
    /// RWE, 0..200000, 4000.
    pub const MAXIMUM_VELOCITY: u8 = 43;
    /// RWE, 0..100000, 2000.
    pub const ACCELERATION: u8 = 44;
    /// RWE, 0..200000, 10.
    pub const MOTOR_HALTED_VELOCITY: u8 = 47;
    /// RW, all, 0.
    pub const TARGET_POSITION: u8 = 50;
    /// R, all, 0.
    pub const RAMP_POSITION: u8 = 51;
    /// RW, all, 0.
    pub const ACTUAL_POSITION: u8 = 52;
    /// RWE, 0..100000, 50.
    pub const POSITION_REACHED_DISTANCE: u8 = 53;
    /// RWE, 0..200000, 500.
    pub const POSITION_REACHED_VELOCITY: u8 = 54;
    /// R, 0..1, 0.
    pub const POSITION_REACHED_FLAG: u8 = 55;
    /// RWE, 6..2147483647, 65536.
    pub const POSITION_SCALER: u8 = 56;
    /// RWE, 0..32767, 300.
    pub const TORQUE_P: u8 = 70;
    /// RWE, 0..32767, 300.
    pub const TORQUE_I: u8 = 71;
    /// RWE, 0..32767, 300.
    pub const VELOCITY_P: u8 = 72;
    /// RWE, 0..32767, 100.
    pub const VELOCITY_I: u8 = 73;
    /// RWE, 0..32767, 50.
    pub const POSITION_P: u8 = 74;
    /// RWE, 0..1, 0.
    pub const HALL_POLARITY: u8 = 90;
    /// RWE, 0..1, 0.
    pub const HALL_DIRECTION: u8 = 91;
    /// RWE, 0..1, 0.
    pub const HALL_INTERPOLATION: u8 = 92;
    /// RWE, -32768..32767, 0.
    pub const HALL_PHI_E_OFFSET: u8 = 93;
    /// RWE, 0..16777215, 4096.
    pub const ENCODER_STEPS: u8 = 100;
    /// RWE, 0..1, 0.
    pub const ENCODER_DIRECTION: u8 = 101;
    /// RWE, 0 or 2, 0.
    pub const ENCODER_INIT_MODE: u8 = 102;
    /// RWE, 0..10000, 1000.
    pub const ENCODER_INIT_DELAY: u8 = 104;
    /// RWE, -200000..200000, 100.
    pub const ENCODER_INIT_VELOCITY: u8 = 105;
    /// RWE, 0..65535, 0.
    pub const ENCODER_OFFSET: u8 = 106;
    /// RWE, 0..1, 0.
    pub const CLEAR_ON_NULL: u8 = 107;
    /// RWE, 0..1, 0.
    pub const CLEAR_ONCE: u8 = 108;
    /// RWE, 25000..100000, 25000.
    pub const MOTOR_PWM_FREQUENCY: u8 = 110;
    /// RWE, 0..1, 0.
    pub const ENABLE_BRAKE_CHOPPER: u8 = 140;
    /// RWE, 60..300, 300.
    pub const BRAKE_CHOPPER_VOLTAGE_LIMIT: u8 = 141;
    /// RWE, 0..50, 5.
    pub const BRAKE_CHOPPER_HYSTERESIS: u8 = 142;
    /// RW, 0..7, 0.
    pub const REFERENCE_SWITCH_ENABLE: u8 = 209;
    /// RW, 0..7, 0.
    pub const REFERENCE_SWITCH_POLARITY: u8 = 210;
    /// R, 0..1, 0.
    pub const RIGHT_REFERENCE_SWITCH: u8 = 211;
    /// R, 0..1, 0.
    pub const LEFT_REFERENCE_SWITCH: u8 = 212;
    /// R, 0..1, 0.
    pub const HOME_REFERENCE_SWITCH: u8 = 213;
    /// R, 0..1000, 240.
    pub const SUPPLY_VOLTAGE: u8 = 220;
    /// R, -20..150, 0.
    pub const DRIVER_TEMPERATURE: u8 = 221;
    /// RW, all, 0.
    pub const DEBUG_VALUE_0: u8 = 240;
}

/// Globals of bank 0.
pub mod global {
    /// 1..255, 1: our address.
    pub const SERIAL_ADDRESS: u8 = 66;
    /// Reads 0 or 1; set [`TO_LOCK`] or [`TO_UNLOCK`].
    pub const LOCK: u8 = 73;
    /// 0..255, 2: the reply's address.
    pub const HOST_ADDRESS: u8 = 76;
    /// 0..1, 0: whether power-up runs the program.
    pub const AUTO_START: u8 = 77;
    /// Read only.
    pub const RUNNING: u8 = 128;
    /// Read only.
    pub const PROGRAM_ADDRESS: u8 = 130;
    /// The value that locks.
    pub const TO_LOCK: i32 = 1234;
    /// The value that unlocks.
    pub const TO_UNLOCK: i32 = 4321;
}
