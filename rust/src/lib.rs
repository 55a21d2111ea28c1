//! Safe calls into `libdhikmarul`, the interpreter of a small motion-control
//! board that obeys TMCL commands of nine bytes.
//!
//! The library keeps no memory of its own: every event is handed the board's
//! [`Registers`] and is lent the stores it needs. A refusal leaves registers
//! and both stores as they were; only a reply writes the reply buffer. Each
//! function takes every input; a store of a wrong length is answered with
//! [`Status::LENGTH`], not with a panic.
//!
//! ```
//! use dhikmarul::{build_command, read_reply, Registers, Status, Stores};
//!
//! let mut stores = Stores::new();
//! let mut registers = Registers::default();
//! assert_eq!(registers.power_up(&stores.cells), Status::DONE);
//!
//! // GAP 56, motor 0: the default is 65536.
//! let mut command = [0; 9];
//! assert_eq!(build_command(&mut command, 1, 6, 56, 0, 0), Status::DONE);
//! let answer = registers.datagram(
//!     &mut stores.program, &mut stores.cells, &mut stores.reply, &command);
//! assert!(answer.replied);
//! assert_eq!(answer.status, Status::DONE);
//!
//! let reply = read_reply(&stores.reply);
//! assert_eq!(reply.status, Status::DONE);
//! assert_eq!(reply.value, 65536);
//! ```

mod ffi;
pub mod name;
pub mod place;

/// Records a program store holds.
pub const RECORDS: usize = 1024;
/// Bytes of one record: command, type, motor or bank, value (4).
pub const RECORD_LENGTH: usize = 7;
/// Bytes of a program store.
pub const PROGRAM_LENGTH: usize = RECORDS * RECORD_LENGTH;
/// Cells a parameter store holds.
pub const CELLS: usize = 91;
/// Bytes of a parameter store.
pub const CELLS_LENGTH: usize = CELLS * 4;
/// Bytes of a command, of a reply, and so of a reply buffer.
pub const DATAGRAM_LENGTH: usize = 9;
/// Numbers in the image of the registers.
pub const REGISTERS: usize = 137;
/// The greatest budget of a run.
pub const GREATEST_BUDGET: usize = 1000;

/// The number an event answers with.
#[derive(Clone, Copy, Debug, PartialEq, Eq, Hash, PartialOrd, Ord)]
pub struct Status(pub u8);

impl Status {
    /// A datagram that gets no reply: its length is not 9 or it is not ours.
    pub const NO_REPLY: Status = Status(0);
    /// The checksum is wrong.
    pub const CHECKSUM: Status = Status(1);
    /// The command is unknown or not built.
    pub const UNKNOWN: Status = Status(2);
    /// The type is wrong, or the access is not allowed.
    pub const WRONG_TYPE: Status = Status(3);
    /// The motor, bank or value is wrong.
    pub const WRONG_VALUE: Status = Status(4);
    /// The stored settings or the program are locked.
    pub const LOCKED: Status = Status(5);
    /// The command is not available now.
    pub const NOT_NOW: Status = Status(6);
    /// A lent store or buffer has another length than it should.
    pub const LENGTH: Status = Status(20);
    /// A field of a sample is out of range.
    pub const SAMPLE_RANGE: Status = Status(21);
    /// The budget is above 1,000.
    pub const BUDGET: Status = Status(22);
    /// A register handed in is out of range.
    pub const HANDED_IN: Status = Status(23);
    /// Done.
    pub const DONE: Status = Status(100);
    /// Put in program memory.
    pub const STORED: Status = Status(101);

    /// Whether a datagram answered with this number wrote a reply.
    pub const fn is_reply(self) -> bool {
        !matches!(self, Status::NO_REPLY | Status::LENGTH | Status::HANDED_IN)
    }
}

/// What a datagram answers.
#[derive(Clone, Copy, Debug, PartialEq, Eq)]
pub struct Answer {
    /// The reply's status, or why there is none.
    pub status: Status,
    /// Whether the reply buffer was written.
    pub replied: bool,
}

/// What a run answers.
#[derive(Clone, Copy, Debug, PartialEq, Eq)]
pub struct Ran {
    /// The last step's status, 100 with no step, or why there was no run.
    pub status: Status,
    /// Steps carried out; a holding WAIT counts.
    pub steps: usize,
}

/// What the program check answers.
#[derive(Clone, Copy, Debug, PartialEq, Eq)]
pub struct Verdict {
    /// [`Status::DONE`] for a passed program, else the named point's status.
    pub status: Status,
    /// The address of the point a refusal names, else 0.
    pub address: u16,
    /// The depth of the point a refusal names, else 0.
    pub depth: u8,
}

/// What reading a reply answers; all numbers but `status` are 0 if refused.
#[derive(Clone, Copy, Debug, PartialEq, Eq)]
pub struct Reply {
    /// Whether the bytes are a reply: 100, 20 or 1.
    pub status: Status,
    /// Who the reply is for (global 76 of the board).
    pub reply_address: u8,
    /// Who sent it (global 66 of the board).
    pub module_address: u8,
    /// The status the board replied with.
    pub command_status: Status,
    /// The command replied to.
    pub command: u8,
    /// The value replied.
    pub value: i32,
}

/// One reading of the motor and of the inputs. Every field takes every
/// number; those out of range are refused with [`Status::SAMPLE_RANGE`].
#[derive(Clone, Copy, Debug, Default, PartialEq, Eq)]
pub struct Sample {
    /// Parameter 51.
    pub ramp_position: i32,
    /// Parameter 52.
    pub actual_position: i32,
    /// Parameter 55, 0 or 1.
    pub reached: i32,
    /// Parameter 211, 0 or 1.
    pub right: i32,
    /// Parameter 212, 0 or 1.
    pub left: i32,
    /// Parameter 213, 0 or 1.
    pub home: i32,
    /// Parameter 220, 0 to 1,000 tenths of a volt.
    pub supply_voltage: i32,
    /// Parameter 221, -20 to 150 degrees.
    pub temperature: i32,
    /// The digital inputs, 0 or 1.
    pub digital: [i32; 2],
    /// The analog inputs, 0 to 65,535.
    pub analog: [i32; 3],
    /// The alarms EAL, EDV and EPO, 0 or 1.
    pub alarms: [i32; 3],
}

impl Sample {
    /// The fields in the order the library takes them.
    pub const fn to_numbers(self) -> [i32; 16] {
        [
            self.ramp_position,
            self.actual_position,
            self.reached,
            self.right,
            self.left,
            self.home,
            self.supply_voltage,
            self.temperature,
            self.digital[0],
            self.digital[1],
            self.analog[0],
            self.analog[1],
            self.analog[2],
            self.alarms[0],
            self.alarms[1],
            self.alarms[2],
        ]
    }

    /// The sample whose fields are `numbers`, in the library's order.
    pub const fn from_numbers(numbers: &[i32; 16]) -> Sample {
        Sample {
            ramp_position: numbers[0],
            actual_position: numbers[1],
            reached: numbers[2],
            right: numbers[3],
            left: numbers[4],
            home: numbers[5],
            supply_voltage: numbers[6],
            temperature: numbers[7],
            digital: [numbers[8], numbers[9]],
            analog: [numbers[10], numbers[11], numbers[12]],
            alarms: [numbers[13], numbers[14], numbers[15]],
        }
    }
}

/// The memory that goes with a board's registers, each part of the right
/// length. Callers may as well lend slices of their own.
#[derive(Clone, Debug, PartialEq, Eq)]
pub struct Stores {
    /// The program store: 1,024 records.
    pub program: [u8; PROGRAM_LENGTH],
    /// The parameter store: 91 cells.
    pub cells: [u8; CELLS_LENGTH],
    /// The reply buffer.
    pub reply: [u8; DATAGRAM_LENGTH],
}

impl Stores {
    /// An empty program, the default cells, an empty reply.
    pub fn new() -> Stores {
        let mut stores = Stores {
            program: [0; PROGRAM_LENGTH],
            cells: [0; CELLS_LENGTH],
            reply: [0; DATAGRAM_LENGTH],
        };
        new_cells(&mut stores.cells);
        stores
    }
}

impl Default for Stores {
    fn default() -> Stores {
        Stores::new()
    }
}

/// The image of a board's registers: 137 numbers, named in [`place`].
///
/// Any numbers may be handed in. An image the board cannot have is refused
/// with [`Status::HANDED_IN`] by every event but power-up.
#[derive(Clone, Copy, Debug, PartialEq, Eq)]
pub struct Registers(pub [i32; REGISTERS]);

impl Default for Registers {
    /// All numbers 0. No board has these registers: power-up comes first.
    fn default() -> Registers {
        Registers([0; REGISTERS])
    }
}

impl Registers {
    /// Power-up: writes the whole image from the cells.
    ///
    /// ```
    /// use dhikmarul::{place, Registers, Status, Stores};
    /// let mut registers = Registers([-1; 137]);
    /// assert_eq!(registers.power_up(&[0; 363]), Status::LENGTH);
    /// assert_eq!(registers, Registers([-1; 137]));
    /// assert_eq!(registers.power_up(&Stores::new().cells), Status::DONE);
    /// assert_eq!(registers.0[place::MODULE_ADDRESS], 1);
    /// ```
    pub fn power_up(&mut self, cells: &[u8]) -> Status {
        ffi::power_up(&mut self.0, cells)
    }

    /// A datagram from the line. `program`, `cells` and `reply` are lent; the
    /// reply buffer is written exactly where there is a reply.
    pub fn datagram(
        &mut self,
        program: &mut [u8],
        cells: &mut [u8],
        reply: &mut [u8],
        bytes: &[u8],
    ) -> Answer {
        let status = ffi::datagram(&mut self.0, program, cells, reply, bytes);
        Answer { status, replied: status.is_reply() }
    }

    /// A sample of the motor and the inputs.
    ///
    /// ```
    /// use dhikmarul::{place, Registers, Sample, Status, Stores};
    /// let mut registers = Registers::default();
    /// registers.power_up(&Stores::new().cells);
    /// let sample = Sample { actual_position: -5, reached: 1, ..Sample::default() };
    /// assert_eq!(registers.sample(&sample), Status::DONE);
    /// assert_eq!(registers.0[place::axis(52).unwrap()], -5);
    /// let sample = Sample { temperature: 151, ..Sample::default() };
    /// assert_eq!(registers.sample(&sample), Status::SAMPLE_RANGE);
    /// ```
    pub fn sample(&mut self, sample: &Sample) -> Status {
        ffi::sample(&mut self.0, &sample.to_numbers())
    }

    /// A tick of 10 ms: lowers an armed wait's count.
    pub fn tick(&mut self) -> Status {
        ffi::tick(&mut self.0)
    }

    /// Runs at most `budget` steps of the program.
    ///
    /// ```
    /// use dhikmarul::{place, Ran, Registers, Status, Stores};
    /// let mut stores = Stores::new();
    /// let mut registers = Registers::default();
    /// registers.power_up(&stores.cells);
    /// stores.program[0] = 22; // JA 0: a program that never ends
    /// registers.0[place::RUNNING] = 1;
    /// let ran = registers.run(&stores.program, &mut stores.cells, 1000);
    /// assert_eq!(ran, Ran { status: Status::DONE, steps: 1000 });
    /// let ran = registers.run(&stores.program, &mut stores.cells, 1001);
    /// assert_eq!(ran, Ran { status: Status::BUDGET, steps: 0 });
    /// ```
    pub fn run(&mut self, program: &[u8], cells: &mut [u8], budget: usize) -> Ran {
        ffi::run(&mut self.0, program, cells, budget)
    }
}

/// Writes the 91 default cells, or nothing into a buffer of another length.
///
/// ```
/// use dhikmarul::{new_cells, Status};
/// let mut cells = [0xaa; 364];
/// assert_eq!(new_cells(&mut cells), Status::DONE);
/// assert_eq!(cells[..8], [0, 0, 0, 4, 0, 0, 7, 208]);
/// assert_eq!(new_cells(&mut cells[..360]), Status::LENGTH);
/// ```
pub fn new_cells(cells: &mut [u8]) -> Status {
    ffi::new_cells(cells)
}

/// Checks a program begun at address 0: whether a run can come upon a step
/// that is refused for a reason the records alone show.
///
/// ```
/// use dhikmarul::{check, Status, Verdict, PROGRAM_LENGTH};
/// let mut program = [0; PROGRAM_LENGTH];
/// program[0] = 28; // STOP
/// let verdict = check(&program);
/// assert_eq!(verdict, Verdict { status: Status::DONE, address: 0, depth: 0 });
/// program[0] = 23; // CSUB 0: calls itself until the stack is full
/// program[7] = 28;
/// let verdict = check(&program);
/// assert_eq!(verdict, Verdict { status: Status::NOT_NOW, address: 0, depth: 8 });
/// ```
pub fn check(program: &[u8]) -> Verdict {
    ffi::check(program)
}

/// Builds a command of nine bytes in `out`. The type of the command is `kind`.
///
/// ```
/// use dhikmarul::{build_command, Status};
/// let mut out = [0; 9];
/// assert_eq!(build_command(&mut out, 1, 5, 93, 0, -32768), Status::DONE);
/// assert_eq!(out, [0x01, 0x05, 0x5d, 0x00, 0xff, 0xff, 0x80, 0x00, 0xe1]);
/// ```
pub fn build_command(
    out: &mut [u8],
    address: u8,
    command: u8,
    kind: u8,
    motor: u8,
    value: i32,
) -> Status {
    ffi::build_command(out, address, command, kind, motor, value)
}

/// Reads a reply of nine bytes.
///
/// ```
/// use dhikmarul::{read_reply, Status};
/// let reply = read_reply(&[0x02, 0x01, 0x64, 0x06, 0x00, 0x01, 0x00, 0x00, 0x6e]);
/// assert_eq!(reply.status, Status::DONE);
/// assert_eq!((reply.command_status, reply.command, reply.value), (Status::DONE, 6, 65536));
/// assert_eq!(read_reply(&[0x02]).status, Status::LENGTH);
/// ```
pub fn read_reply(bytes: &[u8]) -> Reply {
    ffi::read_reply(bytes)
}

#[cfg(test)]
mod tests;
