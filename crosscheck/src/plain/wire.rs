//! Commands and replies as bytes.

use super::status;

/// Bytes of a command and of a reply.
pub const DATAGRAM_LENGTH: usize = 9;
/// Bytes of one record.
pub const RECORD_LENGTH: usize = 7;

/// The nine bytes of a command or of a reply.
pub type Frame = [u8; DATAGRAM_LENGTH];

/// A command without its address and checksum.
#[derive(Clone, Copy, Debug, PartialEq, Eq)]
pub struct Command {
    pub number: u8,
    /// The type.
    pub kind: u8,
    /// The motor, or the bank.
    pub motor: u8,
    pub value: i32,
}

impl Command {
    /// The command in a record's seven bytes.
    pub fn from_record(bytes: &[u8; RECORD_LENGTH]) -> Command {
        let bytes = Seven(bytes);
        Command {
            number: bytes.number(),
            kind: bytes.kind(),
            motor: bytes.motor(),
            value: bytes.value(),
        }
    }

    /// The seven bytes of a record.
    pub fn to_record(self) -> [u8; RECORD_LENGTH] {
        let value = self.value.to_be_bytes();
        [self.number, self.kind, self.motor, value[0], value[1], value[2], value[3]]
    }
}

/// A reply without its checksum.
#[derive(Clone, Copy, Debug, Default, PartialEq, Eq)]
pub struct Reply {
    pub reply_address: u8,
    pub module_address: u8,
    pub status: u8,
    pub command: u8,
    pub value: i32,
}

/// A command where its seven bytes lie: in a datagram, or in a record of the
/// program store. A field is read when it is asked for, so that a command
/// costs nothing for the fields it does not use.
#[derive(Clone, Copy)]
pub struct Seven<'a>(pub &'a [u8; RECORD_LENGTH]);

impl Seven<'_> {
    #[inline(always)]
    pub fn number(self) -> u8 {
        self.0[0]
    }

    /// The type.
    #[inline(always)]
    pub fn kind(self) -> u8 {
        self.0[1]
    }

    /// The motor, or the bank.
    #[inline(always)]
    pub fn motor(self) -> u8 {
        self.0[2]
    }

    #[inline(always)]
    pub fn value(self) -> i32 {
        let [_, _, _, value @ ..] = self.0;
        i32::from_be_bytes(*value)
    }
}

/// The first eight bytes added with 8-bit wrapping.
#[inline(always)]
pub fn checksum(bytes: &Frame) -> u8 {
    let [bytes @ .., _] = bytes;
    bytes_added(u64::from_be_bytes(*bytes))
}

/// Builds a command for the board at `address`.
#[inline]
pub fn build_command(out: &mut [u8], address: u8, command: Command) -> u8 {
    let Ok(out) = <&mut Frame>::try_from(out) else {
        return status::LENGTH;
    };
    let Command { number, kind, motor, value } = command;
    write_frame(out, [address, number, kind, motor], value);
    status::DONE
}

/// Writes four bytes, a value and the checksum of them, the eight bytes as one
/// number.
#[inline(always)]
pub fn write_frame(out: &mut Frame, head: [u8; 4], value: i32) {
    let eight = u64::from(u32::from_be_bytes(head)) << 32 | u64::from(value as u32);
    let [bytes @ .., sum] = out;
    *bytes = eight.to_be_bytes();
    *sum = bytes_added(eight);
}

/// The bytes of a number added with 8-bit wrapping: neighbours first, in lanes
/// of two bytes that hold any such sum, then the lanes.
#[inline(always)]
fn bytes_added(number: u64) -> u8 {
    const LOWER: u64 = 0x00ff_00ff_00ff_00ff;
    let lanes = (number & LOWER) + (number >> 8 & LOWER);
    let lanes = lanes + (lanes >> 32);
    (lanes + (lanes >> 16)) as u8
}

/// Reads a reply, the eight bytes as one number, or answers the status that
/// refuses its bytes.
#[inline]
pub fn read_reply(bytes: &[u8]) -> Result<Reply, u8> {
    let Ok(bytes) = <&Frame>::try_from(bytes) else {
        return Err(status::LENGTH);
    };
    let [bytes @ .., sum] = bytes;
    let eight = u64::from_be_bytes(*bytes);
    if bytes_added(eight) != *sum {
        return Err(status::CHECKSUM);
    }
    let head = (eight >> 32) as u32;
    let [reply_address, module_address, status, command] = head.to_be_bytes();
    Ok(Reply { reply_address, module_address, status, command, value: eight as i32 })
}
