//! The registers, their image of 137 numbers, and the test for 23.

use super::sheet::{self, place_of, AXIS, USER_VARIABLES};
use super::{END_ADDRESS, GREATEST_DEPTH};

/// Numbers in the image of the registers.
pub const IMAGE: usize = 137;

/// Indexes of the flags.
pub const ETO: usize = 0;
pub const EAL: usize = 1;

/// The rows of the parameters that have a part to play.
pub const P43: usize = 4;
pub const P50: usize = 7;
pub const P51: usize = 8;
pub const P52: usize = 9;
pub const P55: usize = 12;
pub const P211: usize = 37;
pub const P212: usize = 38;
pub const P213: usize = 39;
pub const P220: usize = 40;
pub const P221: usize = 41;

/// A WAIT's count; all fields 0 where none is armed.
#[derive(Clone, Copy, Debug, Default, PartialEq, Eq)]
pub struct Wait {
    pub armed: bool,
    pub count: u32,
    /// Whether the value it was armed with was above 0.
    pub timed: bool,
}

/// What the motor was told to do.
#[derive(Clone, Copy, Debug, PartialEq, Eq)]
pub enum Order {
    Stopped,
    Velocity,
    Position,
}

/// Everything the board remembers besides the lent stores.
#[derive(Clone, Debug, PartialEq, Eq)]
pub struct Registers {
    pub accumulator: i32,
    pub x: i32,
    /// The last COMP, accumulator against value: -1, 0 or 1.
    pub comparison: i8,
    /// ETO, EAL, EDV, EPO.
    pub flags: [u8; 4],
    pub address: u16,
    pub running: bool,
    pub wait: Wait,
    pub download: bool,
    pub write_address: u16,
    pub order: Order,
    /// 0 unless the order is velocity.
    pub velocity: i32,
    pub outputs: [u8; 4],
    pub digital: [u8; 2],
    pub analog: [i32; 3],
    pub depth: u8,
    pub stack: [u16; GREATEST_DEPTH as usize],
    /// The axis parameters in the order of the sheet's rows.
    pub axis: [i32; AXIS],
    /// Global 66.
    pub module_address: u8,
    /// Global 73.
    pub lock: i32,
    /// Global 76.
    pub reply_address: u8,
    /// Global 77.
    pub autostart: i32,
    pub user: [i32; USER_VARIABLES],
}

impl Registers {
    /// All registers 0, as no board has them: power-up comes first.
    pub fn cleared() -> Registers {
        Registers {
            accumulator: 0,
            x: 0,
            comparison: 0,
            flags: [0; 4],
            address: 0,
            running: false,
            wait: Wait::default(),
            download: false,
            write_address: 0,
            order: Order::Stopped,
            velocity: 0,
            outputs: [0; 4],
            digital: [0; 2],
            analog: [0; 3],
            depth: 0,
            stack: [0; GREATEST_DEPTH as usize],
            axis: [0; AXIS],
            module_address: 0,
            lock: 0,
            reply_address: 0,
            autostart: 0,
            user: [0; USER_VARIABLES],
        }
    }

    /// Whether no register is out of range; if not, events answer 23.
    ///
    /// Every event asks this, and nearly always all is well: so all of it is
    /// looked at without a branch in between.
    #[inline(always)]
    pub fn in_range(&self) -> bool {
        self.counts_in_range() & self.pins_in_range() & sheet::all_allowed(&self.axis)
    }

    /// Addresses and depth.
    #[inline(always)]
    fn counts_in_range(&self) -> bool {
        let above = |entry: &u16| entry.saturating_sub(END_ADDRESS);
        let stack = self.stack.iter().fold(0, |all, entry| all | above(entry));
        (self.address <= END_ADDRESS)
            & (self.write_address <= END_ADDRESS)
            & (self.depth <= GREATEST_DEPTH)
            & (stack == 0)
    }

    /// Flags, outputs, inputs and globals. Of numbers below a power of two
    /// their OR is below it as well, so one test serves several of them; a
    /// negative number has the highest bit.
    #[inline(always)]
    fn pins_in_range(&self) -> bool {
        let digital = u32::from(u16::from_ne_bytes(self.digital));
        let bits = u32::from_ne_bytes(self.flags) | u32::from_ne_bytes(self.outputs) | digital;
        let analog = self.analog[0] | self.analog[1] | self.analog[2];
        (bits & !0x0101_0101 == 0)
            & (analog as u32 <= 65_535)
            & (self.module_address >= 1)
            & ((self.lock | self.autostart) as u32 <= 1)
    }

    /// Whether stored settings and program are locked.
    #[inline(always)]
    pub fn locked(&self) -> bool {
        self.lock == 1
    }

    /// Makes the wait's fields 0.
    #[inline(always)]
    pub fn drop_wait(&mut self) {
        self.wait = Wait::default();
    }

    /// Makes the depth and all return addresses 0.
    #[inline(always)]
    pub fn empty_stack(&mut self) {
        self.depth = 0;
        self.stack = [0; GREATEST_DEPTH as usize];
    }

    /// Gives an order; only order velocity has a velocity.
    #[inline(always)]
    pub fn give_order(&mut self, order: Order, velocity: i32) {
        self.order = order;
        self.velocity = velocity;
    }

    /// The value of an axis parameter by its number, for looking at a board.
    pub fn parameter(&self, number: u8) -> Option<i32> {
        place_of(number).map(|place| self.axis[place])
    }

    /// The registers as the 137 numbers of the script's dump.
    pub fn image(&self) -> [i32; IMAGE] {
        let mut image = [0; IMAGE];
        image[0] = self.accumulator;
        image[1] = self.x;
        image[2] = self.comparison.into();
        copy_wide(&mut image[3..7], &self.flags);
        image[7] = self.address.into();
        image[8] = self.running.into();
        image[9] = self.wait.armed.into();
        image[10] = self.wait.count as i32;
        image[11] = self.wait.timed.into();
        image[12] = self.download.into();
        image[13] = self.write_address.into();
        image[14] = self.order as i32;
        image[15] = self.velocity;
        copy_wide(&mut image[16..20], &self.outputs);
        copy_wide(&mut image[20..22], &self.digital);
        image[22..25].copy_from_slice(&self.analog);
        image[25] = self.depth.into();
        copy_wide(&mut image[26..34], &self.stack);
        image[34..77].copy_from_slice(&self.axis);
        image[77] = self.module_address.into();
        image[78] = self.lock;
        image[79] = self.reply_address.into();
        image[80] = self.autostart;
        image[81..].copy_from_slice(&self.user);
        image
    }

    /// Sets the register at a place of the dump. False, and nothing set,
    /// where the register's type cannot hold the value.
    pub fn set(&mut self, place: usize, value: i64) -> bool {
        self.try_set(place, value).is_some()
    }

    fn try_set(&mut self, place: usize, value: i64) -> Option<()> {
        match place {
            0 => self.accumulator = held(value)?,
            1 => self.x = held(value)?,
            2 => self.comparison = held(value).filter(|sign| (-1..=1).contains(sign))?,
            3..=6 => self.flags[place - 3] = held(value)?,
            7 => self.address = held(value)?,
            8 => self.running = bit(value)?,
            9 => self.wait.armed = bit(value)?,
            10 => self.wait.count = held(value)?,
            11 => self.wait.timed = bit(value)?,
            12 => self.download = bit(value)?,
            13 => self.write_address = held(value)?,
            14 => self.order = order(value)?,
            15 => self.velocity = held(value)?,
            16..=19 => self.outputs[place - 16] = held(value)?,
            20..=21 => self.digital[place - 20] = held(value)?,
            22..=24 => self.analog[place - 22] = held(value)?,
            25 => self.depth = held(value)?,
            26..=33 => self.stack[place - 26] = held(value)?,
            34..=76 => self.axis[place - 34] = held(value)?,
            77 => self.module_address = held(value)?,
            78 => self.lock = held(value)?,
            79 => self.reply_address = held(value)?,
            80 => self.autostart = held(value)?,
            81..=136 => self.user[place - 81] = held(value)?,
            _ => return None,
        }
        Some(())
    }
}

fn copy_wide<T: Copy + Into<i32>>(to: &mut [i32], from: &[T]) {
    for (place, &value) in to.iter_mut().zip(from) {
        *place = value.into();
    }
}

fn held<T: TryFrom<i64>>(value: i64) -> Option<T> {
    T::try_from(value).ok()
}

fn bit(value: i64) -> Option<bool> {
    match value {
        0 => Some(false),
        1 => Some(true),
        _ => None,
    }
}

fn order(value: i64) -> Option<Order> {
    match value {
        0 => Some(Order::Stopped),
        1 => Some(Order::Velocity),
        2 => Some(Order::Position),
        _ => None,
    }
}

#[cfg(test)]
mod tests {
    use super::*;

    #[test]
    fn rows_with_a_part_to_play() {
        for (row, number) in [
            (P43, 43),
            (P50, 50),
            (P51, 51),
            (P52, 52),
            (P55, 55),
            (P211, 211),
            (P212, 212),
            (P213, 213),
            (P220, 220),
            (P221, 221),
        ] {
            assert_eq!(place_of(number), Some(row));
        }
    }
}
