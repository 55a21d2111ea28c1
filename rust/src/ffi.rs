//! The C boundary, and the only `unsafe` of this package.
//!
//! Every call is sound for the same reason: the library reads and writes the
//! `registers` array and the `length` bytes behind each pointer, nothing else,
//! keeps no pointer, and Rust's borrows keep the arguments apart.

use std::mem::MaybeUninit;

use crate::{Ran, Reply, Status, Verdict, REGISTERS};

mod c {
    extern "C" {
        pub fn dhikmarul_new_cells(cells: *mut u8, cells_length: usize) -> u8;
        pub fn dhikmarul_power_up(registers: *mut i32, cells: *const u8, cells_length: usize)
            -> u8;
        pub fn dhikmarul_datagram(
            registers: *mut i32,
            program: *mut u8,
            program_length: usize,
            cells: *mut u8,
            cells_length: usize,
            reply: *mut u8,
            reply_length: usize,
            bytes: *const u8,
            bytes_length: usize,
        ) -> u8;
        pub fn dhikmarul_sample(registers: *mut i32, sample: *const i32) -> u8;
        pub fn dhikmarul_tick(registers: *mut i32) -> u8;
        pub fn dhikmarul_run(
            registers: *mut i32,
            program: *const u8,
            program_length: usize,
            cells: *mut u8,
            cells_length: usize,
            budget: usize,
            steps: *mut usize,
        ) -> u8;
        pub fn dhikmarul_check(
            program: *const u8,
            program_length: usize,
            address: *mut u16,
            depth: *mut u8,
        ) -> u8;
        pub fn dhikmarul_build_command(
            out: *mut u8,
            out_length: usize,
            address: u8,
            command: u8,
            kind: u8,
            motor: u8,
            value: i32,
        ) -> u8;
        pub fn dhikmarul_read_reply(bytes: *const u8, bytes_length: usize, reply: *mut i32) -> u8;
    }
}

pub fn new_cells(cells: &mut [u8]) -> Status {
    // SAFETY: see the module's words.
    Status(unsafe { c::dhikmarul_new_cells(cells.as_mut_ptr(), cells.len()) })
}

pub fn power_up(registers: &mut [i32; REGISTERS], cells: &[u8]) -> Status {
    // SAFETY: see the module's words.
    Status(unsafe { c::dhikmarul_power_up(registers.as_mut_ptr(), cells.as_ptr(), cells.len()) })
}

pub fn datagram(
    registers: &mut [i32; REGISTERS],
    program: &mut [u8],
    cells: &mut [u8],
    reply: &mut [u8],
    bytes: &[u8],
) -> Status {
    // SAFETY: see the module's words.
    Status(unsafe {
        c::dhikmarul_datagram(
            registers.as_mut_ptr(),
            program.as_mut_ptr(),
            program.len(),
            cells.as_mut_ptr(),
            cells.len(),
            reply.as_mut_ptr(),
            reply.len(),
            bytes.as_ptr(),
            bytes.len(),
        )
    })
}

pub fn sample(registers: &mut [i32; REGISTERS], sample: &[i32; 16]) -> Status {
    // SAFETY: see the module's words.
    Status(unsafe { c::dhikmarul_sample(registers.as_mut_ptr(), sample.as_ptr()) })
}

pub fn tick(registers: &mut [i32; REGISTERS]) -> Status {
    // SAFETY: see the module's words.
    Status(unsafe { c::dhikmarul_tick(registers.as_mut_ptr()) })
}

pub fn run(
    registers: &mut [i32; REGISTERS],
    program: &[u8],
    cells: &mut [u8],
    budget: usize,
) -> Ran {
    // Begun with a number no run answers, so that an unwritten answer shows.
    let mut steps = usize::MAX;
    // SAFETY: see the module's words; `steps` outlives the call.
    let status = unsafe {
        c::dhikmarul_run(
            registers.as_mut_ptr(),
            program.as_ptr(),
            program.len(),
            cells.as_mut_ptr(),
            cells.len(),
            budget,
            &mut steps,
        )
    };
    Ran { status: Status(status), steps }
}

pub fn check(program: &[u8]) -> Verdict {
    // Begun with numbers no check answers, so that an unwritten answer shows.
    let (mut address, mut depth) = (u16::MAX, u8::MAX);
    // SAFETY: see the module's words; `address` and `depth` outlive the call.
    let status =
        unsafe { c::dhikmarul_check(program.as_ptr(), program.len(), &mut address, &mut depth) };
    Verdict { status: Status(status), address, depth }
}

pub fn build_command(
    out: &mut [u8],
    address: u8,
    command: u8,
    kind: u8,
    motor: u8,
    value: i32,
) -> Status {
    // SAFETY: see the module's words.
    Status(unsafe {
        c::dhikmarul_build_command(
            out.as_mut_ptr(),
            out.len(),
            address,
            command,
            kind,
            motor,
            value,
        )
    })
}

pub fn read_reply(bytes: &[u8]) -> Reply {
    // Begun with nothing: whatever the bytes are, the library writes all five.
    let mut numbers = [MaybeUninit::<i32>::uninit(); 5];
    // SAFETY: see the module's words; `numbers` outlives the call.
    let status = unsafe {
        c::dhikmarul_read_reply(bytes.as_ptr(), bytes.len(), numbers.as_mut_ptr().cast())
    };
    // SAFETY: written by the library.
    let numbers = numbers.map(|number| unsafe { number.assume_init() });
    // The first four are bytes of the reply, so no cast loses anything.
    Reply {
        status: Status(status),
        reply_address: numbers[0] as u8,
        module_address: numbers[1] as u8,
        command_status: Status(numbers[2] as u8),
        command: numbers[3] as u8,
        value: numbers[4],
    }
}
