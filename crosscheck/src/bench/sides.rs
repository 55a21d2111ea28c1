//! What is timed: one pass of a row's events on one of the boards.
//!
//! Each board works in place, the library on its image over the C boundary,
//! the plain implementation on its struct. A pass answers one number made from
//! all answers in their order, so that no side can leave work out.

use std::hint::black_box;

use dhikmarul::Sample;

use crate::board::Board;
use crate::event::Event;
use crate::library::LibraryBoard;
use crate::plain::{self, Command, DATAGRAM_LENGTH};

/// The name of what callgrind counts.
pub const PASS: &str = "bench_pass";

/// What a pass is made of, ready before the clock starts.
pub struct Work {
    pub events: Vec<Event>,
    /// The samples among the events as the library's package takes them.
    pub samples: Vec<Sample>,
    pub times: usize,
}

/// What a row asks of a board; each event answers its numbers as one.
trait Events {
    fn datagram(&mut self, bytes: &[u8]) -> u64;
    /// The same sample in both forms.
    fn sample(&mut self, numbers: &[i32; 16], sample: &Sample) -> u64;
    fn tick(&mut self) -> u64;
    fn run(&mut self, budget: usize) -> u64;
    fn power_up(&mut self) -> u64;
    fn check(&self) -> u64;
    fn build(&self, out: &mut [u8], address: u8, command: Command) -> u64;
    fn read(&self, bytes: &[u8]) -> u64;
}

/// One of the two boards.
pub trait Side {
    /// Carries out all events of a pass; the number made from their answers.
    fn carry_out(&mut self, work: &Work) -> u64;
}

impl<E: Events> Side for E {
    fn carry_out(&mut self, work: &Work) -> u64 {
        pass(self, work)
    }
}

/// What is timed. Callgrind is told to count this function, whichever board
/// it is for, so the name is not mangled.
#[inline(never)]
#[no_mangle]
pub fn bench_pass(side: &mut dyn Side, work: &Work) -> u64 {
    side.carry_out(work)
}

#[inline(always)]
fn pass(board: &mut impl Events, work: &Work) -> u64 {
    let mut buffer = [0; DATAGRAM_LENGTH];
    let mut answers = 0u64;
    for _ in 0..work.times {
        let mut samples = work.samples.iter();
        for event in black_box(&work.events) {
            let answer = match event {
                Event::Datagram(bytes) => board.datagram(bytes.as_slice()),
                Event::Sample(numbers) => {
                    board.sample(numbers, samples.next().expect("each sample has both forms"))
                }
                Event::Tick => board.tick(),
                Event::Run(budget) => board.run(*budget as usize),
                Event::PowerUp => board.power_up(),
                Event::Check => board.check(),
                Event::Build { address, command, .. } => {
                    board.build(black_box(&mut buffer), *address, *command)
                }
                Event::Read(bytes) => board.read(bytes.as_slice()),
                _ => unreachable!("no row has an event that only sets up"),
            };
            answers = answers.rotate_left(1).wrapping_add(answer);
        }
    }
    answers
}

impl Events for LibraryBoard {
    #[inline(always)]
    fn datagram(&mut self, bytes: &[u8]) -> u64 {
        let LibraryBoard { registers, program, cells, reply } = self;
        registers.datagram(program, cells, reply, bytes).status.0.into()
    }

    #[inline(always)]
    fn sample(&mut self, _: &[i32; 16], sample: &Sample) -> u64 {
        self.registers.sample(sample).0.into()
    }

    #[inline(always)]
    fn tick(&mut self) -> u64 {
        self.registers.tick().0.into()
    }

    #[inline(always)]
    fn run(&mut self, budget: usize) -> u64 {
        let ran = self.registers.run(&self.program, &mut self.cells, budget);
        together(ran.status.0, ran.steps as u64)
    }

    #[inline(always)]
    fn power_up(&mut self) -> u64 {
        self.registers.power_up(&self.cells).0.into()
    }

    #[inline(always)]
    fn check(&self) -> u64 {
        let verdict = dhikmarul::check(black_box(&self.program));
        together(verdict.status.0, u64::from(verdict.address) << 8 | u64::from(verdict.depth))
    }

    #[inline(always)]
    fn build(&self, out: &mut [u8], address: u8, command: Command) -> u64 {
        let Command { number, kind, motor, value } = command;
        dhikmarul::build_command(out, address, number, kind, motor, value).0.into()
    }

    #[inline(always)]
    fn read(&self, bytes: &[u8]) -> u64 {
        let reply = dhikmarul::read_reply(bytes);
        black_box(&reply);
        together(reply.status.0, u64::from(reply.value as u32))
    }
}

impl Events for Board {
    #[inline(always)]
    fn datagram(&mut self, bytes: &[u8]) -> u64 {
        let Board { registers, program, cells, reply } = self;
        registers.datagram(program, cells, reply, bytes).into()
    }

    #[inline(always)]
    fn sample(&mut self, numbers: &[i32; 16], _: &Sample) -> u64 {
        self.registers.sample(numbers).into()
    }

    #[inline(always)]
    fn tick(&mut self) -> u64 {
        self.registers.tick().into()
    }

    #[inline(always)]
    fn run(&mut self, budget: usize) -> u64 {
        let ran = self.registers.run(&self.program, &mut self.cells, budget);
        together(ran.status, ran.steps as u64)
    }

    #[inline(always)]
    fn power_up(&mut self) -> u64 {
        self.registers.power_up(&self.cells).into()
    }

    #[inline(always)]
    fn check(&self) -> u64 {
        let verdict = plain::check(black_box(&self.program));
        together(verdict.status, u64::from(verdict.address) << 8 | u64::from(verdict.depth))
    }

    #[inline(always)]
    fn build(&self, out: &mut [u8], address: u8, command: Command) -> u64 {
        plain::build_command(out, address, command).into()
    }

    #[inline(always)]
    fn read(&self, bytes: &[u8]) -> u64 {
        match plain::read_reply(bytes) {
            Ok(reply) => {
                black_box(&reply);
                together(plain::status::DONE, u64::from(reply.value as u32))
            }
            Err(refusal) => together(refusal, 0),
        }
    }
}

/// A status and what is answered beside it as one number.
#[inline(always)]
fn together(status: u8, rest: u64) -> u64 {
    rest << 8 | u64::from(status)
}
