//! A whole board of the plain implementation: registers and lent stores, with
//! what each event answers.

use crate::event::{Bytes, Event};
use crate::lent::Lent;
use crate::plain::{
    self, check, new_cells, read_reply, Command, Registers, Reply, CELLS_LENGTH, DATAGRAM_LENGTH,
    PROGRAM_LENGTH,
};

/// The byte that fills a build's buffer before the build.
pub const UNTOUCHED: u8 = 0xaa;

/// What an event answers.
#[derive(Clone, Copy, Debug, PartialEq)]
pub enum Answer {
    Datagram {
        status: u8,
        replied: bool,
    },
    Status(u8),
    Ran {
        status: u8,
        steps: usize,
    },
    Verdict {
        status: u8,
        address: u16,
        depth: u8,
    },
    Built {
        status: u8,
        buffer: Bytes,
    },
    Read {
        status: u8,
        /// All 0 where it was refused.
        reply: Reply,
    },
    /// Looking and setting up answer nothing.
    Set,
    /// Not an event as the board stands; nothing was done.
    NoEvent,
}

/// The plain implementation's board.
pub type Board = Lent<Registers>;

impl Default for Board {
    fn default() -> Board {
        Board::new()
    }
}

impl Board {
    /// No program, default cells, registers as power-up leaves them.
    pub fn new() -> Board {
        let mut cells = vec![0; CELLS_LENGTH];
        new_cells(&mut cells);
        let registers = Registers::powered_up(&cells).expect("the cells have their length");
        Board {
            registers,
            program: vec![0; PROGRAM_LENGTH],
            cells,
            reply: vec![0; DATAGRAM_LENGTH],
        }
    }

    /// The record at an address, `None` at 1,024.
    pub fn record(&self, address: u16) -> Option<Command> {
        let (records, _) = self.program.as_chunks();
        records.get(usize::from(address)).map(Command::from_record)
    }

    /// Carries out an event.
    pub fn apply(&mut self, event: &Event) -> Answer {
        match *event {
            Event::Datagram(bytes) => self.datagram(bytes),
            Event::Sample(ref fields) => Answer::Status(self.registers.sample(fields)),
            Event::Tick => Answer::Status(self.registers.tick()),
            Event::Run(budget) => self.run(budget),
            Event::PowerUp => Answer::Status(self.registers.power_up(&self.cells)),
            Event::Check => {
                let plain::Verdict { status, address, depth } = check(&self.program);
                Answer::Verdict { status, address, depth }
            }
            Event::Build { length, address, command } => build(length, address, command),
            Event::Read(bytes) => {
                let (status, reply) = match read_reply(bytes.as_slice()) {
                    Ok(reply) => (plain::status::DONE, reply),
                    Err(refusal) => (refusal, Reply::default()),
                };
                Answer::Read { status, reply }
            }
            Event::Dump => Answer::Set,
            _ => self.set_up(event),
        }
    }

    fn datagram(&mut self, bytes: Bytes) -> Answer {
        let Board { registers, program, cells, reply } = self;
        let status = registers.datagram(program, cells, reply, bytes.as_slice());
        let none = [plain::status::NONE, plain::status::LENGTH, plain::status::REGISTERS];
        Answer::Datagram { status, replied: !none.contains(&status) }
    }

    fn run(&mut self, budget: u64) -> Answer {
        let budget = usize::try_from(budget).unwrap_or(usize::MAX);
        let ran = self.registers.run(&self.program, &mut self.cells, budget);
        Answer::Ran { status: ran.status, steps: ran.steps }
    }

    fn set_up(&mut self, event: &Event) -> Answer {
        match *event {
            Event::New => *self = Board::new(),
            Event::Register { place, value } if self.registers.set(place, value) => {}
            _ if self.set_up_store(event) => {}
            _ => return Answer::NoEvent,
        }
        Answer::Set
    }
}

fn build(length: usize, address: u8, command: Command) -> Answer {
    let mut buffer = Bytes::filled(UNTOUCHED, length);
    let status = plain::build_command(buffer.as_mut_slice(), address, command);
    Answer::Built { status, buffer }
}
