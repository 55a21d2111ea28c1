//! A whole board of the library, reached over the C boundary.

use dhikmarul::{place, Registers, Sample, Status, REGISTERS};

use crate::board::{Answer, UNTOUCHED};
use crate::event::{Bytes, Event, PLACES};
use crate::lent::Lent;
use crate::plain::{Reply, CELLS_LENGTH, DATAGRAM_LENGTH, PROGRAM_LENGTH};

/// Where the register at a place of the script's dump stands in the library's
/// image: the dump has the axis parameters before the globals.
pub fn image_place(at: usize) -> usize {
    match at {
        0..34 => at,
        34..77 => at - 34 + place::AXIS,
        77..81 => at - 77 + place::MODULE_ADDRESS,
        _ => at - 81 + place::USER_VARIABLES,
    }
}

/// The library's board: its registers' image, and the stores lent to it.
pub type LibraryBoard = Lent<Registers>;

impl Default for LibraryBoard {
    fn default() -> LibraryBoard {
        LibraryBoard::new()
    }
}

impl LibraryBoard {
    /// No program, default cells, registers as power-up leaves them.
    pub fn new() -> LibraryBoard {
        let mut board = LibraryBoard {
            // Numbers no board has, so that a place power-up forgets shows.
            registers: Registers([-77_777; REGISTERS]),
            program: vec![0; PROGRAM_LENGTH],
            cells: vec![UNTOUCHED; CELLS_LENGTH],
            reply: vec![0; DATAGRAM_LENGTH],
        };
        dhikmarul::new_cells(&mut board.cells);
        board.registers.power_up(&board.cells);
        board
    }

    /// The registers as the numbers of the script's dump.
    pub fn dumped(&self) -> [i32; PLACES] {
        std::array::from_fn(|place| self.registers.0[image_place(place)])
    }

    /// Sets every register from the numbers of a dump.
    pub fn set_dumped(&mut self, numbers: &[i32; PLACES]) {
        for (place, &number) in numbers.iter().enumerate() {
            self.registers.0[image_place(place)] = number;
        }
    }

    /// Carries out an event.
    pub fn apply(&mut self, event: &Event) -> Answer {
        match *event {
            Event::Datagram(bytes) => {
                let LibraryBoard { registers, program, cells, reply } = self;
                let answer = registers.datagram(program, cells, reply, bytes.as_slice());
                Answer::Datagram { status: answer.status.0, replied: answer.replied }
            }
            Event::Sample(ref fields) => {
                Answer::Status(self.registers.sample(&Sample::from_numbers(fields)).0)
            }
            Event::Tick => Answer::Status(self.registers.tick().0),
            Event::Run(budget) => {
                let budget = usize::try_from(budget).unwrap_or(usize::MAX);
                let ran = self.registers.run(&self.program, &mut self.cells, budget);
                Answer::Ran { status: ran.status.0, steps: ran.steps }
            }
            Event::PowerUp => Answer::Status(self.registers.power_up(&self.cells).0),
            Event::Check => check(&self.program),
            Event::Build { .. } => build(event),
            Event::Read(bytes) => read(bytes),
            _ => self.set_up(event),
        }
    }

    fn set_up(&mut self, event: &Event) -> Answer {
        match *event {
            Event::New => *self = LibraryBoard::new(),
            // The wait's count goes in as its bits.
            Event::Register { place, value } => self.registers.0[image_place(place)] = value as i32,
            _ if self.set_up_store(event) => {}
            _ => return Answer::NoEvent,
        }
        Answer::Set
    }
}

fn check(program: &[u8]) -> Answer {
    let dhikmarul::Verdict { status, address, depth } = dhikmarul::check(program);
    Answer::Verdict { status: status.0, address, depth }
}

fn build(event: &Event) -> Answer {
    let Event::Build { length, address, command } = *event else {
        return Answer::NoEvent;
    };
    let mut buffer = Bytes::filled(UNTOUCHED, length);
    let status = dhikmarul::build_command(
        buffer.as_mut_slice(),
        address,
        command.number,
        command.kind,
        command.motor,
        command.value,
    );
    Answer::Built { status: status.0, buffer }
}

fn read(bytes: Bytes) -> Answer {
    let reply = dhikmarul::read_reply(bytes.as_slice());
    let Status(code) = reply.command_status;
    Answer::Read {
        status: reply.status.0,
        reply: Reply {
            reply_address: reply.reply_address,
            module_address: reply.module_address,
            status: code,
            command: reply.command,
            value: reply.value,
        },
    }
}
