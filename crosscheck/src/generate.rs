//! Random events that reach deep: the generator looks at the board as it
//! stands and picks mostly what means something there.

mod fields;
mod lines;
mod programs;

use std::collections::VecDeque;

use crate::board::Board;
use crate::event::{Bytes, Event, LONGEST_STORE, PLACES};
use crate::plain::{
    self, build_command, checksum, number, Command, CELLS, DATAGRAM_LENGTH, GREATEST_BUDGET,
    RECORDS,
};
use crate::random::Random;

pub use lines::write_script;

/// What a generator may use.
#[derive(Clone, Copy, Debug, PartialEq, Eq)]
pub enum Use {
    /// Script lines: with dumps, without programs that fill the store.
    Script,
    /// The cross-check: without dumps, since everything is compared anyway.
    Crosscheck,
}

/// Makes events without end.
pub struct Generator {
    random: Random,
    /// Events already decided on, to be given out first.
    pending: VecDeque<Event>,
    used_for: Use,
}

/// The kinds of things a generator decides on.
#[derive(Clone, Copy)]
enum Plan {
    Datagram,
    Run,
    Sample,
    Tick,
    PowerUp,
    Check,
    Build,
    Read,
    Dump,
    New,
    WrongLength,
    Record,
    Cell,
    Register,
    Corruption,
    Program,
    CheckedProgram,
    Download,
    FullStore,
    Start,
}

const PLANS: [(u64, Plan); 19] = [
    (440, Plan::Datagram),
    (190, Plan::Run),
    (70, Plan::Sample),
    (80, Plan::Tick),
    (8, Plan::PowerUp),
    (6, Plan::Check),
    (12, Plan::Build),
    (20, Plan::Read),
    (1, Plan::New),
    (1, Plan::WrongLength),
    (30, Plan::Record),
    (12, Plan::Cell),
    (40, Plan::Register),
    (6, Plan::Corruption),
    (10, Plan::Program),
    (4, Plan::CheckedProgram),
    (4, Plan::Download),
    (40, Plan::Start),
    (50, Plan::Dump),
];

impl Generator {
    pub fn new(seed: u64, used_for: Use) -> Generator {
        Generator { random: Random::new(seed), pending: VecDeque::new(), used_for }
    }

    /// The next event for the board as it stands.
    pub fn next(&mut self, board: &Board) -> Event {
        loop {
            if let Some(event) = self.pending.pop_front() {
                return event;
            }
            self.plan(board);
        }
    }

    /// Decides on one or more events.
    fn plan(&mut self, board: &Board) {
        let whole_stores = self.used_for == Use::Crosscheck && self.random.once_in(20_000);
        let plan = if whole_stores { Plan::FullStore } else { self.random.weighted(&PLANS) };
        match plan {
            Plan::Record => self.tweak_record(board),
            Plan::Cell => self.tweak_cell(),
            Plan::Register => self.tweak_register(),
            Plan::Corruption => self.corrupt_register(board),
            Plan::WrongLength => self.wrong_length(board),
            Plan::Program => self.program(board),
            Plan::CheckedProgram => self.checked_program(board),
            Plan::FullStore => self.full_store(board),
            Plan::Download => self.download(board),
            Plan::Start if !board.registers.running => self.start(board),
            // A dump shows a script's reader the state; comparing needs none.
            Plan::Dump if self.used_for == Use::Crosscheck => {}
            plan => {
                let event = self.simple(plan, board);
                self.pending.push_back(event);
            }
        }
    }

    fn simple(&mut self, plan: Plan, board: &Board) -> Event {
        match plan {
            Plan::Datagram => self.datagram(board),
            Plan::Sample => Event::Sample(self.sample()),
            Plan::Tick => Event::Tick,
            Plan::PowerUp => Event::PowerUp,
            Plan::Check => Event::Check,
            Plan::Build => self.build(),
            Plan::Read => self.read(),
            Plan::Dump => Event::Dump,
            Plan::New => Event::New,
            _ => Event::Run(self.budget()),
        }
    }

    /// Lets so many events under test, of any kind, come next.
    fn some_events(&mut self, count: u64, board: &Board) {
        for _ in 0..count {
            let event = self.any_event(board);
            self.pending.push_back(event);
        }
    }

    /// An event under test of any kind.
    fn any_event(&mut self, board: &Board) -> Event {
        let plan = self.random.weighted(&[
            (8, Plan::Datagram),
            (4, Plan::Run),
            (3, Plan::Sample),
            (2, Plan::Tick),
            (1, Plan::PowerUp),
            (1, Plan::Check),
            (1, Plan::Build),
            (1, Plan::Read),
        ]);
        self.simple(plan, board)
    }

    fn budget(&mut self) -> u64 {
        match self.random.below(64) {
            0 => GREATEST_BUDGET as u64,
            1 => self.random.below(GREATEST_BUDGET as u64 + 1),
            2 => self.random.pick(&[1001, 1002, 65_536, 1 << 32, (1 << 32) + 3, i64::MAX as u64]),
            3..=5 => 0,
            6..=30 => 1,
            31..=50 => 1 + self.random.below(6),
            _ => 1 + self.random.below(30),
        }
    }

    /// A datagram: a direct command, damaged now and then.
    fn datagram(&mut self, board: &Board) -> Event {
        let command = self.direct_command(board);
        let mut bytes = frame(board, command);
        match self.random.below(60) {
            0 => bytes[8] = bytes[8].wrapping_add(1 + self.random.below(255) as u8),
            1 => {
                let at = self.random.below(9) as usize;
                bytes[at] ^= 1 << self.random.below(8);
            }
            2 => {
                bytes[0] = self.random.pick(&[0, 1, 2, 255, bytes[0].wrapping_add(1)]);
                bytes[8] = checksum(&bytes);
            }
            3 => return Event::Datagram(self.cut_or_longer(&bytes)),
            _ => {}
        }
        datagram_of(&bytes)
    }

    /// The bytes with another length.
    fn cut_or_longer(&mut self, bytes: &[u8; DATAGRAM_LENGTH]) -> Bytes {
        let mut long = [0; 64];
        long[..DATAGRAM_LENGTH].copy_from_slice(bytes);
        let length = self.random.pick(&[0, 1, 7, 8, 8, 9, 10, 10, 11, 18, 64]);
        Bytes::new(&long[..length]).expect("at most 64 bytes")
    }

    fn build(&mut self) -> Event {
        let length = match self.random.below(4) {
            0 => self.random.below(65) as usize,
            _ => DATAGRAM_LENGTH,
        };
        let address = self.byte();
        Event::Build { length, address, command: self.wild_command() }
    }

    fn read(&mut self) -> Event {
        let mut bytes = [0; DATAGRAM_LENGTH];
        build_command(&mut bytes, self.random.bits() as u8, self.wild_command());
        match self.random.below(8) {
            0 => bytes[8] = self.byte(),
            1 => return Event::Read(self.cut_or_longer(&bytes)),
            _ => {}
        }
        Event::Read(Bytes::new(&bytes).expect("nine bytes"))
    }

    fn sample(&mut self) -> [i32; 16] {
        let mut fields = [0; 16];
        fields[0] = self.value();
        fields[1] = self.value();
        for bit in [2, 3, 4, 5, 8, 9] {
            fields[bit] = self.random.below(2) as i32;
        }
        fields[6] = self.random.between(0, 1000) as i32;
        fields[7] = self.random.between(-20, 150) as i32;
        for input in &mut fields[10..13] {
            *input = self.random.pick(&[0, 1, 65_535, 32_768, 1000]);
        }
        for alarm in &mut fields[13..] {
            *alarm = i32::from(self.random.once_in(6));
        }
        if self.random.once_in(8) {
            let at = self.random.below(16) as usize;
            let wrong = [-1, 2, -2, 151, -21, -20, 150, 1000, 1001, 65_535, 65_536, i32::MIN];
            fields[at] = self.random.pick(&wrong);
        }
        fields
    }

    /// Puts one record near where the program is.
    fn tweak_record(&mut self, board: &Board) {
        let near = i64::from(board.registers.address) + self.random.between(-3, 8);
        let address = near.clamp(0, RECORDS as i64 - 1) as usize;
        let record = if self.random.once_in(20) {
            self.wild_command()
        } else {
            self.program_command(board, near.max(0), 12)
        };
        self.pending.push_back(Event::Record { address, record: record.to_record() });
    }

    fn tweak_cell(&mut self) {
        let cell = match self.random.below(3) {
            0 => 31 + self.random.below(4),
            _ => self.random.below(CELLS as u64),
        } as usize;
        let value = self.value();
        self.pending.push_back(Event::Cell { cell, value });
    }

    /// A stop or reset first now and then, then a start at some address.
    fn start(&mut self, board: &Board) {
        if board.registers.download {
            self.send(board, number::END_DOWNLOAD, 0, 0);
        }
        match self.random.below(4) {
            0 => self.send(board, number::RUN_PROGRAM, 0, 0),
            1 => {
                self.send(board, number::RESET_PROGRAM, 0, 0);
                self.send(board, number::RUN_PROGRAM, 0, 0);
            }
            2 => self.send(board, number::RUN_PROGRAM, 1, 0),
            _ => {
                let address = self.address();
                self.send(board, number::RUN_PROGRAM, 1, address);
            }
        }
        let budget = self.budget();
        self.pending.push_back(Event::Run(budget));
    }

    /// Decides on a command to the board.
    fn send(&mut self, board: &Board, number: u8, kind: u8, value: i32) {
        let bytes = frame(board, Command { number, kind, motor: 0, value });
        self.pending.push_back(datagram_of(&bytes));
    }

    /// A register set to something it may have.
    fn tweak_register(&mut self) {
        let any = self.value();
        let (place, value) = match self.random.below(12) {
            0 => (0, self.random.pick(&[i32::MIN, -1, any]).into()),
            1 => (1, self.random.pick(&[-1, 0, any]).into()),
            2 => (2, self.random.between(-1, 1)),
            3 => (self.random.between(3, 6), self.random.between(0, 1)),
            4 => (7, self.address().clamp(0, 1024).into()),
            5 => return self.tweak_wait(),
            6 => (13, self.random.pick(&[0, 1, 1022, 1023, 1024])),
            7 => (self.random.between(14, 15), self.random.between(0, 2)),
            8 => (self.random.pick(&[8, 12]), self.random.between(0, 1)),
            9 => (self.random.pick(&[41, 42, 43]), any.into()),
            10 => (self.random.between(81, 136), any.into()),
            _ => return self.tweak_stack(),
        };
        self.pending.push_back(Event::Register { place: place as usize, value });
    }

    fn tweak_wait(&mut self) {
        let count = self.random.pick(&[0, 0, 1, 2, 3, 4_294_967_295, 2_147_483_648]);
        for (place, value) in
            [(9, self.random.between(0, 1)), (10, count), (11, self.random.between(0, 1))]
        {
            self.pending.push_back(Event::Register { place, value });
        }
    }

    fn tweak_stack(&mut self) {
        let depth = self.random.pick(&[0, 1, 7, 8, 8]);
        self.pending.push_back(Event::Register { place: 25, value: depth });
        // Entries above the depth may be other than 0.
        for place in 26..34 {
            if self.random.once_in(2) {
                let value = self.random.pick(&[0, 0, 1, 2, 5, 1023, 1024]);
                self.pending.push_back(Event::Register { place, value });
            }
        }
    }

    /// A register out of range, some events, and the register as it was.
    fn corrupt_register(&mut self, board: &Board) {
        let place = match self.random.below(4) {
            0 => self.random.pick(&[2, 3, 6, 7, 8, 9, 11, 12, 13, 14, 16, 19, 20, 21, 24, 25]),
            1 => self.random.pick(&[26, 30, 33, 34, 36, 59, 76, 77, 77, 78, 79, 80]),
            _ => self.random.below(PLACES as u64) as usize,
        };
        let before = match board.registers.image()[place] {
            // The wait's count stands in its place as bits.
            bits if place == 10 => i64::from(bits as u32),
            number => number.into(),
        };
        let value = self.corruption(place);
        self.pending.push_back(Event::Register { place, value });
        let count = 1 + self.random.below(3);
        self.some_events(count, board);
        self.pending.push_back(Event::Register { place, value: before });
    }

    /// A number near or beyond the ends of what a place may have.
    fn corruption(&mut self, place: usize) -> i64 {
        let near = [-1, 0, 1, 2, 3, 8, 9, 255, 256, 1023, 1024, 1025, 65_535, 65_536];
        if let Some(row) = plain::ROWS.get(place.wrapping_sub(34)) {
            if self.random.once_in(2) {
                let [low, high] = [row.low, row.high].map(i64::from);
                let ends = [low - 1, low, high, high + 1, row.gap.unwrap_or(row.low).into()];
                return self.random.pick(&ends).clamp(i32::MIN.into(), i32::MAX.into());
            }
        }
        if self.random.once_in(4) {
            self.value().into()
        } else {
            self.random.pick(&near)
        }
    }

    /// A store of another length, some events, and a new board.
    fn wrong_length(&mut self, board: &Board) {
        let which = self.random.below(3) as usize;
        let right = board.stores()[which].1.len();
        let lengths =
            [0, 1, right.saturating_sub(1), right + 1, right / 2, right * 2, LONGEST_STORE];
        let length = self.random.pick(&lengths).min(LONGEST_STORE);
        self.pending.push_back(Event::Length { which, length });
        let count = 2 + self.random.below(6);
        self.some_events(count, board);
        if self.used_for == Use::Script {
            // No events while their store has another length.
            self.tweak_record(board);
            self.tweak_cell();
            self.pending.push_back(Event::Dump);
        }
        self.pending.push_back(Event::New);
    }
}

/// A command as the bytes that reach the board.
fn frame(board: &Board, command: Command) -> [u8; DATAGRAM_LENGTH] {
    let mut bytes = [0; DATAGRAM_LENGTH];
    build_command(&mut bytes, board.registers.module_address, command);
    bytes
}

fn datagram_of(bytes: &[u8; DATAGRAM_LENGTH]) -> Event {
    Event::Datagram(Bytes::new(bytes).expect("nine bytes"))
}
