//! One event on both boards, and whether they agree in everything.

use std::fmt::{self, Write};

use dhikmarul::place;

use crate::board::{Answer, Board};
use crate::event::{Event, Hex, PLACES};
use crate::library::{image_place, LibraryBoard};
use crate::plain::{status, CELLS_LENGTH, PROGRAM_LENGTH, RECORD_LENGTH};

type Image = [i32; PLACES];

/// The plain board, with the places of the dump that its types cannot hold.
#[derive(Clone)]
struct PlainSide {
    board: Board,
    unheld: Vec<(usize, i32)>,
}

impl PlainSide {
    fn image(&self) -> Image {
        let mut image = self.board.registers.image();
        for &(place, value) in &self.unheld {
            image[place] = value;
        }
        image
    }

    fn apply(&mut self, event: &Event) -> Answer {
        if let Event::Register { place, value } = *event {
            return self.set_register(place, value);
        }
        if !self.unheld.is_empty() {
            if let Some(answer) = self.refuse_unheld(event) {
                return answer;
            }
        }
        let answer = self.board.apply(event);
        let written = *event == Event::PowerUp && answer == Answer::Status(status::DONE);
        if written || *event == Event::New {
            self.unheld.clear();
        }
        answer
    }

    fn set_register(&mut self, at: usize, value: i64) -> Answer {
        // The wait's count goes in as its bits, so every number is one.
        let value = if at == place::WAIT_COUNT { i64::from(value as u32) } else { value };
        self.unheld.retain(|&(before, _)| before != at);
        if !self.board.registers.set(at, value) {
            self.unheld.push((at, value as i32));
        }
        Answer::Set
    }

    /// An image no type holds is answered like a register out of range: with
    /// 23, after 20 and before all else.
    fn refuse_unheld(&self, event: &Event) -> Option<Answer> {
        let board = &self.board;
        let stores = board.program.len() == PROGRAM_LENGTH && board.cells.len() == CELLS_LENGTH;
        let refusal = |right: bool| {
            if right {
                status::REGISTERS
            } else {
                status::LENGTH
            }
        };
        match event {
            Event::Datagram(_) => {
                let status = refusal(stores && board.reply.len() == 9);
                Some(Answer::Datagram { status, replied: false })
            }
            Event::Run(_) => Some(Answer::Ran { status: refusal(stores), steps: 0 }),
            Event::Sample(_) | Event::Tick => Some(Answer::Status(status::REGISTERS)),
            _ => None,
        }
    }
}

/// Both boards side by side.
pub struct Pair {
    plain: PlainSide,
    library: LibraryBoard,
    /// What both had before the last event.
    before: PlainSide,
    compared: u64,
}

impl Default for Pair {
    fn default() -> Pair {
        Pair::new()
    }
}

impl Pair {
    pub fn new() -> Pair {
        let plain = PlainSide { board: Board::new(), unheld: Vec::new() };
        Pair { before: plain.clone(), plain, library: LibraryBoard::new(), compared: 0 }
    }

    /// The plain board as it stands.
    pub fn board(&self) -> &Board {
        &self.plain.board
    }

    /// The plain board as it was before the last event.
    pub fn before(&self) -> &Board {
        &self.before.board
    }

    /// Whether a register has a number that its type cannot hold.
    pub fn unheld(&self) -> bool {
        !self.plain.unheld.is_empty()
    }

    /// Carries out an event on both. The plain board's answer, or a report
    /// where the two differ.
    pub fn apply(&mut self, event: &Event) -> Result<Answer, String> {
        if !event.is_under_test() {
            self.plain.apply(event);
            self.library.apply(event);
            // A new board is a power-up of both; all else only sets.
            return if *event == Event::New { self.judge(event, None) } else { Ok(Answer::Set) };
        }
        self.remember();
        let expected = self.plain.apply(event);
        let answer = self.library.apply(event);
        self.judge(event, Some((expected, answer)))
    }

    fn remember(&mut self) {
        self.before.board.take_over(&self.plain.board);
        self.before.unheld.clone_from(&self.plain.unheld);
    }

    fn judge(
        &mut self,
        event: &Event,
        answers: Option<(Answer, Answer)>,
    ) -> Result<Answer, String> {
        self.compared += 1;
        let same = answers.is_none_or(|(expected, answer)| expected == answer)
            && self.plain.image() == self.library.dumped()
            && self.plain.board.stores() == self.library.stores();
        if same {
            return Ok(answers.map_or(Answer::Set, |(expected, _)| expected));
        }
        let mut report = String::new();
        self.report(event, answers, &mut report).expect("a string takes all");
        Err(report)
    }

    fn report(
        &self,
        event: &Event,
        answers: Option<(Answer, Answer)>,
        out: &mut String,
    ) -> fmt::Result {
        writeln!(out, "the two differ at event {}: {event}", self.compared)?;
        writeln!(out, "  {event:?}")?;
        if let Some((expected, answer)) = answers {
            writeln!(out, "answer of the plain implementation: {expected:?}")?;
            writeln!(out, "answer of the library:              {answer:?}")?;
        }
        self.report_registers(out)?;
        let board = &self.plain.board;
        report_store(out, "cell", 4, &board.cells, &self.library.cells)?;
        report_store(out, "reply byte", 1, &board.reply, &self.library.reply)?;
        report_store(out, "record", RECORD_LENGTH, &board.program, &self.library.program)?;
        writeln!(out, "registers before: {:?}", self.before.image())?;
        writeln!(out, "registers after, plain:   {:?}", self.plain.image())?;
        writeln!(out, "registers after, library: {:?}", self.library.dumped())?;
        self.report_stores(out)?;
        self.report_script(event, out)
    }

    fn report_registers(&self, out: &mut String) -> fmt::Result {
        let (plain, library) = (self.plain.image(), self.library.dumped());
        let before = self.before.image();
        for at in 0..PLACES {
            if plain[at] != library[at] {
                let (name, before) = (place::name(image_place(at)), before[at]);
                writeln!(
                    out,
                    "  {name}: before {before}, plain {}, library {}",
                    plain[at], library[at]
                )?;
            }
        }
        Ok(())
    }

    fn report_stores(&self, out: &mut String) -> fmt::Result {
        let board = &self.plain.board;
        writeln!(out, "cells before:         {}", Hex(&self.before.board.cells))?;
        writeln!(out, "cells after, plain:   {}", Hex(&board.cells))?;
        writeln!(out, "cells after, library: {}", Hex(&self.library.cells))?;
        writeln!(out, "reply before:         {}", Hex(&self.before.board.reply))?;
        writeln!(out, "reply after, plain:   {}", Hex(&board.reply))?;
        writeln!(out, "reply after, library: {}", Hex(&self.library.reply))
    }

    /// The state before and the event as a script, to be played again. A store
    /// of a wrong length is cut or lengthened as `l` does it; the reply buffer
    /// has no line to set it by, and no event reads it.
    fn report_script(&self, event: &Event, out: &mut String) -> fmt::Result {
        writeln!(out, "the state before and the event as a script:\nn")?;
        let new = Board::new();
        let program = &self.before.board.program;
        for (address, record) in program.chunks_exact(RECORD_LENGTH).enumerate() {
            if record.iter().any(|&byte| byte != 0) {
                writeln!(out, "w {address} {}", Hex(record))?;
            }
        }
        let cells = self.before.board.cells.chunks_exact(4).zip(new.cells.chunks_exact(4));
        for (cell, (bytes, _)) in cells.enumerate().filter(|(_, (bytes, new))| bytes != new) {
            let value = i32::from_be_bytes([bytes[0], bytes[1], bytes[2], bytes[3]]);
            writeln!(out, "v {cell} {value}")?;
        }
        let image = self.before.image();
        let places = image.iter().zip(new.registers.image()).enumerate();
        for (at, (&value, _)) in places.filter(|(_, (&value, new))| value != *new) {
            match at {
                place::WAIT_COUNT => writeln!(out, "q {at} {}", value as u32)?,
                _ => writeln!(out, "q {at} {value}")?,
            }
        }
        let lengths = [
            (program.len(), PROGRAM_LENGTH),
            (self.before.board.cells.len(), CELLS_LENGTH),
            (self.before.board.reply.len(), 9),
        ];
        for (which, (length, _)) in lengths.iter().enumerate().filter(|(_, (a, b))| a != b) {
            writeln!(out, "l {which} {length}")?;
        }
        writeln!(out, "{event}\nu")
    }
}

/// The parts of a store that differ, `size` bytes each.
fn report_store(
    out: &mut String,
    name: &str,
    size: usize,
    plain: &[u8],
    library: &[u8],
) -> fmt::Result {
    let parts = plain.chunks(size).zip(library.chunks(size)).enumerate();
    for (number, (expected, found)) in parts.filter(|(_, (a, b))| a != b) {
        writeln!(out, "  {name} {number}: plain {}, library {}", Hex(expected), Hex(found))?;
    }
    Ok(())
}
