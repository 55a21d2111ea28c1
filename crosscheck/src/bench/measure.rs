//! One row on both boards: compared event by event, then timed by turns.

use std::time::Instant;

use dhikmarul::{place, Sample};

use super::rows::Row;
use super::sides::{bench_pass, Side, Work};
use crate::board::{Answer, Board};
use crate::event::{Event, PLACES};
use crate::lent::Lent;
use crate::library::{image_place, LibraryBoard};

/// The best time of one unit on each board.
#[derive(Clone, Copy)]
pub struct Nanoseconds {
    pub library: f64,
    pub plain: f64,
}

/// Both boards in one state.
#[derive(Clone)]
struct Both {
    library: LibraryBoard,
    plain: Board,
}

/// A row on both boards.
pub struct Bench {
    pub name: &'static str,
    pub unit: &'static str,
    /// Units of one pass.
    pub units: usize,
    pub best: Nanoseconds,
    work: Work,
    /// The answers of a pass as one number, once one was made.
    answers: Option<u64>,
    /// Where every pass begins, where it has to end, and where it is.
    begin: Both,
    end: Both,
    now: Both,
}

impl Bench {
    /// Sets both boards up and carries out a pass event by event, comparing
    /// the answers and all of the boards after each. A difference is an error
    /// of one line.
    pub fn new(row: Row) -> Result<Bench, String> {
        let mut begin = Both { library: LibraryBoard::new(), plain: Board::new() };
        for (address, command) in row.program.iter().enumerate() {
            let record = Event::Record { address, record: command.to_record() };
            begin.plain.set_up_store(&record);
            begin.library.set_up_store(&record);
        }
        for event in &row.before {
            begin.carry_out(row.name, event)?;
        }
        let (mut end, mut units) = (begin.clone(), 0);
        for event in (0..row.times).flat_map(|_| &row.events) {
            units += units_of(row.unit, end.carry_out(row.name, event)?);
        }
        let samples = row.events.iter().filter_map(|event| match event {
            Event::Sample(numbers) => Some(Sample::from_numbers(numbers)),
            _ => None,
        });
        let work = Work { samples: samples.collect(), events: row.events, times: row.times };
        let best = Nanoseconds { library: f64::MAX, plain: f64::MAX };
        let now = begin.clone();
        let (name, unit) = (row.name, row.unit);
        Ok(Bench { name, unit, units, best, work, answers: None, begin, end, now })
    }

    /// A turn of each board: a pass to warm up and some that are timed.
    pub fn round(&mut self) -> Result<(), String> {
        const TIMED: usize = 3;
        self.library_pass()?;
        for _ in 0..TIMED {
            self.best.library = self.best.library.min(self.library_pass()?);
        }
        self.plain_pass()?;
        for _ in 0..TIMED {
            self.best.plain = self.best.plain.min(self.plain_pass()?);
        }
        Ok(())
    }

    /// One pass of the library; nanoseconds of one unit.
    pub fn library_pass(&mut self) -> Result<f64, String> {
        let (spent, answers) = timed(&mut self.now.library, &self.begin.library, &self.work);
        same(self.name, "the library", &self.now.library, &self.end.plain)?;
        self.judge("the library", answers)?;
        Ok(spent / self.units as f64)
    }

    /// One pass of the plain board; nanoseconds of one unit.
    pub fn plain_pass(&mut self) -> Result<f64, String> {
        let (spent, answers) = timed(&mut self.now.plain, &self.begin.plain, &self.work);
        same(self.name, "the plain board", &self.end.library, &self.now.plain)?;
        self.judge("the plain board", answers)?;
        Ok(spent / self.units as f64)
    }

    /// All passes of a row, of either board, have the same answers.
    fn judge(&mut self, side: &str, answers: u64) -> Result<(), String> {
        let expected = *self.answers.get_or_insert(answers);
        if answers == expected {
            return Ok(());
        }
        let name = self.name;
        Err(format!("{name}: {side} answers otherwise: {answers:x}, before {expected:x}"))
    }
}

/// One pass of a board from where it begins: its nanoseconds, and the number
/// made from its answers.
fn timed<R: Clone>(now: &mut Lent<R>, begin: &Lent<R>, work: &Work) -> (f64, u64)
where
    Lent<R>: Side,
{
    now.take_over(begin);
    let begun = Instant::now();
    let answers = bench_pass(now, work);
    (begun.elapsed().as_nanos() as f64, answers)
}

/// How many units an event is: a step row counts the steps answered.
fn units_of(unit: &str, answer: Answer) -> usize {
    match answer {
        Answer::Ran { steps, .. } if unit == "step" => steps,
        _ if unit == "step" => 0,
        _ => 1,
    }
}

impl Both {
    /// Carries out an event on both and compares.
    fn carry_out(&mut self, row: &str, event: &Event) -> Result<Answer, String> {
        let library = self.library.apply(event);
        let plain = self.plain.apply(event);
        if library != plain {
            return Err(format!("{row}: {event}: library answers {library:?}, plain {plain:?}"));
        }
        same(row, "one of the two", &self.library, &self.plain)?;
        Ok(plain)
    }
}

/// Whether the boards agree in registers, both stores and the reply buffer;
/// `side` is the one just timed.
fn same(row: &str, side: &str, library: &LibraryBoard, plain: &Board) -> Result<(), String> {
    let (left, right) = (library.dumped(), plain.registers.image());
    if let Some(at) = (0..PLACES).find(|&at| left[at] != right[at]) {
        let (name, left, right) = (place::name(image_place(at)), left[at], right[at]);
        return Err(format!("{row}: {side} went astray: {name}: library {left}, plain {right}"));
    }
    let mut stores = library.stores().into_iter().zip(plain.stores());
    match stores.find(|(left, right)| left != right) {
        Some(((name, _), _)) => Err(format!("{row}: {side} went astray: the {name} differs")),
        None => Ok(()),
    }
}

#[cfg(test)]
mod tests {
    use super::super::rows::rows;
    use super::*;
    use crate::plain::check;

    #[test]
    fn every_row_agrees_and_has_work() {
        for mut row in rows() {
            row.times = 1;
            let name = row.name;
            let mut bench = Bench::new(row).unwrap_or_else(|words| panic!("{words}"));
            assert!(bench.units > 0, "{name}");
            bench.round().unwrap_or_else(|words| panic!("{words}"));
        }
    }

    #[test]
    fn a_board_that_does_nothing_is_found_out() {
        let row = rows().into_iter().find(|row| row.name == "loop").unwrap();
        let mut bench = Bench::new(row).unwrap();
        bench.work.times = 0;
        let words = bench.plain_pass().unwrap_err();
        assert!(words.starts_with("loop: the plain board went astray: "), "{words}");
        assert!(bench.library_pass().is_err());
    }

    #[test]
    fn the_checks_end_as_their_names_say() {
        let ends = [
            ("check-stop", (100, 0, 0)),
            ("check-straight", (100, 0, 0)),
            ("check-worst", (6, 1022, 8)),
            ("check-passed", (100, 0, 0)),
        ];
        for (name, expected) in ends {
            let row = rows().into_iter().find(|row| row.name == name).unwrap();
            let bench = Bench::new(Row { times: 1, ..row }).unwrap();
            let verdict = check(&bench.begin.plain.program);
            assert_eq!((verdict.status, verdict.address, verdict.depth), expected, "{name}");
        }
    }
}
