//! A random script as text, with lines that are no event among the others.

use std::io::{self, Write};

use super::{Generator, Use};
use crate::board::Board;
use crate::event::Event;
use crate::random::Random;

/// Writes a script of `count` lines.
pub fn write_script(seed: u64, count: u64, mut out: impl Write) -> io::Result<()> {
    let mut generator = Generator::new(seed, Use::Script);
    // Noise has its own randomness, so that it does not change the events.
    let mut random = Random::new(!seed);
    let mut board = Board::new();
    for _ in 0..count {
        let mut line = generator.next(&board).to_string();
        if random.once_in(150) {
            line = spoil(line, &mut random);
        }
        // A spoilt line may still be an event: play along with what it says.
        if let Some(event) = Event::parse(line.as_bytes()) {
            board.apply(&event);
        }
        writeln!(out, "{line}")?;
    }
    out.flush()
}

/// Lines at the ends of what is an event, most of them beyond.
const BORDER_LINES: [&str; 41] = [
    "r -1",
    "r",
    "r +5",
    "r 9223372036854775808",
    "r 1001",
    "r 007",
    "r -0",
    "r 1 1",
    "r x",
    "q 137 0",
    "q 2 2",
    "q 8 2",
    "q 14 3",
    "q 3 256",
    "q 25 -1",
    "q 7 65536",
    "q 10 -1",
    "q 10 4294967296",
    "q 0 2147483648",
    "q 77 256",
    "w 1024 1c000000000000",
    "w 0 1c",
    "v 91 0",
    "v 0 -2147483649",
    "l 3 0",
    "l 0 8193",
    "b 65 0 0 0 0 0",
    "b 9 256 0 0 0 0",
    "b 9 1 2 3 4 2147483648",
    "s 0 0 0 0",
    "d",
    "d 0",
    "d 0A",
    "d zz",
    "a",
    "x",
    "?",
    "d --",
    "n 1",
    "u u",
    "t t",
];

/// A line that mostly is no event.
fn spoil(line: String, random: &mut Random) -> String {
    match random.below(7) {
        0 => line.to_uppercase(),
        1 => line.replacen(' ', "  ", 1),
        2 => line + " ",
        3 => line + "\r",
        4 => String::new(),
        5 => line[..random.below(line.len() as u64 + 1) as usize].to_string(),
        _ => random.pick(&BORDER_LINES).to_string(),
    }
}

#[cfg(test)]
mod tests {
    use super::*;

    #[test]
    fn scripts_are_reproducible_and_their_lines_short() {
        let script = |seed| {
            let mut out = Vec::new();
            write_script(seed, 20_000, &mut out).unwrap();
            String::from_utf8(out).unwrap()
        };
        let first = script(1);
        assert_eq!(first, script(1));
        assert_ne!(first, script(2));
        assert_eq!(first.lines().count(), 20_000);
        assert!(first.lines().all(|line| line.len() < 200));
    }
}
