//! Plays a script of events, one answer line for each line.

use std::io::{self, BufRead, Write};

use crate::board::{Answer, Board};
use crate::event::{Event, Hex};
use crate::plain::Reply;

/// The longest line that can be an event.
const LONGEST_LINE: usize = 16_384;

/// Plays the script on a new board.
pub fn play(mut script: impl BufRead, mut answers: impl Write) -> io::Result<()> {
    let mut board = Board::new();
    let mut line = Vec::new();
    let mut number = 0u64;
    loop {
        line.clear();
        if script.read_until(b'\n', &mut line)? == 0 {
            return answers.flush();
        }
        if line.last() == Some(&b'\n') {
            line.pop();
        }
        number += 1;
        play_line(&mut board, &line, number, &mut answers)?;
    }
}

fn play_line(
    board: &mut Board,
    line: &[u8],
    number: u64,
    answers: &mut impl Write,
) -> io::Result<()> {
    let event = if line.len() > LONGEST_LINE { None } else { Event::parse(line) };
    let Some(event) = event else {
        return writeln!(answers, "? {number}");
    };
    match board.apply(&event) {
        Answer::NoEvent => writeln!(answers, "? {number}"),
        Answer::Set if event == Event::Dump => dump(board, answers),
        answer => {
            answers.write_all(&line[..1])?;
            write_answer(board, answer, answers)
        }
    }
}

/// Writes what stands behind an answer line's letter.
fn write_answer(board: &Board, answer: Answer, out: &mut impl Write) -> io::Result<()> {
    match answer {
        Answer::Datagram { status, replied } => {
            writeln!(out, " {status} {} {}", u8::from(replied), Hex(&board.reply))
        }
        Answer::Status(status) => writeln!(out, " {status}"),
        Answer::Ran { status, steps } => writeln!(out, " {status} {steps}"),
        Answer::Verdict { status, address, depth } => {
            writeln!(out, " {status} {address} {depth}")
        }
        Answer::Built { status, buffer } => writeln!(out, " {status} {}", Hex(buffer.as_slice())),
        Answer::Read { status, reply } => {
            let Reply { reply_address, module_address, status: code, command, value } = reply;
            writeln!(out, " {status} {reply_address} {module_address} {code} {command} {value}")
        }
        Answer::Set | Answer::NoEvent => writeln!(out),
    }
}

fn dump(board: &Board, out: &mut impl Write) -> io::Result<()> {
    const WAIT_COUNT: usize = 10;
    write!(out, "u")?;
    for (place, &number) in board.registers.image().iter().enumerate() {
        if place == WAIT_COUNT {
            write!(out, " {}", number as u32)?;
        } else {
            write!(out, " {number}")?;
        }
    }
    for (_, store) in board.stores() {
        write!(out, " {} {}", store.len(), mix(store))?;
    }
    writeln!(out)
}

/// The number that stands for a store's bytes in a dump.
pub fn mix(bytes: &[u8]) -> u32 {
    bytes.iter().fold(2_166_136_261, |mix: u32, &byte| {
        mix.wrapping_mul(16_777_619).wrapping_add(byte.into())
    })
}

#[cfg(test)]
mod tests {
    use super::*;

    fn answers(script: &str) -> String {
        let mut out = Vec::new();
        play(script.as_bytes(), &mut out).unwrap();
        String::from_utf8(out).unwrap()
    }

    #[test]
    fn events_and_lines_that_are_none() {
        let script = "d 010638000000000000003f\nd 01063800000000003f\nq 8 1\nw 0 16000000000000\n\
                      r 3\nT\nr 1001\nq 2 2\nc\nl 2 0\nd -\nb 9 1 6 56 0 0\nb 2 1 6 56 0 0\nt";
        let expected = "d 0 0 000000000000000000\nd 100 1 02016406000100006e\nq\nw\n\
                        r 100 3\n? 6\nr 22 0\n? 8\nc 100 0 0\nl\nd 20 0 -\n\
                        b 100 01063800000000003f\nb 20 aaaa\nt 100\n";
        assert_eq!(answers(script), expected);
    }

    #[test]
    fn a_dump_has_its_numbers() {
        let dump = answers("q 10 4294967295\nu\n");
        let words: Vec<&str> = dump.lines().nth(1).unwrap().split(' ').collect();
        assert_eq!(words.len(), 144);
        assert_eq!(words[11], "4294967295");
        assert_eq!(words[138], "7168");
        assert_eq!(mix(&[]), 2_166_136_261);
        assert_eq!(words[143], mix(&[0; 9]).to_string());
    }

    #[test]
    fn a_line_too_long_is_no_event() {
        let script = format!("r {}1\n", "0".repeat(16_384));
        assert_eq!(answers(&script), "? 1\n");
        let script = format!("r {}1\n", "0".repeat(16_000));
        assert_eq!(answers(&script), "r 100 0\n");
    }
}
