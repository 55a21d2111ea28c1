//! The events of a script: what a line means, and the line an event is.

use std::fmt;

use crate::plain::{Command, CELLS, RECORDS};

/// The longest byte string of a datagram, of a build or of a reading.
pub const LONGEST_BYTES: usize = 64;
/// The longest store.
pub const LONGEST_STORE: usize = 8192;
/// Places of the registers' image.
pub const PLACES: usize = 137;

/// A short byte string kept in place.
#[derive(Clone, Copy)]
pub struct Bytes {
    bytes: [u8; LONGEST_BYTES],
    length: usize,
}

impl Bytes {
    /// The bytes, or `None` for more than 64.
    pub fn new(bytes: &[u8]) -> Option<Bytes> {
        let mut kept = Bytes { bytes: [0; LONGEST_BYTES], length: bytes.len() };
        kept.bytes.get_mut(..bytes.len())?.copy_from_slice(bytes);
        Some(kept)
    }

    /// A byte string of one byte over and over, at most 64 times.
    pub fn filled(byte: u8, length: usize) -> Bytes {
        assert!(length <= LONGEST_BYTES);
        Bytes { bytes: [byte; LONGEST_BYTES], length }
    }

    pub fn as_slice(&self) -> &[u8] {
        &self.bytes[..self.length]
    }

    pub fn as_mut_slice(&mut self) -> &mut [u8] {
        &mut self.bytes[..self.length]
    }
}

impl PartialEq for Bytes {
    fn eq(&self, other: &Bytes) -> bool {
        self.as_slice() == other.as_slice()
    }
}

impl fmt::Debug for Bytes {
    fn fmt(&self, f: &mut fmt::Formatter) -> fmt::Result {
        write!(f, "{}", Hex(self.as_slice()))
    }
}

/// Shows bytes as pairs of hex digits, the empty string as `-`.
pub struct Hex<'a>(pub &'a [u8]);

impl fmt::Display for Hex<'_> {
    fn fmt(&self, f: &mut fmt::Formatter) -> fmt::Result {
        if self.0.is_empty() {
            return f.write_str("-");
        }
        self.0.iter().try_for_each(|byte| write!(f, "{byte:02x}"))
    }
}

/// One line of a script.
#[derive(Clone, Copy, Debug, PartialEq)]
pub enum Event {
    Datagram(Bytes),
    Sample([i32; 16]),
    Tick,
    Run(u64),
    PowerUp,
    Check,
    Build { length: usize, address: u8, command: Command },
    Read(Bytes),
    Dump,
    New,
    Record { address: usize, record: [u8; 7] },
    Cell { cell: usize, value: i32 },
    Register { place: usize, value: i64 },
    Length { which: usize, length: usize },
}

impl Event {
    /// Whether the event is one of the board's, not looking or setting up.
    pub fn is_under_test(&self) -> bool {
        matches!(
            self,
            Event::Datagram(_)
                | Event::Sample(_)
                | Event::Tick
                | Event::Run(_)
                | Event::PowerUp
                | Event::Check
                | Event::Build { .. }
                | Event::Read(_)
        )
    }

    /// The event that a line's bytes, without the newline, are.
    pub fn parse(line: &[u8]) -> Option<Event> {
        let mut words = line.split(|&byte| byte == b' ');
        let letter = words.next()?;
        let words = &mut words;
        let event = match letter {
            b"d" => Event::Datagram(bytes(words)?),
            b"s" => Event::Sample(sample(words)?),
            b"t" => Event::Tick,
            b"r" => Event::Run(u64::try_from(number(words)?).ok()?),
            b"p" => Event::PowerUp,
            b"c" => Event::Check,
            b"b" => build(words)?,
            b"a" => Event::Read(bytes(words)?),
            b"u" => Event::Dump,
            b"n" => Event::New,
            b"w" => {
                let address = below(words, RECORDS)?;
                let record = bytes(words)?.as_slice().try_into().ok()?;
                Event::Record { address, record }
            }
            b"v" => Event::Cell { cell: below(words, CELLS)?, value: small(words)? },
            b"q" => Event::Register { place: below(words, PLACES)?, value: number(words)? },
            b"l" => {
                let (which, length) = (below(words, 3)?, below(words, LONGEST_STORE + 1)?);
                Event::Length { which, length }
            }
            _ => return None,
        };
        words.next().is_none().then_some(event)
    }
}

/// An optional minus and digits that fit 64 bits.
fn number<'w>(words: &mut (impl Iterator<Item = &'w [u8]> + 'w)) -> Option<i64> {
    let word = words.next()?;
    let (negative, digits) = match word.strip_prefix(b"-") {
        Some(digits) => (true, digits),
        None => (false, word),
    };
    if digits.is_empty() {
        return None;
    }
    // Counted downwards, since there is one more number below 0 than above.
    let mut value: i64 = 0;
    for digit in digits {
        if !digit.is_ascii_digit() {
            return None;
        }
        value = value.checked_mul(10)?.checked_sub(i64::from(digit - b'0'))?;
    }
    if negative {
        Some(value)
    } else {
        value.checked_neg()
    }
}

/// A number that the type holds.
fn small<'w, T: TryFrom<i64>>(words: &mut (impl Iterator<Item = &'w [u8]> + 'w)) -> Option<T> {
    T::try_from(number(words)?).ok()
}

/// A number from 0 up to, but not, `end`.
fn below<'w>(words: &mut (impl Iterator<Item = &'w [u8]> + 'w), end: usize) -> Option<usize> {
    small(words).filter(|&value: &usize| value < end)
}

/// Pairs of small hex digits, at most 64, or `-` for none.
fn bytes<'w>(words: &mut (impl Iterator<Item = &'w [u8]> + 'w)) -> Option<Bytes> {
    let word = words.next()?;
    if word == b"-" {
        return Bytes::new(&[]);
    }
    if word.is_empty() || word.len() % 2 != 0 || word.len() > 2 * LONGEST_BYTES {
        return None;
    }
    let mut kept = Bytes { bytes: [0; LONGEST_BYTES], length: word.len() / 2 };
    for (byte, pair) in kept.bytes.iter_mut().zip(word.chunks(2)) {
        *byte = hex_digit(pair[0])? * 16 + hex_digit(pair[1])?;
    }
    Some(kept)
}

fn hex_digit(digit: u8) -> Option<u8> {
    match digit {
        b'0'..=b'9' => Some(digit - b'0'),
        b'a'..=b'f' => Some(digit - b'a' + 10),
        _ => None,
    }
}

fn sample<'w>(words: &mut (impl Iterator<Item = &'w [u8]> + 'w)) -> Option<[i32; 16]> {
    let mut fields = [0; 16];
    for field in &mut fields {
        *field = small(words)?;
    }
    Some(fields)
}

fn build<'w>(words: &mut (impl Iterator<Item = &'w [u8]> + 'w)) -> Option<Event> {
    let length = below(words, LONGEST_BYTES + 1)?;
    let address = small(words)?;
    let command = Command {
        number: small(words)?,
        kind: small(words)?,
        motor: small(words)?,
        value: small(words)?,
    };
    Some(Event::Build { length, address, command })
}

impl fmt::Display for Event {
    fn fmt(&self, f: &mut fmt::Formatter) -> fmt::Result {
        match self {
            Event::Datagram(bytes) => write!(f, "d {}", Hex(bytes.as_slice())),
            Event::Sample(fields) => {
                f.write_str("s")?;
                fields.iter().try_for_each(|field| write!(f, " {field}"))
            }
            Event::Tick => f.write_str("t"),
            Event::Run(budget) => write!(f, "r {budget}"),
            Event::PowerUp => f.write_str("p"),
            Event::Check => f.write_str("c"),
            Event::Build { length, address, command } => {
                let Command { number, kind, motor, value } = command;
                write!(f, "b {length} {address} {number} {kind} {motor} {value}")
            }
            Event::Read(bytes) => write!(f, "a {}", Hex(bytes.as_slice())),
            Event::Dump => f.write_str("u"),
            Event::New => f.write_str("n"),
            Event::Record { address, record } => write!(f, "w {address} {}", Hex(record)),
            Event::Cell { cell, value } => write!(f, "v {cell} {value}"),
            Event::Register { place, value } => write!(f, "q {place} {value}"),
            Event::Length { which, length } => write!(f, "l {which} {length}"),
        }
    }
}

#[cfg(test)]
mod tests {
    use super::*;

    #[test]
    fn lines_that_are_events_show_as_themselves() {
        for line in [
            "d 010638000000000000003f",
            "d -",
            "s 1 -2 0 1 0 1 240 -20 0 1 0 65535 7 0 1 0",
            "t",
            "r 9223372036854775807",
            "b 9 1 5 93 0 -32768",
            "a 0201",
            "w 1023 1c000000000000",
            "v 90 -2147483648",
            "q 10 4294967295",
            "l 2 8192",
        ] {
            let event = Event::parse(line.as_bytes()).expect(line);
            assert_eq!(event.to_string(), line);
        }
        assert_eq!(Event::parse(b"r 007"), Some(Event::Run(7)));
        assert_eq!(Event::parse(b"r -0"), Some(Event::Run(0)));
    }

    #[test]
    fn lines_that_are_no_event() {
        for line in [
            "",
            " t",
            "t ",
            "t\r",
            "T",
            "tt",
            "x",
            "r",
            "r -1",
            "r +1",
            "r 1 2",
            "r  1",
            "r 9223372036854775808",
            "d",
            "d 0",
            "d 0A",
            "w 1024 1c000000000000",
            "w 0 1c0000000000",
            "w 0 -",
            "v 91 0",
            "v 0 2147483648",
            "q 137 0",
            "l 3 0",
            "l 0 8193",
            "b 65 0 0 0 0 0",
            "b 9 256 0 0 0 0",
            "s 1 2 3",
        ] {
            assert_eq!(Event::parse(line.as_bytes()), None, "{line}");
        }
        let long = format!("d {}", "00".repeat(65));
        assert_eq!(Event::parse(long.as_bytes()), None);
    }
}
