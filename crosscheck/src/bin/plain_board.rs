//! Plays an event script from the standard input with the plain
//! implementation and writes its answers to the standard output.

use std::io::{self, BufWriter};

fn main() -> io::Result<()> {
    crosscheck::script::play(io::stdin().lock(), BufWriter::new(io::stdout().lock()))
}
