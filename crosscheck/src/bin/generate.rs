//! `generate SEED COUNT` writes a random script of COUNT lines.

use std::env;
use std::io::{self, BufWriter};
use std::process::exit;

fn main() -> io::Result<()> {
    let numbers: Vec<Option<u64>> = env::args().skip(1).map(|word| word.parse().ok()).collect();
    let [Some(seed), Some(count)] = numbers[..] else {
        eprintln!("usage: generate SEED COUNT");
        exit(2);
    };
    crosscheck::generate::write_script(seed, count, BufWriter::new(io::stdout().lock()))
}
