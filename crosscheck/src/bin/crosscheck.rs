//! `crosscheck [EVENTS [SEED]]` applies random events to the library and to
//! the plain implementation and compares everything after each of them.
//!
//! Ends with a table of what was tried, or with the first difference and 1.

use std::env;
use std::process::exit;
use std::time::{Duration, Instant};

use crosscheck::compare::Pair;
use crosscheck::coverage::Coverage;
use crosscheck::generate::{Generator, Use};

const DEFAULT_EVENTS: u64 = 10_000_000;
const DEFAULT_SEED: u64 = 1;
/// The clock is looked at once in so many events.
const LOOK_EVERY: u64 = 4096;

fn main() {
    let (events, seed) = arguments();
    let begun = Instant::now();
    match compare(events, seed, begun) {
        Ok(coverage) => {
            println!("{coverage}");
            for words in coverage.missed() {
                println!("never reached: {words}");
            }
            let seconds = begun.elapsed().as_secs_f64();
            println!("{events} events, seed {seed}, {seconds:.1} s: no difference");
        }
        Err(report) => {
            println!("{report}");
            println!("seed {seed}: the library and the plain implementation differ");
            exit(1);
        }
    }
}

/// Compares so many events; a report if there is a difference.
fn compare(events: u64, seed: u64, begun: Instant) -> Result<Coverage, String> {
    let mut generator = Generator::new(seed, Use::Crosscheck);
    let mut pair = Pair::new();
    let mut coverage = Coverage::new();
    let mut told = begun;
    let mut done = 0;
    while done < events {
        let event = generator.next(pair.board());
        if !event.is_under_test() {
            pair.apply(&event)?;
            continue;
        }
        let unheld = pair.unheld();
        let answer = pair.apply(&event)?;
        let (before, after) = (pair.before(), pair.board());
        coverage.count(&event, answer, &before.registers, &after.registers, unheld);
        coverage.count_steps(&event, answer, before, after)?;
        done += 1;
        if done % LOOK_EVERY == 0 && told.elapsed() >= Duration::from_secs(1) {
            told = Instant::now();
            let rate = done as f64 / begun.elapsed().as_secs_f64();
            eprintln!("{done} of {events} events, {rate:.0} a second");
        }
    }
    Ok(coverage)
}

fn arguments() -> (u64, u64) {
    let numbers: Vec<Option<u64>> = env::args().skip(1).map(|word| word.parse().ok()).collect();
    match numbers[..] {
        [] => (DEFAULT_EVENTS, DEFAULT_SEED),
        [Some(events)] => (events, DEFAULT_SEED),
        [Some(events), Some(seed)] => (events, seed),
        _ => {
            eprintln!("usage: crosscheck [EVENTS [SEED]]");
            exit(2);
        }
    }
}
