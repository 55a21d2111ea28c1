//! Times the library, over the C boundary, and the plain implementation in
//! the same run, by turns; each time is the best of all rounds.

use std::env;
use std::process::exit;
use std::time::{Duration, Instant};

use crosscheck::bench::{count_once, counts, rows, Bench, Counts, ONCE};

const HELP: &str = "\
usage: bench [--rounds N] [--count] [ROW]...

Times the library, over the C boundary, and the plain implementation, in place,
on the same events in the same run, by turns. A time is the best of all rounds,
in nanoseconds of one unit. Before a row is timed both boards carry its events
out and are compared after each: answers, registers, stores, reply buffer; after
every timed pass they are compared again. A difference is told in one line.

  --rounds N   so many rounds (40)
  --count      the instructions of one unit too; needs valgrind
  --list       the names of the rows
  --help       this
  ROW          only these rows

Ends with 0, with 1 after a difference or an error, with 2 for a wrong call.";

/// What was asked for.
struct Asked {
    rounds: usize,
    count: bool,
    once: bool,
    names: Vec<String>,
}

fn main() {
    let asked = arguments();
    if let Err(words) = run(&asked) {
        eprintln!("bench: {words}");
        exit(1);
    }
}

fn run(asked: &Asked) -> Result<(), String> {
    let mut benches = prepare(&asked.names)?;
    if asked.once {
        return count_once(&mut benches);
    }
    let counted = if asked.count {
        eprintln!("counting instructions, rows: {}", benches.len());
        Some(counts(&benches)?)
    } else {
        None
    };
    let mut told = Told::new();
    for round in 0..asked.rounds {
        for bench in &mut benches {
            told.tell(|| format!("round {} of {}, {}", round + 1, asked.rounds, bench.name));
            bench.round()?;
        }
    }
    show(&benches, counted.as_deref());
    Ok(())
}

/// The rows asked for, or all of them.
fn prepare(names: &[String]) -> Result<Vec<Bench>, String> {
    let rows = rows().into_iter();
    let wanted = rows.filter(|row| names.is_empty() || names.iter().any(|name| name == row.name));
    wanted.map(Bench::new).collect()
}

fn show(benches: &[Bench], counted: Option<&[Counts]>) {
    print!("{:<16}{:<10}{:>12}{:>12}{:>8}", "row", "unit", "library, ns", "plain, ns", "ratio");
    if counted.is_some() {
        print!("{:>16}{:>14}{:>8}", "library, instr", "plain, instr", "ratio");
    }
    println!();
    for (at, bench) in benches.iter().enumerate() {
        let (library, plain) = (bench.best.library, bench.best.plain);
        let ratio = library / plain;
        print!("{:<16}{:<10}{library:>12.2}{plain:>12.2}{ratio:>8.2}", bench.name, bench.unit);
        if let Some(counted) = counted {
            let Counts { library, plain } = counted[at];
            print!("{library:>16.1}{plain:>14.1}{:>8.2}", library / plain);
        }
        println!();
    }
    println!("answers, registers, stores and replies of {} rows agree", benches.len());
}

/// Says how far a long run is.
struct Told {
    last: Instant,
}

impl Told {
    const EVERY: Duration = Duration::from_secs(2);

    fn new() -> Told {
        Told { last: Instant::now() }
    }

    fn tell(&mut self, words: impl FnOnce() -> String) {
        if self.last.elapsed() >= Told::EVERY {
            self.last = Instant::now();
            eprintln!("{}", words());
        }
    }
}

fn arguments() -> Asked {
    let mut asked = Asked { rounds: 40, count: false, once: false, names: Vec::new() };
    let known: Vec<&str> = rows().iter().map(|row| row.name).collect();
    let mut words = env::args().skip(1);
    while let Some(word) = words.next() {
        match word.as_str() {
            "--help" | "-h" => end(HELP, 0),
            "--list" => end(&known.join("\n"), 0),
            "--count" => asked.count = true,
            ONCE => asked.once = true,
            "--rounds" => match words.next().map(|number| number.parse()) {
                Some(Ok(rounds)) if rounds > 0 => asked.rounds = rounds,
                _ => end("bench: --rounds wants a number above 0", 2),
            },
            name if known.contains(&name) => asked.names.push(word),
            _ => end(&format!("bench: no row and no option: {word} (see --help)"), 2),
        }
    }
    asked
}

/// Ends with these words: an answer for 0, else an error.
fn end(words: &str, code: i32) -> ! {
    if code == 0 {
        println!("{words}");
    } else {
        eprintln!("{words}");
    }
    exit(code)
}
