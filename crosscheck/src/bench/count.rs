//! Instruction counts: the benchmark starts itself again under callgrind, once
//! for all rows, and reads what each pass took.

use std::env;
use std::fs;
use std::path::Path;
use std::process::{id, Command};

use super::measure::Bench;
use super::sides::PASS;

/// The option under which the benchmark makes one pass of each row and side.
pub const ONCE: &str = "--once";

/// Instructions of one unit on each board.
#[derive(Clone, Copy)]
pub struct Counts {
    pub library: f64,
    pub plain: f64,
}

/// One pass of each board, to be counted.
pub fn count_once(benches: &mut [Bench]) -> Result<(), String> {
    for bench in benches {
        bench.library_pass()?;
        bench.plain_pass()?;
    }
    Ok(())
}

/// The counts of the rows, or why there are none in one line.
pub fn counts(benches: &[Bench]) -> Result<Vec<Counts>, String> {
    let folder = env::temp_dir().join(format!("bench-counts-{}", id()));
    fs::create_dir_all(&folder).map_err(|error| format!("{}: {error}", folder.display()))?;
    let counts = counts_in(&folder, benches);
    // Nothing is left behind, whatever came of it.
    let _ = fs::remove_dir_all(&folder);
    counts
}

fn counts_in(folder: &Path, benches: &[Bench]) -> Result<Vec<Counts>, String> {
    let program = env::current_exe().map_err(|error| format!("this program: {error}"))?;
    let mut valgrind = Command::new("valgrind");
    valgrind.args(["--tool=callgrind", "--collect-atstart=no"]);
    valgrind.arg(format!("--callgrind-out-file={}/pass", folder.display()));
    valgrind.args([format!("--toggle-collect={PASS}"), format!("--dump-after={PASS}")]);
    valgrind.arg(program).arg(ONCE).args(benches.iter().map(|bench| bench.name));
    let output = valgrind
        .output()
        .map_err(|error| format!("--count needs valgrind, which does not start: {error}"))?;
    if !output.status.success() {
        let words = String::from_utf8_lossy(&output.stderr);
        let last = words.lines().last().unwrap_or("");
        return Err(format!("--count: valgrind ended with {}: {last}", output.status));
    }
    let count = |number: usize| instructions(&folder.join(format!("pass.{number}")));
    let each = benches.iter().enumerate().map(|(row, bench)| {
        let units = bench.units as f64;
        let (library, plain) = (count(2 * row + 1)?, count(2 * row + 2)?);
        Ok(Counts { library: library / units, plain: plain / units })
    });
    each.collect()
}

/// The sum that one of callgrind's files gives.
fn instructions(file: &Path) -> Result<f64, String> {
    let text = fs::read_to_string(file).map_err(|error| format!("{}: {error}", file.display()))?;
    let total = text.lines().find_map(|line| line.strip_prefix("totals: "));
    total
        .and_then(|number| number.trim().parse().ok())
        .ok_or_else(|| format!("{}: no count that could be read", file.display()))
}
