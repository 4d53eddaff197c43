//! How the cost of the area check grows with the area. The script bench/audit says how to run it.
//!
//!     growth times SIDE LENGTH..           nanoseconds a byte at each length, as a table
//!     growth instructions SIDE LENGTH..    instructions a byte by callgrind, as a table
//!     growth passes SIDE FILE PASSES       so many checks of the area in a file, and nothing else: for callgrind
//!
//! SIDE is twin, or archive with that feature. The status is 1 where a byte costs more than three times as much at the last length as
//! at the first, or an answer is wrong.

mod measures;
mod shapes;

use calls::Audit;
use shapes::SHAPES;
use std::fs;
use std::process::ExitCode;

/// The most that the cost of a byte may grow by.
const MOST: f64 = 3.0;
/// The longest area of the twin, as of an archive with the limit lifted.
const LONGEST: usize = 1 << 24;

const USAGE: &str = "usage: growth times SIDE LENGTH.. | instructions SIDE LENGTH.. | passes SIDE FILE PASSES
SIDE is twin, or archive with the feature of that name.";

fn main() -> ExitCode {
    words::obey(USAGE, command)
}

/// Whether all went well; None where the words make no sense.
fn command(words: &[&str]) -> Option<bool> {
    Some(match *words {
        ["passes", name, file, passes] => {
            measures::passes(side(name)?, &mut fs::read(file).ok()?, passes.parse().ok()?);
            true
        }
        ["times", name, ref lengths @ ..] => {
            println!("Check by the {name}: nanoseconds a byte, best of some rounds.\n");
            table(side(name)?, &parsed(lengths)?, measures::time)
        }
        ["instructions", name, ref lengths @ ..] => {
            println!("Check by the {name}: instructions a byte, by callgrind.\n");
            table(side(name)?, &parsed(lengths)?, |_, area| measures::instructions(name, area))
        }
        _ => return None,
    })
}

fn parsed(lengths: &[&str]) -> Option<Vec<usize>> {
    let lengths: Option<Vec<usize>> = lengths.iter().map(|word| word.parse().ok()).collect();
    lengths.filter(|all| !all.is_empty() && all.iter().all(|length| (1_024..=LONGEST).contains(length)))
}

fn side(name: &str) -> Option<&'static dyn Audit> {
    match name {
        "twin" => Some(&walk::Walk { longest: LONGEST }),
        #[cfg(feature = "archive")]
        "archive" => Some(&archive::Archive),
        _ => None,
    }
}

/// Prints a row for each kind of tree; true if all answers are right and no cost grows too much.
fn table(side: &dyn Audit, lengths: &[usize], measure: impl Fn(&dyn Audit, &mut [u8]) -> Option<f64>) -> bool {
    let heads: Vec<String> = lengths.iter().map(|length| format!("{} KiB", length / 1_024)).collect();
    println!("| tree | nodes, entries at the last | {} | last / first |", heads.join(" | "));
    println!("|---|---:|{}---:|", "---:|".repeat(lengths.len()));
    let mut worst: f64 = 0.0;
    for (title, shape) in SHAPES {
        let mut costs = Vec::new();
        let mut counts = String::new();
        for &length in lengths {
            let (mut area, nodes, entries) = shapes::area(shape, length);
            let right = is_right(side, &mut area, entries);
            let Some(cost) = right.then(|| measure(side, &mut area)).flatten() else {
                println!("{title}, {length} bytes: a wrong answer, or the archive's limit of length is not lifted");
                return false;
            };
            costs.push(cost / length as f64);
            counts = format!("{nodes}, {entries}");
        }
        let ratio = costs[costs.len() - 1] / costs[0];
        worst = worst.max(ratio);
        let cells: Vec<String> = costs.iter().map(|cost| format!("{cost:.2}")).collect();
        println!("| {title} | {counts} | {} | {ratio:.2} |", cells.join(" | "));
    }
    println!("\nlast / first: {worst:.2} at most, {MOST} allowed");
    worst <= MOST
}

/// Whether the side and the independent checker call the area sound, and the latter finds so many entries.
fn is_right(side: &dyn Audit, area: &mut [u8], entries: usize) -> bool {
    let mut scratch = vec![0; area.len() / 4];
    checker::survey(area).is_ok_and(|found| found.len() == entries) && side.check(area, &mut scratch) == 0
}
