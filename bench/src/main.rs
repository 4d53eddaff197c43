//! Times the original, the plain twin and the proved archive side by side. docs/BENCH.md says what is measured and how.
//!
//!     bench times [ROUNDS] [SEED]                   nanoseconds a call, as a table
//!     bench instructions [SEED]                     instructions a call by callgrind, as a table
//!     bench passes NAMES SIDE CALL PASSES [SEED]    1 or 2 passes of one call on one side, and nothing else: for callgrind

mod instructions;
mod names;
#[allow(dead_code)]
#[path = "../../oracle/compare/src/rng.rs"]
mod rng;
mod sides;
mod times;
mod work;

use names::Shape;
use rng::Rng;
use sides::{Kind, Who};
use std::process::ExitCode;
use work::Work;

const ROUNDS: u64 = 1000;
const SEED: u64 = 1;

const USAGE: &str = "usage: bench times [ROUNDS] [SEED] | instructions [SEED] | passes NAMES SIDE CALL PASSES [SEED]";

fn main() -> ExitCode {
    words::obey(USAGE, |words| command(words).map(|()| true))
}

/// None where the words make no sense.
fn command(words: &[&str]) -> Option<()> {
    match *words {
        ["times", ref rest @ ..] => times(number(rest, 0, ROUNDS), number(rest, 1, SEED)),
        ["instructions", ref rest @ ..] => instructions(number(rest, 0, SEED)),
        ["passes", shape, who, kind, passes, ref rest @ ..] => run_passes(shape, who, kind, passes, number(rest, 0, SEED)),
        _ => None,
    }
}

/// The number at a place of the arguments, or the default where there are fewer.
fn number(words: &[&str], at: usize, default: u64) -> Option<u64> {
    words.get(at).map_or(Some(default), |word| word.parse().ok())
}

fn times(rounds: Option<u64>, seed: Option<u64>) -> Option<()> {
    let (rounds, seed) = (rounds.filter(|&rounds| rounds > 0)? as usize, seed?);
    println!(
        "Nanoseconds a call: best of {rounds} rounds (median); ratios of the best (least to most of one area). Seed {seed}.\n"
    );
    let mut rng = Rng::new(seed);
    table(seed, |works, _, kind| times::row(works, kind, rounds, &mut rng));
    Some(())
}

fn instructions(seed: Option<u64>) -> Option<()> {
    let seed = seed?;
    println!("Instructions a call, by callgrind. Seed {seed}.\n");
    table(seed, |works, shape, kind| instructions::row(works, shape, kind, seed));
    Some(())
}

/// Prints a table with a row for each shape of names and kind of call, once all sides are seen to agree on it.
fn table(seed: u64, mut row: impl FnMut(&[Work], Shape, Kind) -> Vec<String>) {
    let shapes = Shape::ALL.map(|shape| (shape, Work::several(shape, seed)));
    for (shape, works) in &shapes {
        println!("- {}", work::describe(*shape, works));
    }
    println!("\n| names | call | original | twin | archive | archive / original | archive / twin |");
    println!("|---|---|---:|---:|---:|---:|---:|");
    for (shape, works) in &shapes {
        for kind in Kind::ALL {
            works.iter().for_each(|work| work.check(kind));
            println!("| {} | {} | {} |", shape.title(), kind.title(), row(works, *shape, kind).join(" | "));
        }
    }
}

fn run_passes(shape: &str, who: &str, kind: &str, passes: &str, seed: Option<u64>) -> Option<()> {
    let shape = Shape::ALL.into_iter().find(|known| known.title() == shape)?;
    let who = Who::ALL.into_iter().find(|known| known.title() == who)?;
    let kind = Kind::ALL.into_iter().find(|known| known.word() == kind)?;
    let passes = passes.parse().ok().filter(|passes| [1, 2].contains(passes))?;
    instructions::run_passes(&Work::several(shape, seed?), who, kind, passes);
    Some(())
}
