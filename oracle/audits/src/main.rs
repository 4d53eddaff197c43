//! Holds our check, listing and dump against an independent checker, on areas that are sound, damaged and neither. README.md says what is
//! compared and how to run it.

mod built;
mod cases;
mod faults;
mod full;
mod hand;
mod hold;
#[cfg(feature = "mutants")]
mod mutation;
mod play;
#[allow(dead_code)]
#[path = "../../compare/src/rng.rs"]
mod rng;
mod stores;
mod tally;
mod tiny;

use hold::Ours;
use play::{play, play_full, shrink, Shown};
use rng::Rng;
use std::process::ExitCode;
use std::time::{Duration, Instant};
use tally::Tally;
use trees::DATA;

const USAGE: &str = "usage: audits run SIDE THOUSANDS SEED
       audits mutants AREAS SEED    (feature mutants)
SIDE is twin; archive or mutant-NUMBER with the features of that name.";

/// Differences that are shown before a run gives up.
const MOST_SHOWN: usize = 5;

fn main() -> ExitCode {
    words::obey(USAGE, command)
}

/// Whether all went well; None where the words make no sense.
fn command(words: &[&str]) -> Option<bool> {
    Some(match *words {
        ["run", name, thousands, seed] => {
            let areas = thousands.parse::<f64>().ok()? * 1e3;
            run(side(name)?, areas as u64, seed.parse().ok()?)
        }
        #[cfg(feature = "mutants")]
        ["mutants", areas, seed] => mutation::check(areas.parse().ok()?, seed.parse().ok()?),
        _ => return None,
    })
}

fn side(name: &str) -> Option<Ours> {
    match name {
        "twin" => Some(Ours { name: "twin of the walk", side: &walk::Walk::DOCUMENT }),
        #[cfg(feature = "archive")]
        "archive" => Some(Ours { name: "archive", side: &archive::Archive }),
        #[cfg(feature = "mutants")]
        _ => mutation::mutant(name.strip_prefix("mutant-")?.parse().ok()?),
        #[cfg(not(feature = "mutants"))]
        _ => None,
    }
}

/// What scratch, list and room hold before the calls on one area of a case.
fn fill(seed: u64, number: usize, nth: usize) -> u64 {
    Rng::new(seed ^ (number as u64).rotate_left(16) ^ (nth as u64).rotate_left(48)).next()
}

/// Plays cases until so many areas are tried.
fn run(ours: Ours, areas: u64, seed: u64) -> bool {
    println!("{} against {}, seed {seed}", Ours::JUDGE.name, ours.name);
    let mut tally = Tally::default();
    let (mut differences, mut said) = (0, Instant::now());
    for number in 0.. {
        if tally.areas >= areas || differences == MOST_SHOWN {
            break;
        }
        for (nth, trial) in cases::trials(seed, number).iter().enumerate() {
            if let Err(shown) = play(ours, trial, fill(seed, number, nth), &mut tally) {
                differences += 1;
                println!("DIFFERENCE: seed {seed}, case {number}, area {nth}: {}", trial.kind);
                show(ours, &trial.area, shown);
                break;
            }
        }
        if said.elapsed() > Duration::from_secs(5) {
            println!("... {} areas in {} cases, {differences} differences", tally.areas, number + 1);
            said = Instant::now();
        }
    }
    for area in full::areas(seed) {
        if let Err(shown) = play_full(ours, &area, seed, &mut tally) {
            differences += 1;
            // Making it smaller would take minutes, and what it is has been said.
            print!("DIFFERENCE: seed {seed}, area of {} bytes: {}\n{}", area.len(), full::KIND, shown.difference);
        }
    }
    println!("{tally}");
    println!("{} areas, {differences} differences", tally.areas);
    differences == 0
}

/// Shows the words of the area that are left where as many as can be are zero, and both answers.
fn show(ours: Ours, area: &[u8], shown: Shown) {
    let (area, shown) = shrink(ours, area, shown);
    println!("  {} bytes, all zero but", area.len());
    for (at, bytes) in area.chunks(4).enumerate().filter(|(_, bytes)| bytes.iter().any(|&byte| byte != 0)) {
        let value = bytes.iter().rev().fold(0, |value, &byte| value << 8 | u32::from(byte));
        match (at * 4).checked_sub(DATA) {
            Some(offset) => println!("  data offset {offset}: {value:#x} \"{}\"", bytes.escape_ascii()),
            None => println!("  header byte {}: {value:#x}", at * 4),
        }
    }
    print!("{}", shown.difference);
}
