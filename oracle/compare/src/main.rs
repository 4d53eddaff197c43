//! Holds the original against our side, call by call. README.md says what is compared and how to run it.

mod area;
mod case;
mod counts;
mod damage;
#[cfg(all(test, feature = "original"))]
mod examples;
mod families;
#[cfg(feature = "mutants")]
mod kept;
#[cfg(feature = "mutants")]
mod mutation;
mod op;
#[cfg(feature = "archive")]
mod other_bytes;
mod play;
mod rng;
mod shrink;
mod text;
mod vectors;

use families::play_case;
#[cfg(feature = "archive")]
use other_bytes::OtherBytes;
use play::{Difference, Ours, Player};
use std::fs;
use std::process::ExitCode;
use std::time::{Duration, Instant};

const USAGE: &str = "usage: compare run SIDE MILLIONS SEED
       compare replay SIDE FILE
       compare mutants CALLS SEED    (feature mutants)
       compare vectors FILE SEED     (feature mutants)
SIDE is twin; archive, bytes or mutant-NUMBER with the features of that name (bytes: archive). All but bytes: feature original.";

#[cfg(feature = "original")]
const TWIN: Ours = Ours::against_original("twin", &twin::Twin);

/// Differences that are shown before a run gives up.
const MOST_SHOWN: usize = 5;

fn main() -> ExitCode {
    words::obey(USAGE, command)
}

/// Whether all went well; None where the words make no sense.
fn command(words: &[&str]) -> Option<bool> {
    Some(match *words {
        ["run", name, millions, seed] => {
            let calls = millions.parse::<f64>().ok()? * 1e6;
            run(side(name)?, calls as u64, seed.parse().ok()?)
        }
        #[cfg(feature = "mutants")]
        ["mutants", calls, seed] => mutation::check(calls.parse().ok()?, seed.parse().ok()?),
        #[cfg(feature = "mutants")]
        ["vectors", file, seed] => kept::write(TWIN, file, seed.parse().ok()?),
        ["replay", name, file] => replay_vectors(side(name)?, file),
        _ => return None,
    })
}

fn side(name: &str) -> Option<Ours> {
    match name {
        #[cfg(feature = "original")]
        "twin" => Some(TWIN),
        #[cfg(all(feature = "archive", feature = "original"))]
        "archive" => Some(Ours::against_original("archive", &archive::Archive)),
        #[cfg(feature = "archive")]
        "bytes" => Some(Ours {
            name: "archive with bytes that are no UTF-8",
            side: &OtherBytes(&archive::Archive),
            judge_name: "twin",
            judge: &OtherBytes(&twin::Twin),
        }),
        #[cfg(feature = "mutants")]
        _ => mutation::mutant(name.strip_prefix("mutant-")?.parse().ok()?),
        #[cfg(not(feature = "mutants"))]
        _ => None,
    }
}

/// Plays cases until they have chosen so many calls.
fn run(ours: Ours, calls: u64, seed: u64) -> bool {
    println!("{} against {}, seed {seed}", ours.judge_name, ours.name);
    let mut player = Player::new(ours);
    let (mut differences, mut said) = (0, Instant::now());
    for number in 0.. {
        if player.counts.chosen() >= calls || differences == MOST_SHOWN {
            break;
        }
        player.start();
        if play_case(&mut player, seed, number, false).is_err() {
            differences += 1;
            show(ours, &player, seed, number);
        }
        if said.elapsed() > Duration::from_secs(5) {
            println!("... {} calls in {} cases, {differences} differences", player.counts.calls(), number + 1);
            said = Instant::now();
        }
    }
    println!("{}", player.counts);
    println!("{} calls, {differences} differences", player.counts.calls());
    differences == 0
}

/// Shows the smallest list of steps that differs, and both answers.
fn show(ours: Ours, player: &Player, seed: u64, number: usize) {
    println!("DIFFERENCE: seed {seed}, case {number}, step {}", player.log.len());
    match shrink::shrink(ours, &player.log) {
        Some((steps, difference)) => show_steps(&steps, &difference),
        None => println!("  not seen again from a fresh buffer"),
    }
}

fn show_steps(steps: &[op::Op], difference: &Difference) {
    println!("  smallest: {} steps, from a buffer of zeros", steps.len());
    for op in steps {
        println!("  {op}");
    }
    print!("{difference}");
}

fn replay_vectors(ours: Ours, file: &str) -> bool {
    let answer = fs::read(file).map_err(|error| error.to_string()).and_then(|bytes| vectors::replay(&bytes, ours.side));
    match &answer {
        Ok(count) => println!("{}: {count} records, all equal", ours.name),
        Err(why) => println!("{}: {why}", ours.name),
    }
    answer.is_ok()
}
