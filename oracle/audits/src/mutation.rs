//! Is the comparison itself any good? It has to notice every walk that is broken on purpose.

use crate::hold::Ours;
use crate::play::{play, play_full};
use crate::tally::Tally;
use crate::{cases, fill, full};
use broken::WALKS;
use std::panic::set_hook;

pub fn mutant(number: usize) -> Option<Ours> {
    WALKS.get(number).map(|(name, side)| Ours { name, side: *side })
}

/// How many areas it takes until one differs, and of what kind that is; None if so many do not.
fn notice(ours: Ours, areas: u64, seed: u64) -> Option<(u64, &'static str)> {
    let mut tally = Tally::default();
    for number in 0.. {
        for (nth, trial) in cases::trials(seed, number).iter().enumerate() {
            if play(ours, trial, fill(seed, number, nth), &mut tally).is_err() {
                return Some((tally.areas, trial.kind));
            }
        }
        if tally.areas >= areas {
            break;
        }
    }
    let noticed = full::areas(seed).iter().any(|area| play_full(ours, area, seed, &mut tally).is_err());
    noticed.then_some((tally.areas, full::KIND))
}

/// Holds the checker against each broken walk; true if every one is noticed within so many areas.
pub fn check(areas: u64, seed: u64) -> bool {
    // A broken walk may panic: that is an answer like any other, and no news.
    set_hook(Box::new(|_| {}));
    let mut noticed = 0;
    for ours in (0..WALKS.len()).filter_map(mutant) {
        match notice(ours, areas, seed) {
            Some((after, kind)) => {
                noticed += 1;
                println!("noticed after {after} areas ({kind}): {}", ours.name);
            }
            None => println!("NOT NOTICED within {areas} areas: {}", ours.name),
        }
    }
    println!("{noticed} of {} broken walks noticed", WALKS.len());
    noticed == WALKS.len()
}
