//! Is the comparison itself any good? It has to notice every twin that is broken on purpose.

use crate::families::play_case;
use crate::play::{Ours, Player};
use crate::shrink::shrink;
use broken::{ENTRY_MUTANTS, MUTANTS};
use std::panic::set_hook;

/// Those that are broken in one of the calls that the fixed vectors hold.
pub fn of_vectors() -> impl Iterator<Item = Ours> {
    MUTANTS.iter().map(|(name, side)| Ours::against_original(name, *side))
}

/// Those and, after them, the ones that are broken in name or serial alone.
fn all() -> impl Iterator<Item = Ours> {
    of_vectors().chain(ENTRY_MUTANTS.iter().map(|(name, side)| Ours::against_original(name, *side)))
}

pub fn mutant(number: usize) -> Option<Ours> {
    all().nth(number)
}

/// A broken twin may panic: that is an answer like any other, and no news.
pub fn keep_quiet() {
    set_hook(Box::new(|_| {}));
}

/// Plays cases until one differs or they have chosen so many calls; the player with that case's steps, if one differs.
pub fn notice(mut player: Player, calls: u64, seed: u64, brief: bool) -> Option<Player> {
    for number in 0.. {
        player.start();
        if play_case(&mut player, seed, number, brief).is_err() {
            return Some(player);
        }
        if player.counts.chosen() >= calls {
            break;
        }
    }
    None
}

/// Holds the original against each broken twin; true if every one is noticed within so many calls.
pub fn check(calls: u64, seed: u64) -> bool {
    keep_quiet();
    let mut noticed = 0;
    for ours in all() {
        match notice(Player::new(ours), calls, seed, false) {
            Some(player) => {
                noticed += 1;
                let steps = shrink(ours, &player.log).map_or(0, |(steps, _)| steps.len());
                println!("noticed after {} calls, shown by {steps} steps: {}", player.counts.calls(), ours.name);
            }
            None => println!("NOT NOTICED within {calls} calls: {}", ours.name),
        }
    }
    println!("{noticed} of {} mutants noticed", all().count());
    noticed == all().count()
}
