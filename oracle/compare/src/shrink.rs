//! The smallest list of steps that still shows a difference, found by dropping steps.

use crate::op::Op;
use crate::play::{Difference, Ours, Pair};

/// Replays allowed for one difference: enough for thousands of steps, and bounded where each costs a whole large area.
const MOST_REPLAYS: usize = 3_000;

/// Plays the steps from a buffer of zeros; the index of the first that differs, and how.
fn replay(ours: Ours, steps: &[Op]) -> Option<(usize, Box<Difference>)> {
    let mut pair = Pair::new(ours);
    steps.iter().enumerate().find_map(|(index, op)| pair.step(op).err().map(|difference| (index, difference)))
}

/// Drops chunks of steps, halving the chunk down to single steps, as long as a difference is left.
/// None if the steps show no difference.
pub fn shrink(ours: Ours, steps: &[Op]) -> Option<(Vec<Op>, Box<Difference>)> {
    let (last, mut shown) = replay(ours, steps)?;
    let mut kept = steps[..=last].to_vec();
    let mut chunk = kept.len().div_ceil(2);
    let mut replays = 0;
    loop {
        let before = kept.len();
        let mut from = 0;
        while from < kept.len() && replays < MOST_REPLAYS {
            let to = (from + chunk).min(kept.len());
            let fewer = [&kept[..from], &kept[to..]].concat();
            replays += 1;
            match replay(ours, &fewer) {
                Some((last, difference)) => {
                    kept = fewer[..=last].to_vec();
                    shown = difference;
                }
                None => from = to,
            }
        }
        if replays >= MOST_REPLAYS || (chunk == 1 && kept.len() == before) {
            return Some((kept, shown));
        }
        chunk = (chunk / 2).max(1);
    }
}
