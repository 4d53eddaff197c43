//! Times: many rounds on each area, each with one pass of every side.

use crate::rng::Rng;
use crate::sides::{pass, Call, Kind, Who};
use crate::work::Work;

/// Nanoseconds a call.
struct Time {
    best: f64,
    median: f64,
}

/// The cells of a row: the mean of all areas for each side, best and median; then the archive's best by each other side's,
/// with the least and the most of one area.
pub fn row(works: &[Work], kind: Kind, rounds: usize, rng: &mut Rng) -> Vec<String> {
    let areas: Vec<[Time; 3]> = works.iter().map(|work| measure(work, kind, rounds, rng)).collect();
    let mean =
        |side: usize, part: fn(&Time) -> f64| areas.iter().map(|times| part(&times[side])).sum::<f64>() / areas.len() as f64;
    let best = [0, 1, 2].map(|side| mean(side, |time| time.best));
    let median = [0, 1, 2].map(|side| mean(side, |time| time.median));
    let ratio = |side: usize| {
        let single = areas.iter().map(|times| times[2].best / times[side].best);
        let (least, most) = (single.clone().fold(f64::MAX, f64::min), single.fold(0.0, f64::max));
        format!("{:.2} ({least:.2} to {most:.2})", best[2] / best[side])
    };
    let times = [0, 1, 2].map(|side| format!("{:.0} ({:.0})", best[side], median[side]));
    [times.as_slice(), &[ratio(0), ratio(1)]].concat()
}

/// The time of each side on one area. In a round all sides get the same calls in the same order, shuffled anew, and the same
/// buffer; which side comes first goes round.
fn measure(work: &Work, kind: Kind, rounds: usize, rng: &mut Rng) -> [Time; 3] {
    let mut calls = work.calls(kind);
    let mut area = work.area(kind).to_vec();
    let mut took = Who::ALL.map(|_| Vec::with_capacity(rounds));
    for round in 0..rounds {
        shuffle(rng, &mut calls);
        let mut sums = [0; 3];
        for turn in 0..3 {
            let side = (round + turn) % 3;
            area.copy_from_slice(work.area(kind));
            let passed = pass(Who::ALL[side], kind, &mut area, &calls);
            took[side].push(passed.nanoseconds / calls.len() as f64);
            sums[side] = passed.sum;
        }
        assert!(sums == [sums[0]; 3], "{}: the sides differ", kind.title());
    }
    took.map(time)
}

fn time(mut took: Vec<f64>) -> Time {
    took.sort_by(f64::total_cmp);
    Time { best: took[0], median: took[took.len() / 2] }
}

fn shuffle(rng: &mut Rng, calls: &mut [Call]) {
    for last in (1..calls.len()).rev() {
        calls.swap(last, rng.below(last + 1));
    }
}
