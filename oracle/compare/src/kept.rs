//! Which steps the fixed vectors hold: a sample of the cases; cases that show what the sample does not; and for each broken twin that they do not tell from the
//! original, the smallest list of steps that does.

use crate::case::BRIEF_LENGTH;
use crate::families::play_case;
use crate::mutation::{keep_quiet, notice, of_vectors};
use crate::op::{Kind, Op};
use crate::play::{Ours, Outcome, Player};
use crate::shrink::shrink;
use crate::vectors;
use original::Original;
use std::collections::{BTreeMap, BTreeSet};
use std::fs;

/// Calls in the sample.
const SAMPLE: u64 = 2_800;
/// Calls of the comparison whose every family, call and refusal is kept: as many as the gate makes.
const COMPARISON: u64 = 1_000_000;
/// Calls on small areas that are looked through for them first.
const SEARCH: u64 = 2_000_000;
/// How often each is kept, if it is found so often.
const TIMES: usize = 2;
/// Calls that may be spent on telling one broken twin apart.
const TELLING: u64 = 300_000;

/// Stands before steps that were found from a buffer of zeros: it zeroes what they use.
fn clean(brief: bool) -> Op {
    Op::Format { len: if brief { BRIEF_LENGTH } else { 131_072 } }
}

/// What a call shows: its case's family, the call, the refusal.
type Shown = (&'static str, Kind, u32);

/// Steps, and how many of their calls show what.
#[derive(Default)]
struct Kept {
    steps: Vec<Op>,
    shown: BTreeMap<Shown, usize>,
}

impl Kept {
    fn lacks(&self, shown: &Shown) -> bool {
        self.shown.get(shown).is_none_or(|&times| times < TIMES)
    }

    fn take(&mut self, family: &'static str, steps: &[Op], calls: &[(Kind, u32)]) {
        self.steps.extend_from_slice(steps);
        for &(kind, refusal) in calls {
            *self.shown.entry((family, kind, refusal)).or_default() += 1;
        }
    }
}

/// All that the comparison shows, on areas of every length.
fn shown_by_comparison(twin: Ours, seed: u64) -> Outcome<BTreeSet<Shown>> {
    let (mut shown, mut player) = (BTreeSet::new(), Player::of_vectors(twin));
    for number in 0.. {
        if player.counts.calls() >= COMPARISON {
            break;
        }
        player.start();
        let family = play_case(&mut player, seed, number, false)?;
        shown.extend(player.refusals.iter().map(|&(kind, refusal)| (family, kind, refusal)));
    }
    Ok(shown)
}

/// The first cases, one after the other in one buffer, as they will be replayed; and how many they are.
fn sample(twin: Ours, seed: u64) -> Outcome<(Kept, usize)> {
    let (mut kept, mut player) = (Kept::default(), Player::of_vectors(twin));
    for number in 0.. {
        (player.log, player.refusals) = (Vec::new(), Vec::new());
        let family = play_case(&mut player, seed, number, true)?;
        if player.counts.calls() > SAMPLE {
            return Ok((kept, number));
        }
        kept.take(family, &player.log, &player.refusals);
    }
    unreachable!("every case has a call")
}

/// Adds each case, from a number on, that shows what is wanted and not kept often enough; what is left of this then was not found so often.
fn add_shown(kept: &mut Kept, wanted: &mut BTreeSet<Shown>, twin: Ours, seed: u64, from: usize, brief: bool) -> Outcome {
    let mut player = Player::of_vectors(twin);
    let most = if brief { SEARCH } else { COMPARISON };
    wanted.retain(|shown| kept.lacks(shown));
    for number in from.. {
        if wanted.is_empty() || player.counts.calls() >= most {
            break;
        }
        player.start();
        player.play(clean(brief))?;
        let family = play_case(&mut player, seed, number, brief)?;
        let calls = &player.refusals[1..];
        if calls.iter().any(|&(kind, refusal)| wanted.contains(&(family, kind, refusal))) {
            kept.take(family, &player.log, calls);
            wanted.retain(|shown| kept.lacks(shown));
        }
    }
    Ok(())
}

/// Adds steps that tell the original from each broken twin that it is not told from by then.
fn add_telling(kept: &mut Kept, seed: u64) {
    keep_quiet();
    let file = vectors::file(&kept.steps, &Original);
    for ours in of_vectors().filter(|ours| vectors::replay(&file, ours.side).is_ok()) {
        let told = |brief| {
            let noticed = notice(Player::of_vectors(ours), TELLING, seed, brief)?;
            shrink(ours, &noticed.log).map(|(steps, _)| (brief, steps))
        };
        if let Some((brief, smallest)) = told(true).or_else(|| told(false)) {
            kept.steps.push(clean(brief));
            kept.steps.extend(smallest);
        }
    }
}

/// The steps, how many families, calls and refusals the comparison shows, and which of them are not kept.
fn choose(twin: Ours, seed: u64) -> Outcome<(Vec<Op>, usize, BTreeSet<Shown>)> {
    let mut wanted = shown_by_comparison(twin, seed)?;
    let count = wanted.len();
    let (mut kept, next) = sample(twin, seed)?;
    add_shown(&mut kept, &mut wanted, twin, seed, next, true)?;
    add_shown(&mut kept, &mut wanted, twin, seed, 0, false)?;
    add_telling(&mut kept, seed);
    wanted.retain(|shown| !kept.shown.contains_key(shown));
    Ok((kept.steps, count, wanted))
}

/// Writes the file, with the original's answers, and says what it holds.
pub fn write(twin: Ours, file: &str, seed: u64) -> bool {
    let (steps, shown, missing) = match choose(twin, seed) {
        Ok(chosen) => chosen,
        Err(difference) => {
            println!("the twin differs from the original\n{difference}");
            return false;
        }
    };
    let bytes = vectors::file(&steps, &Original);
    let (told, twins) = (of_vectors().filter(|ours| vectors::replay(&bytes, ours.side).is_err()).count(), of_vectors().count());
    for (family, kind, refusal) in &missing {
        println!("not kept: {family}, {}, {refusal}", kind.name());
    }
    println!("{} of {shown} triples of family, call and refusal", shown - missing.len());
    println!("{} records, {} bytes; they tell {told} of {twins} broken twins apart", steps.len(), bytes.len());
    fs::write(file, bytes).map_err(|error| println!("{file}: {error}")).is_ok() && missing.is_empty() && told == twins
}
