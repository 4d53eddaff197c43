//! The cases. What areas one has follows from the seed and the case's number.

use crate::faults::FAULTS;
use crate::hand;
use crate::rng::Rng;
use crate::stores::{Seen, STORES};
use crate::{built, tiny};
use calls::Side;
use trees::{put_front, put_word, DATA};
use twin::Twin;

/// An area, and the kind it is counted under.
pub struct Trial {
    pub kind: &'static str,
    pub area: Vec<u8>,
}

const BUILT: &str = "built by adds and updates";
const BY_HAND: &str = "laid down by hand";
const LARGE: &str = "by hand, up to 131,072 bytes";
const LARGE_STORE: &str = "the same, one to three stores";
const TWO: &str = "two stores";
const THREE: &str = "three stores";
const EACH_WORD: &str = "each word of one area";
const TINY: &str = "tiny, words that look like parts";
const LENGTHS: &str = "any length";

/// Kinds that are no single store and no single fault.
pub const OTHER_KINDS: [&str; 9] = [BUILT, BY_HAND, LARGE, LARGE_STORE, TWO, THREE, EACH_WORD, TINY, LENGTHS];

type Family = fn(&mut Rng, usize) -> Vec<Trial>;

/// Each family with its share of the cases.
const FAMILIES: [(Family, usize); 6] = [(histories, 12), (hands, 12), (each_word, 4), (tinies, 2), (lengths, 1), (larges, 1)];

/// Areas of one case, where the family says no other number.
const AREAS: usize = 16;

/// Large areas take long: one in so many cases of their family has one.
const SELDOM: usize = 24;

pub fn trials(seed: u64, number: usize) -> Vec<Trial> {
    let round: usize = FAMILIES.iter().map(|(_, share)| share).sum();
    let mut slot = number % round;
    for (family, share) in FAMILIES {
        if slot < share {
            let case_seed = Rng::new(seed ^ (number as u64).rotate_left(32)).next();
            return family(&mut Rng::new(case_seed), number / round * share + slot);
        }
        slot -= share;
    }
    Vec::new()
}

/// The area after one to three stores.
fn stored(rng: &mut Rng, area: &[u8], seen: &Seen) -> Trial {
    let wanted = rng.pick(&[1, 1, 1, 2, 3]);
    let mut trial = Trial { kind: "", area: area.to_vec() };
    let mut made = 0;
    while made < wanted {
        let (kind, store) = STORES[rng.below(STORES.len())];
        let before = trial.area.clone();
        match store(rng, &mut trial.area, seen) {
            Some(()) => (trial.kind, made) = (kind, made + 1),
            // It may have begun.
            None => trial.area = before,
        }
    }
    trial.kind = [trial.kind, TWO, THREE][wanted - 1];
    trial
}

fn with_stores(rng: &mut Rng, kind: &'static str, area: Vec<u8>, count: usize) -> Vec<Trial> {
    let seen = Seen::of(&area);
    let mut trials: Vec<Trial> = (0..count).map(|_| stored(rng, &area, &seen)).collect();
    trials.push(Trial { kind, area });
    trials
}

fn histories(rng: &mut Rng, _: usize) -> Vec<Trial> {
    let most = rng.pick(&[600, 1_200, 1_200, 4_096]);
    let len = rng.within(240, most);
    let area = built::area(rng, len);
    with_stores(rng, BUILT, area, AREAS - 1)
}

fn hands(rng: &mut Rng, _: usize) -> Vec<Trial> {
    let whole = hand::area(rng, None, false).unwrap_or_default();
    let mut trials = with_stores(rng, BY_HAND, whole, AREAS / 4);
    for _ in 0..AREAS {
        let (kind, fault) = match rng.below(3) {
            0 => (BY_HAND, None),
            _ => {
                let (kind, fault) = &FAULTS[rng.below(FAULTS.len())];
                (*kind, Some(fault))
            }
        };
        trials.extend(hand::area(rng, fault, false).map(|area| Trial { kind, area }));
    }
    trials
}

/// One fixed area in which one word is set to one value: all words and values in turn.
fn each_word(_: &mut Rng, turn: usize) -> Vec<Trial> {
    const LENGTH: usize = 768;
    let mut area = vec![0; LENGTH];
    Twin.format(&mut area);
    let long = [b'l'; 92];
    let adds: [(&[u8], &[u8]); 5] = [(b"ab.c", b"12"), (b"b", b"q"), (b"ab", &long), (b"b.b", b""), (b"a", b"v")];
    for (name, value) in adds {
        Twin.add(&mut area, name, value);
    }
    let used = trees::word(&area, 0).unwrap_or(0);
    let small = [0, 1, 2, 3, 4, 5, 19, 20, 24, 96, 99, 100, 101, 104, 108, 111, 112, 113, 116];
    let places = [136, 160, 264, 288, 388, 392, 412, 416, 516, 520, 536, 544, 560, 584, used - 24, used - 4, used, used + 4];
    let large = [0x61, 0x6261, 0x61_6161, 0x6161_6161, 0x1_0000, 0x3_0000, 0x8000_0000, 0xffff_ff80, 0xffff_fffc, u32::MAX];
    let values = [&small[..], &places, &large].concat();
    let pairs = LENGTH / 4 * values.len();
    // A stride that has no factor in common with the number of pairs meets all of them, spread.
    let word_set = |nth: usize| {
        let pair = nth * 7_919 % pairs;
        let mut area = area.clone();
        put_word(&mut area, pair / values.len() * 4, values[pair % values.len()]);
        Trial { kind: EACH_WORD, area }
    };
    (turn * AREAS..(turn + 1) * AREAS).map(word_set).collect()
}

fn tinies(rng: &mut Rng, _: usize) -> Vec<Trial> {
    (0..AREAS).map(|_| Trial { kind: TINY, area: tiny::area(rng) }).collect()
}

/// Empty areas, and lengths that no area has.
fn lengths(rng: &mut Rng, turn: usize) -> Vec<Trial> {
    let long = [131_071, 131_072, 131_073, 131_076, 200_000];
    let len = if turn.is_multiple_of(SELDOM) { long[turn / SELDOM % long.len()] } else { turn * 7 % 300 };
    let mut area = vec![0; len];
    let used = rng.pick(&[112, len.saturating_sub(DATA) & !3]);
    put_front(&mut area, used);
    vec![Trial { kind: LENGTHS, area }]
}

fn larges(rng: &mut Rng, turn: usize) -> Vec<Trial> {
    if !turn.is_multiple_of(SELDOM) {
        return Vec::new();
    }
    let mut area = hand::area(rng, None, true).unwrap_or_default();
    area.truncate(131_072);
    let seen = Seen::of(&area);
    let hurt = Trial { kind: LARGE_STORE, ..stored(rng, &area, &seen) };
    vec![Trial { kind: LARGE, area }, hurt]
}
