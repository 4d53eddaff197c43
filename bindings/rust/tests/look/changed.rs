//! Areas of samples/, and areas built by adds and updates, changed at random.

use property_area::{AreaMut, Refusal};

use crate::areas::sample;
use crate::drawn::drawn;
use crate::random::Random;
use crate::{agreed, fresh, put, word};

/// An area built by adds and updates, some of them refused.
fn built(random: &mut Random) -> Vec<u8> {
    let mut bytes = fresh(240 + random.below(1_500));
    for _ in 0..random.below(12) {
        let _ = AreaMut::new(&mut bytes).set(random.name(), random.value());
    }
    bytes
}

/// The small samples, the built areas, and seldom a large sample: each of these takes as long as a hundred others.
struct Bases {
    small: Vec<Vec<u8>>,
    large: Vec<Vec<u8>>,
}

impl Bases {
    fn new(random: &mut Random) -> Self {
        let samples = |names: &[&str]| names.iter().map(|name| sample(&format!("{name}.area"))).collect::<Vec<_>>();
        let mut small = samples(&["fresh", "small", "settled", "inverter", "damaged"]);
        small.extend((0..200).map(|_| built(random)));
        Self { small, large: samples(&["pulses", "most", "large"]) }
    }

    fn one(&self, random: &mut Random) -> Vec<u8> {
        let bases = if random.below(1_000) == 0 { &self.large } else { &self.small };
        bases[random.below(bases.len())].clone()
    }
}

/// A word in the used part, most often; or one of the file.
fn place(random: &mut Random, bytes: &[u8]) -> usize {
    let used = 128 + (word(bytes, 0) as usize).min(bytes.len() - 128);
    let end = if random.below(8) == 0 { bytes.len() } else { used };
    random.below(end / 4) * 4
}

/// Changes one byte or one word, or the length.
fn change(random: &mut Random, bytes: &mut Vec<u8>) {
    let (at, length) = (place(random, bytes), bytes.len());
    let old = word(bytes, at);
    match random.below(12) {
        0..=3 => bytes[at + random.below(4)] = random.below(256) as u8,
        4 | 5 => bytes[at + random.below(4)] = b"\0\x01.ab\xff"[random.below(6)],
        6 => put(bytes, at, random.offset(length)),
        7 => put(bytes, at, random.word()),
        8 => put(bytes, at, old.wrapping_add(random.offset(32)).wrapping_sub(16)),
        9 => put(bytes, at, 0),
        10 => put(bytes, 0, random.offset(length - 128)),
        _ => bytes.truncate(length - random.below(length - 127)),
    }
}

#[test]
fn thirty_thousand_areas() {
    let mut random = Random(14);
    let bases = Bases::new(&mut random);
    let (mut sound, mut damaged) = (0, 0);
    for area in 0..30_000 {
        let mut bytes = bases.one(&mut random);
        for _ in 0..=random.below(3) {
            change(&mut random, &mut bytes);
        }
        let answer = agreed(&bytes);
        sound += usize::from(answer == Ok(()));
        damaged += usize::from(answer == Err(Refusal::Damaged));
        if area % 32 == 0 {
            drawn(&bytes, answer == Ok(()));
        }
    }
    assert!(sound >= 10_000 && damaged >= 10_000, "{sound} sound, {damaged} refused with 5");
}
