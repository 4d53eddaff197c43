//! Areas as their users make them: histories of adds and updates on fresh areas, by the twin's own calls.

use crate::rng::Rng;
use calls::Side;
use twin::Twin;

const LETTERS: [&[u8]; 4] = [b"a", b"ab", b"abc", b"a\xff-Z"];

/// A segment of few letters; any byte now and then, but no zero and no dot.
pub fn segment(rng: &mut Rng, letters: &[u8], longest: usize) -> Vec<u8> {
    let letter = |rng: &mut Rng| match rng.below(40) {
        0 => rng.pick(&[1, b'-', b'/', 0x80, 0xff]),
        _ => rng.pick(letters),
    };
    let longest = if rng.once_in(16) { 9 } else { longest };
    (0..rng.within(1, longest)).map(|_| letter(rng)).collect()
}

pub fn letters(rng: &mut Rng) -> &'static [u8] {
    rng.pick(&LETTERS)
}

/// A value without zeros, short or long.
pub fn value(rng: &mut Rng) -> Vec<u8> {
    let len = rng.pick(&[0, 1, 2, 3, 7, 30, 90, 91, 92, 93, 94, 95, 96, 140]);
    vec![rng.within(1, 255) as u8; len]
}

fn name(rng: &mut Rng, letters: &[u8]) -> Vec<u8> {
    let depth = rng.pick(&[1, 1, 2, 2, 3, 4, 8]);
    (0..depth).map(|_| segment(rng, letters, 3)).collect::<Vec<_>>().join(&b'.')
}

/// A fresh area with some adds and updates. Refused ones leave their mark too: nodes without an entry, bytes that nothing leads to.
pub fn area(rng: &mut Rng, len: usize) -> Vec<u8> {
    let mut area = vec![0; len];
    Twin.format(&mut area);
    let letters = letters(rng);
    let mut names: Vec<Vec<u8>> = Vec::new();
    for _ in 0..rng.within(0, len / 48) {
        if names.is_empty() || rng.once_in(2) {
            let name = name(rng, letters);
            Twin.add(&mut area, &name, &value(rng));
            names.push(name);
        } else {
            Twin.update(&mut area, &rng.pick(&names), &value(rng));
        }
    }
    area
}
