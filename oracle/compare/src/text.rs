//! Names and values, all of them valid UTF-8: the domain in which the original can be asked.

use crate::rng::Rng;

/// Of what a case makes its names. Few letters make trees that are deep and share prefixes.
#[derive(Clone, Copy)]
pub struct Style {
    letters: &'static [&'static str],
    longest: usize,
}

impl Style {
    pub fn any(rng: &mut Rng) -> Self {
        Style { letters: rng.pick(&LETTERS), longest: rng.pick(&[1, 2, 2, 3, 6]) }
    }
}

const LETTERS: [&[&str]; 5] = [&["a", "b"], &["a", "b", "c"], &["a"], &["a", "é", "中"], &["b", "a", "ba", "z", "A", "0", "~"]];

/// Names with an empty segment or a zero byte.
const ODD_NAMES: [&str; 16] =
    ["", ".", "..", ".a", "a.", "a..b", "a..", "..a", "a.b.", "a\0", "\0", "a.\0b", "\0.a", "a..\0", "a\0.", "b.a\0a"];

const VALUE_LENGTHS: [usize; 18] = [0, 0, 1, 1, 2, 3, 4, 5, 7, 30, 89, 90, 91, 92, 93, 94, 95, 300];

/// A text of exactly `len` bytes, none of them zero, a dot or a letter of `LETTERS`.
pub fn filled(rng: &mut Rng, len: usize) -> String {
    const CHARS: [&str; 10] = ["x", "y", "1", "2", "q", "-", "ü", "文", "𝄞", "_"];
    let mut text = String::with_capacity(len);
    while text.len() < len {
        let next = rng.pick(&CHARS);
        text.push_str(if text.len() + next.len() > len { "x" } else { next });
    }
    text
}

fn segment(rng: &mut Rng, style: Style) -> String {
    match rng.below(200) {
        0 => return filled_segment(rng, 90, 400),
        1..=5 => return filled_segment(rng, 15, 70),
        _ => {}
    }
    let longest = if rng.once_in(12) { 9 } else { style.longest };
    (0..rng.within(1, longest)).map(|_| rng.pick(style.letters)).collect()
}

fn filled_segment(rng: &mut Rng, low: usize, high: usize) -> String {
    let len = rng.within(low, high);
    filled(rng, len)
}

pub fn name(rng: &mut Rng, style: Style) -> String {
    if rng.once_in(24) {
        return rng.pick(&ODD_NAMES).to_owned();
    }
    let depth = match rng.below(100) {
        0..=39 => 1,
        40..=69 => 2,
        70..=88 => 3,
        89..=98 => rng.within(4, 8),
        _ => 30,
    };
    (0..depth).map(|_| segment(rng, style)).collect::<Vec<_>>().join(".")
}

/// A value; now and then with a zero byte, which ends it for every reader.
pub fn value(rng: &mut Rng) -> String {
    let len = rng.pick(&VALUE_LENGTHS);
    let text = filled(rng, len);
    match text.find('x') {
        Some(at) if rng.once_in(16) => format!("{}\0{}", &text[..at], &text[at + 1..]),
        _ => text,
    }
}

/// Bytes for a backup: any, not only UTF-8.
pub fn backup(rng: &mut Rng) -> Vec<u8> {
    let len = rng.pick(&VALUE_LENGTHS);
    let any = rng.once_in(3);
    (0..len).map(|_| if any { rng.below(256) as u8 } else { b'k' }).collect()
}
