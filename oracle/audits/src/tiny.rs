//! Areas too small for a tree, or just large enough, full of words that look like parts of one.

use crate::rng::Rng;
use trees::{put_front, put_word, DATA, USED};

/// From 128 to 260 bytes, where no node fits, every other time; else up to 420.
pub fn area(rng: &mut Rng) -> Vec<u8> {
    let len = if rng.once_in(2) { rng.within(128, 260) } else { rng.within(240, 420) };
    let size = len - DATA;
    let mut area = vec![0; len];
    let soup = rng.pick(&[0, 1, 4, 12]);
    for at in (DATA..len).step_by(4) {
        if soup > 0 && rng.once_in(soup) {
            put_word(&mut area, at, piece(rng, size));
        }
    }
    let root = rng.once_in(4).then(|| area.get(DATA..DATA + 20).map(<[u8]>::to_vec)).flatten();
    let used = rng.pick(&[112, 112, size & !3, size & !3, size & !3, size, 108, 116, 0]);
    put_front(&mut area, used);
    if let Some(root) = root {
        trees::put(&mut area, DATA, &root);
    }
    if rng.once_in(2) {
        put_word(&mut area, DATA + 16, rng.pick(&[112, 112, 116, 120]));
    }
    if rng.once_in(16) {
        put_word(&mut area, USED, rng.word() >> rng.below(32));
    }
    area
}

fn piece(rng: &mut Rng, size: usize) -> u32 {
    match rng.below(10) {
        0..=3 => 4 * rng.below(size / 4 + 1) as u32,
        4 | 5 => rng.below(6) as u32,
        6 | 7 => u32::from_le_bytes(*rng.pick(&[b"a\0\0\0", b"b\0\0\0", b"aaaa", b"aba\0", b".\0\0\0", b"a.b\0"])),
        8 => rng.word(),
        _ => 0,
    }
}
