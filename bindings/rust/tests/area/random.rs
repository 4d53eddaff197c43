//! Areas, names and values from a seeded generator.

// Its words are cut to what is asked for.
#![allow(clippy::cast_possible_truncation)]

use property_area::AreaMut;

use crate::{fresh, put};

/// The generator `SplitMix64`.
pub struct Random(pub u64);

impl Random {
    fn next(&mut self) -> u64 {
        self.0 = self.0.wrapping_add(0x9e37_79b9_7f4a_7c15);
        let mut z = self.0;
        z = (z ^ (z >> 30)).wrapping_mul(0xbf58_476d_1ce4_e5b9);
        z = (z ^ (z >> 27)).wrapping_mul(0x94d0_49bb_1331_11eb);
        z ^ (z >> 31)
    }

    pub fn below(&mut self, bound: usize) -> usize {
        (self.next() % bound as u64) as usize
    }

    /// A word that might be a link, a length, a serial, or anything.
    pub fn word(&mut self) -> u32 {
        match self.below(4) {
            0 => self.below(8) as u32,
            1 => self.below(300) as u32 * 4,
            2 => u32::MAX - self.below(8) as u32,
            _ => self.next() as u32,
        }
    }

    /// A multiple of 4 up to a length.
    pub fn offset(&mut self, length: usize) -> u32 {
        self.below(length / 4 + 1) as u32 * 4
    }

    pub fn bytes(&mut self, most: usize) -> Vec<u8> {
        (0..self.below(most + 1)).map(|_| self.next() as u8).collect()
    }

    /// A dotted name of few letters; sometimes with empty segments, zero bytes, or any bytes.
    pub fn name(&mut self) -> Vec<u8> {
        match self.below(8) {
            0 => self.bytes(12),
            1 => (0..self.below(6)).map(|_| b"ab.\0"[self.below(4)]).collect(),
            _ => {
                let segments: Vec<_> = (0..=self.below(3)).map(|_| b"ab"[..=self.below(2)].repeat(1 + self.below(2))).collect();
                segments.join(&b'.')
            }
        }
    }

    pub fn value(&mut self) -> Vec<u8> {
        let most = [3, 95, 300][self.below(3)];
        self.bytes(most)
    }

    /// Bytes alone; a right header before words; an area built by adds, with some words stored over it.
    pub fn area(&mut self) -> Vec<u8> {
        match self.below(4) {
            0 => self.bytes(600),
            1 => {
                let mut bytes = fresh(240 + self.below(400));
                for at in (128..bytes.len() - 3).step_by(4).chain([0]) {
                    let word = self.word();
                    put(&mut bytes, at, word);
                }
                bytes.truncate(bytes.len() - self.below(140));
                bytes
            }
            kind => {
                let mut bytes = fresh(240 + self.below(1_500));
                for _ in 0..self.below(8) {
                    let (name, value) = (self.name(), self.value());
                    let _ = AreaMut::new(&mut bytes).add(name, value);
                }
                for _ in 0..[0, 1 + self.below(3)][kind - 2] {
                    let (at, word) = (self.below(bytes.len() / 4) * 4, self.word());
                    put(&mut bytes, at, word);
                }
                bytes
            }
        }
    }
}
