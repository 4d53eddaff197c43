//! Names and values, from a seed.

use crate::rng::Rng;

/// How long the segments of an area's names are.
#[derive(Clone, Copy)]
pub enum Shape {
    /// 3 to 8 bytes.
    Short,
    /// 28 to 40 bytes, of which the first 24 are the same in all.
    Long,
}

impl Shape {
    pub const ALL: [Shape; 2] = [Shape::Short, Shape::Long];
    const COMMON_START: usize = 24;

    pub fn title(self) -> &'static str {
        match self {
            Shape::Short => "short",
            Shape::Long => "long",
        }
    }

    fn segment(self, rng: &mut Rng, start: &str) -> String {
        match self {
            Shape::Short => letters(rng, 3, 8),
            Shape::Long => start.to_owned() + &letters(rng, 28 - Shape::COMMON_START, 40 - Shape::COMMON_START),
        }
    }
}

/// Makes names of 2 to 4 segments, each taken from one list, so that names share their first segments.
pub struct Names {
    segments: Vec<String>,
}

impl Names {
    const SEGMENTS: usize = 40;

    pub fn new(rng: &mut Rng, shape: Shape) -> Self {
        let start = letters(rng, Shape::COMMON_START, Shape::COMMON_START);
        Names { segments: (0..Names::SEGMENTS).map(|_| shape.segment(rng, &start)).collect() }
    }

    pub fn name(&self, rng: &mut Rng) -> String {
        let count = rng.within(2, 4);
        (0..count).map(|_| rng.pick(&self.segments)).collect::<Vec<_>>().join(".")
    }
}

/// A value of 1 to 20 bytes.
pub fn value(rng: &mut Rng) -> String {
    letters(rng, 1, 20)
}

fn letters(rng: &mut Rng, shortest: usize, longest: usize) -> String {
    let length = rng.within(shortest, longest);
    (0..length).map(|_| char::from(b'a' + rng.below(26) as u8)).collect()
}
