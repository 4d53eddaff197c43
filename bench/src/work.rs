//! What is measured: areas near full, the names in them, names that are not, and the calls made of them.

use crate::names::{self, Names, Shape};
use crate::rng::Rng;
use crate::sides::{pass, Call, Kind, Who};
use archive::Archive;
use calls::Side;
use std::collections::BTreeSet;
use std::iter;

const AREA: usize = 131_072;
/// So many areas for each shape of names: the segments that chance gives move the times.
const AREAS: usize = 8;

pub struct Work {
    fresh: Vec<u8>,
    full: Vec<u8>,
    present: Vec<Named>,
    absent: Vec<Named>,
}

struct Named {
    name: String,
    value: String,
    next_value: String,
}

impl Named {
    fn added(&self, area: &mut [u8]) -> bool {
        Archive.add(area, self.name.as_bytes(), self.value.as_bytes()) == 0
    }
}

impl Work {
    pub fn several(shape: Shape, seed: u64) -> Vec<Work> {
        let mut rng = Rng::new(seed);
        (0..AREAS).map(|_| Work::new(shape, &mut rng)).collect()
    }

    /// Adds names to an area until one finds no room, by our own calls. As many names again are not in it.
    fn new(shape: Shape, rng: &mut Rng) -> Self {
        let source = Names::new(rng, shape);
        let mut seen = BTreeSet::new();
        let mut new_name = || named(rng, &source, &mut seen);
        let mut fresh = vec![0; AREA];
        assert_eq!(Archive.format(&mut fresh), 0);
        let mut trial = fresh.clone();
        let present: Vec<Named> = iter::repeat_with(&mut new_name).take_while(|named| named.added(&mut trial)).collect();
        let absent = present.iter().map(|_| new_name()).collect();
        // Once more, without the nodes of the name that found no room.
        let mut full = fresh.clone();
        assert!(present.iter().all(|named| named.added(&mut full)));
        Work { fresh, full, present, absent }
    }

    /// How many calls a pass makes.
    pub fn count(&self) -> usize {
        self.present.len()
    }

    /// The area as it is before a pass.
    pub fn area(&self, kind: Kind) -> &[u8] {
        match kind {
            Kind::Add => &self.fresh,
            _ => &self.full,
        }
    }

    /// The calls of a pass, names in the order in which they were made.
    pub fn calls(&self, kind: Kind) -> Vec<Call<'_>> {
        match kind {
            Kind::Absent => self.absent.iter().map(|named| Call { name: &named.name, value: "" }).collect(),
            Kind::Update => self.present.iter().map(|named| Call { name: &named.name, value: &named.next_value }).collect(),
            _ => self.present.iter().map(|named| Call { name: &named.name, value: &named.value }).collect(),
        }
    }

    /// All sides answer the same and leave the same bytes.
    pub fn check(&self, kind: Kind) {
        let outcomes = Who::ALL.map(|who| {
            let mut area = self.area(kind).to_vec();
            let sum = pass(who, kind, &mut area, &self.calls(kind)).sum;
            (sum, area)
        });
        assert!(outcomes.iter().all(|outcome| *outcome == outcomes[0]), "{}: the sides differ", kind.title());
    }

    fn used(&self) -> u32 {
        u32::from_le_bytes([self.full[0], self.full[1], self.full[2], self.full[3]])
    }

    /// Nodes compared in finding each name once.
    fn compared(&self) -> u64 {
        let mut area = self.full.clone();
        self.present.iter().map(|named| Archive.find(&mut area, named.name.as_bytes()).compared).sum()
    }
}

/// A line that says what the areas hold.
pub fn describe(shape: Shape, works: &[Work]) -> String {
    let count: usize = works.iter().map(Work::count).sum();
    let bytes: usize = works.iter().flat_map(|work| &work.present).map(|named| named.name.len()).sum();
    let compared: u64 = works.iter().map(Work::compared).sum();
    format!(
        "{} names: {AREAS} areas of {AREA} bytes, at least {} of {} data bytes used; {count} names, \
         on average {:.1} bytes and {:.1} nodes compared",
        shape.title(),
        works.iter().map(Work::used).min().unwrap_or(0),
        AREA - 128,
        bytes as f64 / count as f64,
        compared as f64 / count as f64,
    )
}

/// A name that was not made before, with two values.
fn named(rng: &mut Rng, source: &Names, seen: &mut BTreeSet<String>) -> Named {
    loop {
        let name = source.name(rng);
        if seen.insert(name.clone()) {
            return Named { name, value: names::value(rng), next_value: names::value(rng) };
        }
    }
}
