//! The three sides, and one pass of calls over an area.

use calls::Side;
use map::Map;
use std::time::Instant;

#[derive(Clone, Copy)]
pub enum Who {
    Original,
    Twin,
    Archive,
}

#[derive(Clone, Copy)]
pub enum Kind {
    /// Find of a name that is there.
    Find,
    /// The same, then the value of the entry.
    Value,
    /// Find of a name that is not there.
    Absent,
    /// Add of every name, into a fresh area.
    Add,
    /// Update by name.
    Update,
}

impl Who {
    pub const ALL: [Who; 3] = [Who::Original, Who::Twin, Who::Archive];

    pub fn title(self) -> &'static str {
        match self {
            Who::Original => "original",
            Who::Twin => "twin",
            Who::Archive => "archive",
        }
    }
}

impl Kind {
    pub const ALL: [Kind; 5] = [Kind::Find, Kind::Value, Kind::Absent, Kind::Add, Kind::Update];

    /// One word, for the command line.
    pub fn word(self) -> &'static str {
        match self {
            Kind::Find => "find",
            Kind::Value => "value",
            Kind::Absent => "absent",
            Kind::Add => "add",
            Kind::Update => "update",
        }
    }

    pub fn title(self) -> &'static str {
        match self {
            Kind::Find => "find, present",
            Kind::Value => "find + value, present",
            Kind::Absent => "find, absent",
            Kind::Add => "add",
            Kind::Update => "update by name",
        }
    }
}

/// The arguments of one call. Those that only read take no value.
#[derive(Clone, Copy)]
pub struct Call<'a> {
    pub name: &'a str,
    pub value: &'a str,
}

/// What is timed: each method is one call of a side, behind one call that is not inlined.
trait Timed {
    /// The entry's offset, or 0 where it is refused.
    fn find(&mut self, name: &str) -> u32;
    /// The value's length.
    fn value(&mut self, entry: u32) -> usize;
    fn add(&mut self, name: &str, value: &str) -> bool;
    fn update(&mut self, name: &str, value: &str) -> bool;
}

impl Timed for Map<'_> {
    #[inline(never)]
    fn find(&mut self, name: &str) -> u32 {
        Map::find(self, name).unwrap_or(0)
    }

    #[inline(never)]
    fn value(&mut self, entry: u32) -> usize {
        Map::value(self, entry).map_or(0, <[u8]>::len)
    }

    #[inline(never)]
    fn add(&mut self, name: &str, value: &str) -> bool {
        Map::add(self, name, value)
    }

    #[inline(never)]
    fn update(&mut self, name: &str, value: &str) -> bool {
        Map::update(self, name, value)
    }
}

/// A side of the oracle's, on an area.
struct On<'a, S> {
    side: S,
    area: &'a mut [u8],
}

impl<S: Side> Timed for On<'_, S> {
    #[inline(never)]
    fn find(&mut self, name: &str) -> u32 {
        self.side.find(self.area, name.as_bytes()).entry
    }

    #[inline(never)]
    fn value(&mut self, entry: u32) -> usize {
        self.side.value(self.area, entry).length as usize
    }

    #[inline(never)]
    fn add(&mut self, name: &str, value: &str) -> bool {
        self.side.add(self.area, name.as_bytes(), value.as_bytes()) == 0
    }

    #[inline(never)]
    fn update(&mut self, name: &str, value: &str) -> bool {
        self.side.update(self.area, name.as_bytes(), value.as_bytes()) == 0
    }
}

/// What one pass took and answered.
pub struct Passed {
    pub nanoseconds: f64,
    /// The sum of all answers: the same on each side.
    pub sum: usize,
}

/// Makes all calls of one kind on an area by one side.
pub fn pass(who: Who, kind: Kind, area: &mut [u8], calls: &[Call]) -> Passed {
    match who {
        Who::Original => map::lend(area, |map| clocked(map, kind, calls)),
        Who::Twin => clocked(&mut On { side: twin::Twin, area }, kind, calls),
        Who::Archive => clocked(&mut On { side: archive::Archive, area }, kind, calls),
    }
}

fn clocked(side: &mut impl Timed, kind: Kind, calls: &[Call]) -> Passed {
    let start = Instant::now();
    let sum = match kind {
        Kind::Find | Kind::Absent => calls.iter().map(|call| side.find(call.name) as usize).sum(),
        Kind::Value => calls.iter().map(|call| found_value(side, call.name)).sum(),
        Kind::Add => calls.iter().map(|call| usize::from(side.add(call.name, call.value))).sum(),
        Kind::Update => calls.iter().map(|call| usize::from(side.update(call.name, call.value))).sum(),
    };
    Passed { nanoseconds: start.elapsed().as_nanos() as f64, sum }
}

fn found_value(side: &mut impl Timed, name: &str) -> usize {
    let entry = side.find(name);
    side.value(entry)
}
