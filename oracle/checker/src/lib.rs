//! The area check and listing, written from the rules' sentences (docs/RULES.md, 6 and 7) and from nothing else, and the dump made of a
//! listing: the judge of these three, as the original is the judge of the other calls. What a dump does with the lent room is said
//! by bindings/c/property_area.h.
//!
//! It takes what room it likes, and so has another shape than code that must live in the lent scratch: a stack of what is
//! still to do, a mark for every byte that an object takes, the names on either side as bounds passed down, and the dotted path as bytes.
//! The scratch is only zeroed. The time is linear in the area: every byte that is read belongs to an object taken once, or ends the check.

mod dump;
mod fault;
mod side;

pub use dump::dump_text;
pub use fault::Fault;
pub use side::Checker;
use std::cmp::Ordering;

const DATA: usize = 128;
const FIRST: usize = 112;
const NODE: usize = 20;
const ENTRY: usize = 96;
const SLOT: std::ops::Range<usize> = 4..96;
const RELATIVE: usize = 60;

fn align4(size: usize) -> usize {
    (size + 3) & !3
}

/// The part of an area up to used, by data offsets. Every read lies within it, or answers None.
struct Data<'a> {
    used: &'a [u8],
}

impl<'a> Data<'a> {
    fn word(&self, offset: usize) -> Option<usize> {
        let four = self.used.get(offset..offset + 4)?;
        Some(u32::from_le_bytes(four.try_into().ok()?) as usize)
    }

    fn bytes(&self, offset: usize, count: usize) -> Option<&'a [u8]> {
        self.used.get(offset..offset + count)
    }

    /// Whether so many bytes, padded, lie between 112 and used.
    fn holds(&self, offset: usize, size: usize) -> bool {
        offset >= FIRST && offset + align4(size) <= self.used.len()
    }
}

/// A segment, as it stands in its node.
type Name<'a> = &'a [u8];

/// What is still to do, the next at the end.
enum Task<'a> {
    /// A link to a node, zero for none; the names that must be smaller and greater; the length of the path above it.
    Side { link: usize, above: Option<Name<'a>>, below: Option<Name<'a>>, path: usize },
    /// A node's own entry, once its left side is done: then its children follow, with its path.
    Own { prop: usize, children: usize, name: Name<'a>, path: usize },
}

/// The order of segments (RULES 3.4).
fn order(a: Name, b: Name) -> Ordering {
    a.len().cmp(&b.len()).then_with(|| a.cmp(b))
}

struct Survey<'a> {
    data: Data<'a>,
    /// For each byte of the data up to used: whether an object has it.
    taken: Vec<bool>,
    tasks: Vec<Task<'a>>,
    /// The dotted path of the node whose turn it is.
    path: Vec<u8>,
    found: Vec<u32>,
}

impl<'a> Survey<'a> {
    /// The object's bytes, padded, are its own; false if another has one of them.
    fn take(&mut self, offset: usize, size: usize) -> bool {
        let bytes = &mut self.taken[offset..offset + align4(size)];
        if bytes.contains(&true) {
            return false;
        }
        bytes.fill(true);
        true
    }

    fn side(&mut self, link: usize, above: Option<Name<'a>>, below: Option<Name<'a>>, path: usize) -> Result<(), Fault> {
        if link == 0 {
            return Ok(());
        }
        let name = self.node(link)?;
        if above.is_some_and(|bound| order(name, bound).is_le()) || below.is_some_and(|bound| order(name, bound).is_ge()) {
            return Err(Fault::Order);
        }
        let field = |at: usize| self.data.word(link + at).ok_or(Fault::NodePlace);
        let [prop, left, right, children] = [field(4)?, field(8)?, field(12)?, field(16)?];
        // Listing order, the last first.
        self.tasks.push(Task::Side { link: right, above: Some(name), below, path });
        self.tasks.push(Task::Own { prop, children, name, path });
        self.tasks.push(Task::Side { link: left, above, below: Some(name), path });
        Ok(())
    }

    /// A node by itself: its place and its name. Its bytes are taken, so that a second path to it is refused.
    fn node(&mut self, offset: usize) -> Result<Name<'a>, Fault> {
        if !offset.is_multiple_of(4) {
            return Err(Fault::NodeStart);
        }
        let namelen = self.data.word(offset).ok_or(Fault::NodePlace)?;
        let size = NODE + namelen + 1;
        if !self.data.holds(offset, size) {
            return Err(Fault::NodePlace);
        }
        let (name, end) = self.data.bytes(offset + NODE, namelen + 1).ok_or(Fault::NodePlace)?.split_at(namelen);
        if !self.take(offset, size) {
            return Err(Fault::NodeShares);
        }
        match name {
            [] => Err(Fault::NameEmpty),
            _ if name.contains(&b'.') => Err(Fault::NameDot),
            _ if name.contains(&0) || end != [0] => Err(Fault::NameLength),
            _ => Ok(name),
        }
    }

    fn own(&mut self, prop: usize, children: usize, name: Name<'a>, path: usize) -> Result<(), Fault> {
        self.path.truncate(path);
        if path > 0 {
            self.path.push(b'.');
        }
        self.path.extend_from_slice(name);
        if prop != 0 {
            self.entry(prop)?;
            self.found.push(prop as u32);
        }
        self.tasks.push(Task::Side { link: children, above: None, below: None, path: self.path.len() });
        Ok(())
    }

    /// An entry by itself: its place, its name, which is the path, and its value.
    fn entry(&mut self, offset: usize) -> Result<(), Fault> {
        if !offset.is_multiple_of(4) {
            return Err(Fault::EntryStart);
        }
        // No segment has a zero, so a name that is the path ends where the path does.
        let size = ENTRY + self.path.len() + 1;
        if !self.data.holds(offset, size) {
            return Err(Fault::EntryPlace);
        }
        let bytes = self.data.bytes(offset, size).ok_or(Fault::EntryPlace)?;
        let (record, name) = bytes.split_at(ENTRY);
        if name.split_last() != Some((&0, &self.path)) {
            return Err(Fault::EntryName);
        }
        if !self.take(offset, size) {
            return Err(Fault::EntryShares);
        }
        if record[2] & 1 == 0 {
            return if record[SLOT].contains(&0) { Ok(()) } else { Err(Fault::Slot) };
        }
        let relative = self.data.word(offset + RELATIVE).ok_or(Fault::EntryPlace)?;
        if relative < align4(size) {
            return Err(Fault::ValueNear);
        }
        self.value(offset + relative)
    }

    /// A long value by itself: its place, with the zero that ends it.
    fn value(&mut self, offset: usize) -> Result<(), Fault> {
        if !offset.is_multiple_of(4) {
            return Err(Fault::ValueStart);
        }
        let rest = self.data.used.get(offset..).ok_or(Fault::ValuePlace)?;
        let length = rest.iter().position(|&byte| byte == 0).ok_or(Fault::ValuePlace)?;
        if !self.data.holds(offset, length + 1) {
            return Err(Fault::ValuePlace);
        }
        if !self.take(offset, length + 1) {
            return Err(Fault::ValueShares);
        }
        Ok(())
    }
}

/// The entry offsets of an area with a right header, in listing order, or the first fault that is met.
pub fn survey(area: &[u8]) -> Result<Vec<u32>, Fault> {
    let all = Data { used: &area[DATA..] };
    let used = Data { used: area }.word(0).ok_or(Fault::Used)?;
    if !used.is_multiple_of(4) || used < FIRST || used > all.used.len() {
        return Err(Fault::Used);
    }
    let data = Data { used: &all.used[..used] };
    if [0, 4, 8, 12].into_iter().any(|field| data.word(field) != Some(0)) {
        return Err(Fault::Root);
    }
    let link = data.word(16).ok_or(Fault::Root)?;
    let tasks = vec![Task::Side { link, above: None, below: None, path: 0 }];
    let mut survey = Survey { taken: vec![false; used], data, tasks, path: Vec::new(), found: Vec::new() };
    while let Some(task) = survey.tasks.pop() {
        match task {
            Task::Side { link, above, below, path } => survey.side(link, above, below, path)?,
            Task::Own { prop, children, name, path } => survey.own(prop, children, name, path)?,
        }
    }
    Ok(survey.found)
}
