//! One store, or a few bytes, that change an area where its soundness hangs on it. Some leave it sound.

use crate::rng::Rng;
use trees::{align4, put, put_word, word, CHILDREN, DATA, ENTRY, LONG_BIT, MAGIC, NODE, PROP, RELATIVE, SLOT, USED, VERSION};

/// The places of nodes, entries and long values in an area that was sound when they were looked up, from its first byte on.
#[derive(Default)]
pub struct Seen {
    nodes: Vec<usize>,
    entries: Vec<usize>,
    values: Vec<usize>,
}

impl Seen {
    pub fn of(area: &[u8]) -> Self {
        let mut seen = Seen::default();
        let mut met = vec![false; area.len()];
        let mut next = vec![DATA];
        while let Some(node) = next.pop() {
            if met.get(node) != Some(&false) || word(area, node + CHILDREN).is_none() {
                continue;
            }
            met[node] = true;
            seen.nodes.push(node);
            let link = |field: usize| word(area, node + field).filter(|&link| link != 0).map(|link| DATA + link as usize);
            seen.entries.extend(link(PROP));
            next.extend([8, 12, CHILDREN].into_iter().filter_map(link));
        }
        seen.entries.retain(|&entry| word(area, entry + ENTRY - 4).is_some());
        seen.values = seen.entries.iter().filter_map(|&entry| far(area, entry)).collect();
        // The root is hurt apart.
        seen.nodes.retain(|&node| node != DATA);
        seen
    }

    /// The offset of anything that was seen, or a word or two beside it.
    fn offset(&self, rng: &mut Rng) -> u32 {
        let from = rng.pick(&[&self.nodes, &self.nodes, &self.entries, &self.values]);
        let at = if from.is_empty() { DATA + 112 } else { rng.pick(from) };
        let beside = if rng.once_in(3) { rng.pick(&[4, 8, 12, 20, 24]) } else { 0 };
        ((at - DATA) as u32).wrapping_add(if rng.once_in(2) { beside } else { 0u32.wrapping_sub(beside) })
    }
}

/// Where the long value of an entry starts, if it is long.
fn far(area: &[u8], entry: usize) -> Option<usize> {
    let relative = word(area, entry + RELATIVE)? as usize;
    (word(area, entry)? & LONG_BIT != 0).then_some(entry + relative).filter(|&at| at < area.len())
}

fn data_size(area: &[u8]) -> usize {
    area.len().saturating_sub(DATA)
}

/// What a link might hold: mostly something that is there, or zero.
fn link(rng: &mut Rng, area: &[u8], seen: &Seen) -> u32 {
    let used = word(area, USED).unwrap_or(0);
    let near = |rng: &mut Rng, at: u32| at.wrapping_add(8).wrapping_sub(4 * rng.below(32) as u32);
    let aligned = match rng.below(12) {
        0 | 1 => 0,
        2..=6 => seen.offset(rng),
        7 => 4 * rng.below(29) as u32,
        8 => near(rng, used),
        9 => near(rng, data_size(area) as u32),
        10 => near(rng, round(used)),
        _ => 4 * rng.below(data_size(area) / 4 + 1) as u32,
    };
    aligned.wrapping_add(if rng.once_in(10) { rng.within(1, 3) as u32 } else { 0 })
}

/// An offset that comes round to a used one where 128 is added in 32 bits.
fn round(used: u32) -> u32 {
    used.wrapping_sub(128 + used / 8 * 4)
}

type Store = fn(&mut Rng, &mut Vec<u8>, &Seen) -> Option<()>;

/// Each with the name it is counted under. None: the area offers no place for it.
pub const STORES: [(&str, Store); 17] = [
    ("left, right or children", |rng, area, seen| {
        let at = some(rng, &seen.nodes)? + rng.pick(&[8, 12, 16]);
        let to = link(rng, area, seen);
        set(area, at, to)
    }),
    ("two links swapped", |rng, area, seen| {
        let [a, b] = [(); 2].map(|()| some(rng, &seen.nodes).map(|node| node + rng.pick(&[4, 8, 12, 16])));
        let (a, b) = (a?, b?);
        let (held, other) = (word(area, a)?, word(area, b)?);
        set(area, a, other)?;
        set(area, b, held)
    }),
    ("root's children", |rng, area, seen| {
        let to = link(rng, area, seen);
        set(area, DATA + CHILDREN, to)
    }),
    ("prop", |rng, area, seen| {
        let at = some(rng, &seen.nodes)? + PROP;
        let to = link(rng, area, seen);
        set(area, at, to)
    }),
    ("namelen", |rng, area, seen| {
        let at = some(rng, &seen.nodes)?;
        let held = word(area, at)?;
        let others = [
            held.wrapping_add(1),
            held.wrapping_sub(1),
            held.wrapping_add(4),
            0,
            1,
            2,
            3,
            u32::MAX,
            u32::MAX - 20,
            rng.below(200) as u32,
        ];
        set(area, at, rng.pick(&others))
    }),
    ("byte of a node's name", |rng, area, seen| {
        let at = some(rng, &seen.nodes)?;
        let len = word(area, at)? as usize;
        let byte = rng.pick(&[b'a', b'b', b'c', b'.', 0, 1, 0xff]);
        set_byte(area, at + NODE + rng.below(align4(len.min(100) + 1)), byte)
    }),
    ("byte of an entry's name", |rng, area, seen| {
        let at = some(rng, &seen.entries)? + ENTRY;
        let len = area.get(at..)?.iter().position(|&byte| byte == 0)?;
        let byte = rng.pick(&[b'a', b'b', b'c', b'.', 0, 1, 0xff]);
        set_byte(area, at + rng.below(align4(len + 1)), byte)
    }),
    ("serial", |rng, area, seen| {
        let at = some(rng, &seen.entries)?;
        let held = word(area, at)?;
        let other = rng.word();
        set(area, at, rng.pick(&[held ^ LONG_BIT, held ^ LONG_BIT, held ^ 1, other, held ^ 1 << 15, held ^ 1 << 17]))
    }),
    ("relative offset", |rng, area, seen| {
        let at = some(rng, &seen.entries)?;
        // Every other time the entry becomes long, if it is short.
        if rng.once_in(2) {
            let held = word(area, at)?;
            set(area, at, held | LONG_BIT)?;
        }
        let name = area.get(at + ENTRY..)?.iter().position(|&byte| byte == 0)?;
        let own = align4(ENTRY + name + 1) as u32;
        let there = seen.offset(rng).wrapping_sub((at - DATA) as u32);
        let behind = word(area, USED)?.wrapping_sub((at - DATA) as u32);
        let near = rng.pick(&[own, own, there, behind]);
        set(area, at + RELATIVE, near.wrapping_add(8).wrapping_sub(rng.pick(&[0, 4, 7, 8, 8, 8, 9, 12])))
    }),
    ("slot", |rng, area, seen| {
        let at = some(rng, &seen.entries)? + SLOT;
        let (from, count) = rng.pick(&[(0, 92), (0, 92), (0, 91), (1, 91), (0, 96), (0, 4), (88, 4)]);
        area.get_mut(at + from..at + from + count)?.fill(b'v');
        Some(())
    }),
    ("byte of a long value", |rng, area, seen| {
        let at = some(rng, &seen.values)?;
        let len = area.get(at..)?.iter().position(|&byte| byte == 0)?;
        let byte = rng.pick(&[0, b'v']);
        set_byte(area, at + if rng.once_in(2) { len } else { rng.below(align4(len + 1)) }, byte)
    }),
    ("used", |rng, area, seen| {
        let (held, size) = (word(area, USED)?, data_size(area) as u32);
        let there = seen.offset(rng);
        let near = rng.pick(&[112, held, held, size, size & !3, there]);
        let step = rng.pick(&[1, 2, 3, 4, 4, 4, 8, 20, 24]);
        set(area, USED, near.wrapping_add(if rng.once_in(2) { step } else { 0u32.wrapping_sub(step) }))
    }),
    ("root's namelen, prop, left, right", |rng, area, seen| {
        let at = DATA + 4 * rng.below(4);
        let there = seen.offset(rng);
        set(area, at, rng.pick(&[1, 4, 112, 1 << 31, there]))
    }),
    ("magic or version", |rng, area, _| {
        let at = rng.pick(&[MAGIC, VERSION]) + rng.below(4);
        let held = *area.get(at)?;
        set_byte(area, at, held ^ 1 << rng.below(8))
    }),
    ("header, the rest", |rng, area, _| {
        let at = rng.pick(&[4, 16, 20, 64, 124]);
        set(area, at, rng.word())
    }),
    ("length", |rng, area, _| {
        let used = word(area, USED)? as usize;
        let near = rng.pick(&[DATA, DATA + used, area.len()]);
        let more = rng.word() as u8;
        area.resize((near.min(140_000) + rng.below(9)).saturating_sub(4), more);
        Some(())
    }),
    ("any word", |rng, area, _| {
        let at = DATA + rng.below(data_size(area) + 1);
        set(area, at, rng.word() >> rng.below(32))
    }),
];

fn some(rng: &mut Rng, places: &[usize]) -> Option<usize> {
    (!places.is_empty()).then(|| rng.pick(places))
}

/// A word that changes.
fn set(area: &mut [u8], at: usize, value: u32) -> Option<()> {
    (word(area, at)? != value).then(|| put_word(area, at, value))
}

fn set_byte(area: &mut [u8], at: usize, value: u8) -> Option<()> {
    (*area.get(at)? != value).then(|| put(area, at, &[value]))
}
