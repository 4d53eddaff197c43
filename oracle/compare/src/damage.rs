//! Where an area can be hurt: the words that its structure hangs on, and values for them that nearly fit.

use crate::area::Area;
use crate::op::Op;
use crate::rng::Rng;

pub const DATA: usize = 128;
pub const USED: usize = 0;
pub const MAGIC: (usize, u32) = (8, 0x504f_5250);
pub const VERSION: (usize, u32) = (12, 0xfc6e_d0ab);
/// Fields of a node, counted from it.
pub const PROP: usize = 4;
const LEFT: usize = 8;
pub const RIGHT: usize = 12;
pub const CHILDREN: usize = 16;
pub const NODE: usize = 20;
const ENTRY: usize = 96;
const LONG_OFFSET: usize = 60;

/// Places of nodes and entries, counted from the area's first byte, as far as a walk of some steps meets them.
pub struct Places {
    pub nodes: Vec<usize>,
    pub entries: Vec<usize>,
}

impl Places {
    pub fn of(area: &Area) -> Self {
        let mut places = Places { nodes: Vec::new(), entries: Vec::new() };
        let mut next = vec![DATA];
        while let Some(node) = next.pop() {
            if places.nodes.len() == 48 || places.nodes.contains(&node) || area.word(node + CHILDREN).is_none() {
                continue;
            }
            places.nodes.push(node);
            let link = |field: usize| area.word(node + field).filter(|&offset| offset != 0).map(|offset| DATA + offset as usize);
            places.entries.extend(link(PROP).filter(|&entry| area.word(entry + ENTRY - 4).is_some()));
            next.extend([link(CHILDREN), link(RIGHT), link(LEFT)].into_iter().flatten());
        }
        places
    }
}

pub fn data_size(area: &Area) -> usize {
    area.bytes().len().saturating_sub(DATA)
}

/// The offset of one of these places.
fn known(rng: &mut Rng, places: &[usize]) -> u32 {
    if places.is_empty() {
        112
    } else {
        (rng.pick(places) - DATA) as u32
    }
}

/// A value for `used`: around the fresh area's 112, around the data's end, near 2^32, and back over what is laid down.
pub fn used(rng: &mut Rng, area: &Area) -> u32 {
    let near_start = [0, 4, 8, 12, 16, 20, 24, 100, 104, 108, 109, 110, 111, 112, 113, 114, 116];
    let size = data_size(area) as u32;
    match rng.below(5) {
        0 => rng.pick(&near_start),
        1 => size.wrapping_add(4 * rng.below(70) as u32).wrapping_sub(260 + rng.below(2) as u32 * rng.below(4) as u32),
        2 => u32::MAX - rng.below(260) as u32,
        3 => known(rng, &Places::of(area).nodes).saturating_sub(4 * rng.below(30) as u32),
        _ => 4 * rng.below(size as usize / 4 + 1) as u32,
    }
}

/// An offset that a link, or a caller, might hold.
pub fn offset(rng: &mut Rng, area: &Area) -> u32 {
    let size = data_size(area) as u32;
    let places = Places::of(area);
    let near = |rng: &mut Rng, from: u32| from.wrapping_add(4 * rng.below(5) as u32).wrapping_sub(8);
    let aligned = match rng.below(12) {
        0 => 0,
        1 | 2 => known(rng, &places.nodes),
        3..=5 => known(rng, &places.entries),
        6 => 4 * rng.below(29) as u32,
        7 => near(rng, size.wrapping_sub(NODE as u32)),
        8 => near(rng, size.wrapping_sub(ENTRY as u32)),
        9 => {
            let far = rng.pick(&[0, 128, 224, 1 << 31]);
            near(rng, 0u32.wrapping_sub(far))
        }
        _ => 4 * rng.below(size as usize / 4 + 2) as u32,
    };
    if rng.once_in(10) {
        aligned.wrapping_add(rng.within(1, 3) as u32)
    } else {
        aligned
    }
}

fn namelen(rng: &mut Rng, size: usize) -> u32 {
    match rng.below(4) {
        0 => u32::MAX - rng.below(200) as u32,
        1 => rng.within(0, size + 8) as u32,
        2 => (size as u32).wrapping_sub(rng.below(300) as u32),
        _ => rng.below(9) as u32,
    }
}

/// Short or long, even or odd, with a counter near its wraps.
pub fn serial(rng: &mut Rng) -> u32 {
    let counter =
        rng.pick(&[0, 1, 2, 0xfffe, 0xffff, 0x02_fffe, 0x02_ffff, 0xfe_fffe, 0xfe_ffff, 0xff_fffe, 0xff_ffff, 0x01_0000]);
    match rng.below(8) {
        0 => rng.word(),
        1 => u32::MAX,
        _ => counter | (rng.below(256) as u32) << 24,
    }
}

/// Four bytes that read as the start of a name, with and without a zero.
pub fn name_word(rng: &mut Rng) -> u32 {
    u32::from_le_bytes(*rng.pick(&[b"a\0\0\0", b"b\0\0\0", b"ab\0\0", b"aaaa", b"\0\0\0\0", b"aba\0", b".\0\0\0", b"\0aa\0"]))
}

/// One injury, as stores of words.
pub fn injury(rng: &mut Rng, area: &Area) -> Vec<Op> {
    let places = Places::of(area);
    let size = data_size(area);
    let node = places.nodes.get(rng.below(places.nodes.len().max(1))).copied().unwrap_or(DATA);
    let entry = places.entries.get(rng.below(places.entries.len().max(1))).copied();
    let poke = |at: usize, word: u32| vec![Op::Poke { at, word }];
    match (rng.below(16), entry) {
        (0 | 1, _) => poke(USED, used(rng, area)),
        (2..=5, _) => poke(node + PROP + 4 * rng.below(4), offset(rng, area)),
        (6, _) => poke(node, namelen(rng, size)),
        (7, _) => poke(node + NODE, name_word(rng)),
        (8 | 9, Some(entry)) => poke(entry, serial(rng)),
        (10 | 11, Some(entry)) => made_long(rng, entry, size),
        (12, Some(entry)) => (0..23).map(|word| Op::Poke { at: entry + 4 + 4 * word, word: 0x6162_6364 }).collect(),
        (13, Some(entry)) => poke(entry + ENTRY, name_word(rng)),
        (14, _) => {
            (1..=rng.within(1, 30).min(size / 4)).map(|back| Op::Poke { at: DATA + size - 4 * back, word: 0x7a7a_7a7a }).collect()
        }
        _ => poke(4 * rng.below(area.bytes().len() / 4 + 1), rng.word() >> rng.below(32)),
    }
}

/// The entry becomes long, with a relative offset around the least that is allowed, around the area's end, or near 2^32.
fn made_long(rng: &mut Rng, entry: usize, size: usize) -> Vec<Op> {
    let to_end = (DATA + size - entry) as u32;
    let relative = match rng.below(4) {
        0 => to_end.wrapping_add(rng.below(6) as u32).wrapping_sub(4),
        1 => u32::MAX - rng.below(300) as u32,
        _ => rng.within(90, 112) as u32,
    };
    vec![Op::Poke { at: entry, word: 0x3201_0000 }, Op::Poke { at: entry + LONG_OFFSET, word: relative }]
}
