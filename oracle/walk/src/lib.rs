//! The steps of crates/audit, tour, works and probes in plain, safe Rust: the twin of our own check and listing, function by function; and
//! the dump that is made of a listing.
//!
//! It stands in for the proved archive where there is none, and it is what `broken` breaks on purpose. How the walk works, and why,
//! stands at the top of crates/tour/src/lib.rt. It is no judge: that is `checker`, which was written from the maker's rules alone.

use calls::{Audit, Count};
use layout::{Entry, Header, Node, FIRST_FREE, LONGEST};

/// Bytes of the data for each step of the walk: a node takes 24 at least, and four steps.
const STEP: usize = 6;

const SHORT_BUFFER: u32 = 10;
const BAD_HEADER: u32 = 8;
const DAMAGED: u32 = 5;

// ---- marks: words free or taken, and numbers kept in three marks each

/// A byte, or zero past the end.
fn byte_at(bytes: &[u8], at: usize) -> u8 {
    bytes.get(at).copied().unwrap_or(0)
}

/// Takes `words` words from the first on, if all of them are there and free.
fn take(marks: &mut [u8], first: usize, words: usize) -> bool {
    if marks.len() < first + words {
        return false;
    }
    let wanted = &mut marks[first..first + words];
    if wanted.iter().any(|&mark| mark != 0) {
        return false;
    }
    wanted.fill(1);
    true
}

/// Keeps a number in three marks, none of which is zero.
fn write_number(marks: &mut [u8], at: usize, number: usize) {
    marks[at] = (number % 255 + 1) as u8;
    marks[at + 1] = (number / 255 % 255 + 1) as u8;
    marks[at + 2] = (number / 255 / 255 % 255 + 1) as u8;
}

fn digit(marks: &[u8], at: usize) -> usize {
    (byte_at(marks, at) as usize).saturating_sub(1)
}

fn read_number(marks: &[u8], at: usize) -> usize {
    digit(marks, at) + 255 * (digit(marks, at + 1) + 255 * digit(marks, at + 2))
}

// ---- what stands at an offset

fn word_at(area: &[u8], at: usize) -> usize {
    u32::from_le_bytes([byte_at(area, at), byte_at(area, at + 1), byte_at(area, at + 2), byte_at(area, at + 3)]) as usize
}

/// A field of the node in word `node` of the data.
fn field(area: &[u8], node: usize, field: usize) -> usize {
    word_at(area, Header::SIZE + node * 4 + field)
}

/// The words of the node at an offset, or 0 if no node can stand there.
fn node_room(area: &[u8], used: usize, at: usize) -> usize {
    if !at.is_multiple_of(4) {
        return 0;
    }
    if at < FIRST_FREE {
        return 0;
    }
    if used < at + Node::SIZE {
        return 0;
    }
    let size = word_at(area, Header::SIZE + at + Node::NAMELEN);
    if size == 0 {
        return 0;
    }
    if used < at + Node::SIZE + size + 1 {
        return 0;
    }
    let name = Header::SIZE + at + Node::SIZE;
    if area[name..name + size].iter().any(|&byte| byte == 0 || byte == b'.') {
        return 0;
    }
    if area[name + size] != 0 {
        return 0;
    }
    (Node::SIZE + size + 1).div_ceil(4)
}

/// The place of the zero of a text that begins at a place, in an object at an offset; 0 if none can stand there.
fn text_end(area: &[u8], used: usize, at: usize, from: usize) -> usize {
    if !at.is_multiple_of(4) {
        return 0;
    }
    if at < FIRST_FREE {
        return 0;
    }
    let end = Header::SIZE + used;
    if end <= from {
        return 0;
    }
    area[from..end].iter().position(|&byte| byte == 0).map_or(0, |zero| from + zero)
}

// ---- order and paths

/// Whether the name of node `p` is less than that of node `q`: shorter is less, then byte by byte.
fn less(area: &[u8], p: usize, q: usize) -> bool {
    let (size, other) = (field(area, p, Node::NAMELEN), field(area, q, Node::NAMELEN));
    if size != other {
        return size < other;
    }
    let [a, b] = [p, q].map(|node| Header::SIZE + node * 4 + Node::SIZE);
    area[a..a + size] < area[b..b + size]
}

fn follows(area: &[u8], before: usize, node: usize) -> bool {
    before == 0 || less(area, before, node)
}

fn same_at(area: &[u8], x: usize, y: usize, count: usize) -> bool {
    area[x..x + count] == area[y..y + count]
}

/// Whether the bytes from a place up to another are the dotted path of a node, compared from the end by the owners in the marks.
fn is_path(area: &[u8], marks: &[u8], node: usize, from: usize, to: usize) -> bool {
    let (mut node, mut end) = (node, to);
    for _ in from..=to {
        let size = field(area, node, Node::NAMELEN);
        if end - from < size {
            return false;
        }
        end -= size;
        if !same_at(area, end, Header::SIZE + node * 4 + Node::SIZE, size) {
            return false;
        }
        node = read_number(marks, node + 3);
        if node == 0 {
            return end == from;
        }
        if end == from {
            return false;
        }
        end -= 1;
        if area[end] != b'.' {
            return false;
        }
    }
    false
}

// ---- a node's own work

/// What a node's own work finds.
enum Own {
    Bare,
    Entry(usize),
    Damaged,
}

/// Whether a value is as it ought to be: a slot with a zero, or a text behind the entry's words, whose words it takes.
fn value_work(area: &[u8], marks: &mut [u8], used: usize, at: usize, words: usize) -> bool {
    let record = Header::SIZE + at;
    if word_at(area, record + Entry::SERIAL) & Entry::LONG_BIT as usize == 0 {
        return area[record + Entry::SLOT..record + Entry::SIZE].contains(&0);
    }
    let relative = word_at(area, record + Entry::LONG_OFFSET);
    if relative < words * 4 {
        return false;
    }
    let far = at + relative;
    let zero = text_end(area, used, far, Header::SIZE + far);
    if zero == 0 {
        return false;
    }
    take(marks, far / 4, (zero + 1 - (Header::SIZE + far)).div_ceil(4))
}

/// Whether the entry at an offset is the node's: its name the node's path, its words free; it takes them.
fn entry_work(area: &[u8], marks: &mut [u8], used: usize, node: usize, at: usize) -> bool {
    let from = Header::SIZE + at + Entry::SIZE;
    let zero = text_end(area, used, at, from);
    if zero == 0 {
        return false;
    }
    if !is_path(area, marks, node, from, zero) {
        return false;
    }
    let words = (zero + 1 - (Header::SIZE + at)).div_ceil(4);
    if !take(marks, at / 4, words) {
        return false;
    }
    value_work(area, marks, used, at, words)
}

/// A node's own work, with the node before it.
fn own_work(area: &[u8], marks: &mut [u8], used: usize, node: usize, before: usize) -> Own {
    if !follows(area, before, node) {
        return Own::Damaged;
    }
    let at = field(area, node, Node::PROP);
    if at == 0 {
        return Own::Bare;
    }
    if !entry_work(area, marks, used, node, at) {
        return Own::Damaged;
    }
    Own::Entry(at)
}

// ---- the walk

/// Where the walk is: at node `cur`, about to go left (phase 0), to do the node's own work and go below (1), right (2) or up (3).
struct Steps {
    ok: bool,
    cur: usize,
    phase: usize,
    /// The node before in this tree of siblings, or 0.
    before: usize,
    /// The entry that the last step saw, or 0.
    seen: usize,
}

const BAD: Steps = Steps { ok: false, cur: 0, phase: 0, before: 0, seen: 0 };

fn here(cur: usize, phase: usize, before: usize, seen: usize) -> Steps {
    Steps { ok: true, cur, phase, before, seen }
}

/// The owner of what hangs from a node in a direction.
fn owner_for(marks: &[u8], node: usize, direction: usize) -> usize {
    if direction == 1 {
        return node;
    }
    read_number(marks, node + 3)
}

/// Enters the node at a link, come to from a node: takes its words and writes its record.
fn enter(area: &[u8], marks: &mut [u8], used: usize, link: usize, from: usize, direction: usize) -> bool {
    let owner = owner_for(marks, from, direction);
    let words = node_room(area, used, link);
    if words == 0 {
        return false;
    }
    let node = link / 4;
    if !take(marks, node, words) {
        return false;
    }
    write_number(marks, node, from * 3 + direction);
    write_number(marks, node + 3, owner);
    true
}

/// Along a link of the node where the walk is, in the direction of its phase.
fn go(area: &[u8], marks: &mut [u8], used: usize, w: Steps, link: usize) -> Steps {
    if link == 0 {
        return here(w.cur, w.phase + 1, w.before, w.seen);
    }
    if !enter(area, marks, used, link, w.cur, w.phase) {
        return BAD;
    }
    here(link / 4, 0, w.before, w.seen)
}

fn step(area: &[u8], marks: &mut [u8], used: usize, w: Steps) -> Steps {
    let node = w.cur;
    if w.phase == 0 {
        let left = field(area, node, Node::LEFT);
        return go(area, marks, used, here(node, 0, w.before, 0), left);
    }
    if w.phase == 1 {
        let below = field(area, node, Node::CHILDREN);
        return match own_work(area, marks, used, node, w.before) {
            Own::Damaged => BAD,
            Own::Bare => go(area, marks, used, here(node, 1, 0, 0), below),
            Own::Entry(at) => go(area, marks, used, here(node, 1, 0, at), below),
        };
    }
    if w.phase == 2 {
        let right = field(area, node, Node::RIGHT);
        return go(area, marks, used, here(node, 2, node, 0), right);
    }
    let came = read_number(marks, node);
    here(came / 3, came % 3 + 1, w.before, 0)
}

/// Notes an entry at a place of the list, if it has that place; the next place.
fn note(list: &mut [u32], place: usize, at: usize) -> usize {
    if at == 0 {
        return place;
    }
    if let Some(noted) = list.get_mut(place) {
        *noted = at as u32;
    }
    place + 1
}

/// The walk from the root's children, over marks that are all zero, noting entries in the list; how many, if it ends well.
fn tour(area: &[u8], marks: &mut [u8], list: &mut [u32], used: usize) -> Option<usize> {
    let mut entries = 0;
    let first = field(area, 0, Node::CHILDREN);
    let mut w = go(area, marks, used, here(0, 1, 0, 0), first);
    for _ in 0..(area.len() - Header::SIZE) / STEP {
        if w.cur == 0 {
            break;
        }
        w = step(area, marks, used, w);
        entries = note(list, entries, w.seen);
    }
    (w.ok && w.cur == 0).then_some(entries)
}

// ---- check and listing

/// Whether the used mark and the root's namelen, prop, left and right are as they ought to be.
fn front_ok(area: &[u8], used: usize) -> bool {
    if used & 3 != 0 {
        return false;
    }
    if used < FIRST_FREE {
        return false;
    }
    if area.len() - Header::SIZE < used {
        return false;
    }
    [Node::NAMELEN, Node::PROP, Node::LEFT, Node::RIGHT].iter().all(|&of_root| field(area, 0, of_root) == 0)
}

/// Walks over an area that has an area's header, with scratch enough, and notes its entries in the list; scratch ends zero.
fn survey(area: &[u8], scratch: &mut [u8], list: &mut [u32]) -> Result<usize, u32> {
    scratch.fill(0);
    let used = word_at(area, Header::USED);
    if !front_ok(area, used) {
        return Err(DAMAGED);
    }
    let walked = tour(area, scratch, list, used);
    scratch.fill(0);
    walked.ok_or(DAMAGED)
}

// ---- the dump

fn text_at(bytes: &[u8]) -> &[u8] {
    let end = bytes.iter().position(|&byte| byte == 0).unwrap_or(bytes.len());
    &bytes[..end]
}

/// The value of the entry whose record begins these bytes.
fn value_of(entry: &[u8]) -> &[u8] {
    if word_at(entry, Entry::SERIAL) as u32 & Entry::LONG_BIT != 0 {
        return text_at(&entry[word_at(entry, Entry::LONG_OFFSET)..]);
    }
    text_at(&entry[Entry::SLOT..Entry::SIZE])
}

fn say_escaped(text: &mut Vec<u8>, bytes: &[u8]) {
    for &byte in bytes {
        if (0x20..=0x7e).contains(&byte) && byte != b'\\' {
            text.push(byte);
        } else {
            text.extend(format!("\\x{byte:02x}").bytes());
        }
    }
}

fn dump_text(area: &[u8], offsets: &[u32]) -> Vec<u8> {
    let mut text = format!("entries {} used {}\n", offsets.len(), word_at(area, Header::USED)).into_bytes();
    for &offset in offsets {
        let entry = &area[Header::SIZE + offset as usize..];
        text.push(b'[');
        say_escaped(&mut text, text_at(&entry[Entry::SIZE..]));
        text.extend(b"]: [");
        say_escaped(&mut text, value_of(entry));
        text.extend(b"]\n");
    }
    text
}

/// The walk, with the greatest length of an area that is no 8.
pub struct Walk {
    pub longest: usize,
}

impl Walk {
    pub const DOCUMENT: Walk = Walk { longest: LONGEST };

    /// How many entries an area has, with the tests that check and listing begin with.
    fn count(&self, area: &[u8], scratch: &mut [u8]) -> Result<usize, u32> {
        let long_enough = (Header::SIZE..=self.longest).contains(&area.len());
        if !long_enough
            || area[Header::MAGIC..Header::VERSION] != *Header::PROP
            || word_at(area, Header::VERSION) != Header::VERSION_WORD as usize
        {
            return Err(BAD_HEADER);
        }
        if scratch.len() < area.len() / 4 {
            return Err(SHORT_BUFFER);
        }
        survey(area, scratch, &mut [])
    }

    fn listed(&self, area: &[u8], scratch: &mut [u8], list: &mut [u32]) -> Result<usize, u32> {
        let entries = self.count(area, scratch)?;
        if list.len() < entries {
            return Err(SHORT_BUFFER);
        }
        survey(area, scratch, list)
    }

    /// The length of the text, which is then at the start of the room.
    fn dumped(&self, area: &[u8], scratch: &mut [u8], list: &mut [u32], room: &mut [u8]) -> Result<usize, u32> {
        let entries = self.listed(area, scratch, list)?;
        let text = dump_text(area, &list[..entries]);
        if room.len() < text.len() {
            return Err(SHORT_BUFFER);
        }
        room[..text.len()].copy_from_slice(&text);
        Ok(text.len())
    }
}

impl Audit for Walk {
    fn check(&self, area: &mut [u8], scratch: &mut [u8]) -> u32 {
        self.count(area, scratch).err().unwrap_or(0)
    }

    fn list(&self, area: &mut [u8], scratch: &mut [u8], list: &mut [u32]) -> Count {
        match self.listed(area, scratch, list) {
            Ok(entries) => Count { refusal: 0, count: entries as u32 },
            Err(refusal) => Count { refusal, count: 0 },
        }
    }

    fn dump(&self, area: &mut [u8], scratch: &mut [u8], list: &mut [u32], room: &mut [u8]) -> Count {
        match self.dumped(area, scratch, list, room) {
            Ok(length) => Count { refusal: 0, count: length as u32 },
            Err(why) => Count { refusal: why, count: 0 },
        }
    }
}
