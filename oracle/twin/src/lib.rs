//! The steps of RULES in plain, safe Rust, written from the rules and not from the original.
//!
//! It stands in for the proved archive where there is none, it is what `broken` breaks on purpose, and it is the plain
//! twin for timing. Every function follows one paragraph of the rules, in their order.

use calls::{Found, Part, Serial, Side};
use layout::{Entry, Header, Node, BACKUP, FIRST_FREE, LONGEST, SLOT_SIZE};
use std::cmp::Ordering;

/// The refusals of RULES 9, by number.
#[derive(Clone, Copy, Debug, PartialEq, Eq)]
pub enum Refusal {
    ZeroByte = 1,
    EmptySegment = 2,
    Missing = 3,
    NoRoom = 4,
    Damage = 5,
    TooLong = 6,
    LongEntry = 7,
    Header = 8,
    Over32Bits = 9,
}

use Refusal::{Damage, EmptySegment, LongEntry, Missing, NoRoom, Over32Bits, TooLong, ZeroByte};

pub type Answer<T> = Result<T, Refusal>;

fn word(area: &[u8], at: usize) -> u32 {
    u32::from_le_bytes([area[at], area[at + 1], area[at + 2], area[at + 3]])
}

fn put(area: &mut [u8], at: usize, word: u32) {
    area[at..at + 4].copy_from_slice(&word.to_le_bytes());
}

/// The bytes and a zero after them.
fn put_text(area: &mut [u8], at: usize, text: &[u8]) {
    area[at..at + text.len()].copy_from_slice(text);
    area[at + text.len()] = 0;
}

fn align4(size: usize) -> usize {
    size.div_ceil(4) * 4
}

fn data_size(area: &[u8]) -> usize {
    area.len() - Header::SIZE
}

/// Bytes up to the first zero, which must be there.
fn text_in(bytes: &[u8]) -> Answer<&[u8]> {
    let end = bytes.iter().position(|&byte| byte == 0).ok_or(Damage)?;
    Ok(&bytes[..end])
}

/// What every call but format tests first.
fn header(area: &[u8]) -> Answer<()> {
    let long_enough = (Header::SIZE..=LONGEST).contains(&area.len());
    if long_enough && &area[Header::MAGIC..Header::VERSION] == Header::PROP && word(area, Header::VERSION) == Header::VERSION_WORD
    {
        return Ok(());
    }
    Err(Refusal::Header)
}

/// Touching an object: the place of `size` bytes at `offset`, which must lie in the area, at a multiple of 4.
fn touch(area: &[u8], offset: u32, size: usize) -> Answer<usize> {
    let at = Header::SIZE + offset as usize;
    if at + size > area.len() {
        return Err(Damage);
    }
    if !offset.is_multiple_of(4) {
        return Err(Damage);
    }
    Ok(at)
}

/// Segment order.
fn order(a: &[u8], b: &[u8]) -> Ordering {
    a.len().cmp(&b.len()).then_with(|| a.cmp(b))
}

fn node_name(area: &[u8], at: usize) -> Answer<&[u8]> {
    let from = at + Node::SIZE;
    let room = word(area, at + Node::NAMELEN) as usize + 1;
    text_in(area.get(from..from + room).ok_or(Damage)?)
}

fn segments(name: &[u8]) -> impl Iterator<Item = &[u8]> {
    name.split(|&byte| byte == b'.')
}

enum Search {
    /// The offset of the node with that name.
    Equal(u32),
    /// The place of the zero link where it would hang.
    Absent(usize),
}

/// The search over left and right from node `first`. It compares data size / 20 + 1 nodes at most and counts them.
fn search(area: &[u8], first: u32, segment: &[u8], compared: &mut u64) -> Answer<Search> {
    let mut offset = first;
    for _ in 0..data_size(area) / Node::SIZE + 1 {
        let at = touch(area, offset, Node::SIZE)?;
        let side = order(segment, node_name(area, at)?);
        *compared = compared.wrapping_add(1);
        let link = match side {
            Ordering::Less => at + Node::LEFT,
            Ordering::Greater => at + Node::RIGHT,
            Ordering::Equal => return Ok(Search::Equal(offset)),
        };
        offset = word(area, link);
        if offset == 0 {
            return Ok(Search::Absent(link));
        }
    }
    Err(Damage)
}

/// The offset of a name's entry and the count of nodes compared.
pub fn find(area: &[u8], name: &[u8]) -> Answer<(u32, u64)> {
    header(area)?;
    let (mut node, mut compared) = (0, 0);
    for segment in segments(name) {
        if segment.is_empty() {
            return Err(EmptySegment);
        }
        let at = touch(area, node, Node::SIZE)?;
        let first = word(area, at + Node::CHILDREN);
        if first == 0 {
            return Err(Missing);
        }
        let Search::Equal(equal) = search(area, first, segment, &mut compared)? else {
            return Err(Missing);
        };
        node = equal;
    }
    let at = touch(area, node, Node::SIZE)?;
    let entry = word(area, at + Node::PROP);
    if entry == 0 {
        return Err(Missing);
    }
    touch(area, entry, Entry::SIZE)?;
    Ok((entry, compared))
}

/// Room for `size` bytes, padded: its offset. Used moves.
fn allocate(area: &mut [u8], size: usize) -> Answer<u32> {
    let used = word(area, Header::USED);
    let padded = u32::try_from(align4(size)).map_err(|_| Over32Bits)?;
    let sum = used.checked_add(padded).ok_or(Over32Bits)?;
    if sum as usize > data_size(area) {
        return Err(NoRoom);
    }
    put(area, Header::USED, sum);
    Ok(used)
}

/// A fresh node, not yet linked.
fn new_node(area: &mut [u8], segment: &[u8]) -> Answer<u32> {
    let node = allocate(area, Node::SIZE + segment.len() + 1)?;
    let at = touch(area, node, Node::SIZE)?;
    for link in [Node::PROP, Node::LEFT, Node::RIGHT, Node::CHILDREN] {
        put(area, at + link, 0);
    }
    put(area, at + Node::NAMELEN, segment.len() as u32);
    put_text(area, at + Node::SIZE, segment);
    Ok(node)
}

/// The child of `node` with that name, laid down where it is missing.
fn add_segment(area: &mut [u8], node: u32, segment: &[u8]) -> Answer<u32> {
    let at = touch(area, node, Node::SIZE)?;
    let mut first = word(area, at + Node::CHILDREN);
    if first == 0 {
        first = new_node(area, segment)?;
        put(area, at + Node::CHILDREN, first);
    }
    match search(area, first, segment, &mut 0)? {
        Search::Equal(equal) => Ok(equal),
        Search::Absent(link) => {
            let fresh = new_node(area, segment)?;
            put(area, link, fresh);
            Ok(fresh)
        }
    }
}

fn short_value(area: &mut [u8], at: usize, value: &[u8]) {
    put(area, at + Entry::SERIAL, (value.len() as u32) << 24);
    put_text(area, at + Entry::SLOT, value);
}

fn long_value(area: &mut [u8], at: usize, relative: u32) {
    put(area, at + Entry::SERIAL, Entry::LONG_SERIAL);
    let message = at + Entry::SLOT;
    area[message..message + Entry::MESSAGE_SIZE].fill(0);
    area[message..message + Entry::MESSAGE.len()].copy_from_slice(Entry::MESSAGE);
    put(area, at + Entry::LONG_OFFSET, relative);
}

/// A fresh entry with its value, not yet linked.
fn new_entry(area: &mut [u8], name: &[u8], value: &[u8]) -> Answer<u32> {
    let entry = allocate(area, Entry::SIZE + name.len() + 1)?;
    let at = if value.len() >= SLOT_SIZE {
        let long = allocate(area, value.len() + 1)?;
        put_text(area, Header::SIZE + long as usize, value);
        let at = touch(area, entry, Entry::SIZE)?;
        long_value(area, at, long - entry);
        at
    } else {
        let at = touch(area, entry, Entry::SIZE)?;
        short_value(area, at, value);
        at
    };
    put_text(area, at + Entry::SIZE, name);
    Ok(entry)
}

pub fn add(area: &mut [u8], name: &[u8], value: &[u8]) -> Answer<()> {
    header(area)?;
    if name.contains(&0) {
        return Err(ZeroByte);
    }
    if segments(name).any(<[u8]>::is_empty) {
        return Err(EmptySegment);
    }
    let mut node = 0;
    for segment in segments(name) {
        node = add_segment(area, node, segment)?;
    }
    let at = touch(area, node, Node::SIZE)?;
    if word(area, at + Node::PROP) == 0 {
        let entry = new_entry(area, name, value)?;
        put(area, at + Node::PROP, entry);
    }
    Ok(())
}

/// A short value: the slot up to its first zero, all of it if there is none.
fn short_length(area: &[u8], at: usize) -> usize {
    let slot = &area[at + Entry::SLOT..at + Entry::SIZE];
    slot.iter().position(|&byte| byte == 0).unwrap_or(SLOT_SIZE)
}

/// Where the value of the entry at an offset stands: its first byte, counted from the area's first, and its length.
pub fn value(area: &[u8], entry: u32) -> Answer<(usize, usize)> {
    header(area)?;
    let at = touch(area, entry, Entry::SIZE)?;
    if word(area, at + Entry::SERIAL) & Entry::LONG_BIT == 0 {
        return Ok((at + Entry::SLOT, short_length(area, at)));
    }
    let name = text_in(&area[at + Entry::SIZE..])?;
    let relative = word(area, at + Entry::LONG_OFFSET) as usize;
    if relative < align4(Entry::SIZE + name.len() + 1) {
        return Err(Damage);
    }
    let long = area.get(at + relative..).ok_or(Damage)?;
    Ok((at + relative, text_in(long)?.len()))
}

/// Where the name of the entry at an offset stands, as value says it: right behind the record, up to its zero, which must be there.
pub fn name(area: &[u8], entry: u32) -> Answer<(usize, usize)> {
    header(area)?;
    let from = touch(area, entry, Entry::SIZE)? + Entry::SIZE;
    let length = text_in(&area[from..])?.len();
    Ok((from, length))
}

/// The serial of the entry at an offset, whatever its bits say.
pub fn serial(area: &[u8], entry: u32) -> Answer<u32> {
    header(area)?;
    let record = touch(area, entry, Entry::SIZE)?;
    Ok(word(area, record + Entry::SERIAL))
}

/// The backup and a zero go to the backup slot.
fn store_backup(area: &mut [u8], backup: &[u8]) -> Answer<()> {
    if backup.len() >= SLOT_SIZE {
        return Err(TooLong);
    }
    if Node::SIZE + 1 + backup.len() > data_size(area) {
        return Err(Damage);
    }
    put_text(area, BACKUP, backup);
    Ok(())
}

/// The stores of both updates after the backup's, from the serial that was read.
fn apply_write(area: &mut [u8], at: usize, serial: u32, value: &[u8]) {
    let dirty = serial | 1;
    put(area, at + Entry::SERIAL, dirty);
    put_text(area, at + Entry::SLOT, value);
    let counter = dirty.wrapping_add(1) & 0x00fe_ffff;
    put(area, at + Entry::SERIAL, counter | (value.len() as u32) << 24);
}

/// Update by name: the serial is the one read before any store.
pub fn update(area: &mut [u8], name: &[u8], value: &[u8]) -> Answer<()> {
    let (entry, _) = find(area, name)?;
    let at = touch(area, entry, Entry::SIZE)?;
    let serial = word(area, at + Entry::SERIAL);
    if serial & Entry::LONG_BIT != 0 {
        return Err(LongEntry);
    }
    if value.len() >= SLOT_SIZE {
        return Err(TooLong);
    }
    let old = area[at + Entry::SLOT..][..short_length(area, at)].to_vec();
    store_backup(area, &old)?;
    apply_write(area, at, serial, value);
    Ok(())
}

/// Raw update: the backup is stored first, and the serial is read after it.
pub fn raw_update(area: &mut [u8], entry: u32, backup: &[u8], value: &[u8]) -> Answer<()> {
    header(area)?;
    store_backup(area, backup)?;
    let at = touch(area, entry, Entry::SIZE)?;
    let serial = word(area, at + Entry::SERIAL);
    if serial & Entry::LONG_BIT != 0 {
        return Err(LongEntry);
    }
    if value.len() >= SLOT_SIZE {
        return Err(TooLong);
    }
    apply_write(area, at, serial, value);
    Ok(())
}

pub fn backup_read(area: &[u8], buffer: &mut [u8]) -> Answer<()> {
    header(area)?;
    if buffer.len() >= SLOT_SIZE {
        return Err(TooLong);
    }
    if Node::SIZE + buffer.len() > data_size(area) {
        return Err(Damage);
    }
    buffer.copy_from_slice(&area[BACKUP..BACKUP + buffer.len()]);
    Ok(())
}

pub fn format(area: &mut [u8]) -> Answer<()> {
    if !(Header::SIZE + FIRST_FREE..=LONGEST).contains(&area.len()) {
        return Err(Refusal::Header);
    }
    area.fill(0);
    put(area, Header::USED, FIRST_FREE as u32);
    area[Header::MAGIC..Header::VERSION].copy_from_slice(Header::PROP);
    put(area, Header::VERSION, Header::VERSION_WORD);
    Ok(())
}

pub fn update_distance(earlier: u32, later: u32) -> u32 {
    let position = |serial: u32| serial % 65_536 / 2;
    position(later).wrapping_sub(position(earlier)) % 32_768
}

fn number(answer: Answer<()>) -> u32 {
    answer.err().map_or(0, |refusal| refusal as u32)
}

fn part(answer: Answer<(usize, usize)>) -> Part {
    match answer {
        Ok((start, length)) => Part { refusal: 0, start: start as u32, length: length as u64 },
        Err(refusal) => Part { refusal: refusal as u32, ..Part::default() },
    }
}

pub struct Twin;

impl Side for Twin {
    fn format(&self, area: &mut [u8]) -> u32 {
        number(format(area))
    }

    fn find(&self, area: &mut [u8], name: &[u8]) -> Found {
        match find(area, name) {
            Ok((entry, compared)) => Found { refusal: 0, entry, compared },
            Err(refusal) => Found { refusal: refusal as u32, ..Found::default() },
        }
    }

    fn value(&self, area: &mut [u8], entry: u32) -> Part {
        part(value(area, entry))
    }

    fn name(&self, area: &mut [u8], entry: u32) -> Part {
        part(name(area, entry))
    }

    fn serial(&self, area: &mut [u8], entry: u32) -> Serial {
        match serial(area, entry) {
            Ok(serial) => Serial { refusal: 0, serial },
            Err(refusal) => Serial { refusal: refusal as u32, serial: 0 },
        }
    }

    fn add(&self, area: &mut [u8], name: &[u8], value: &[u8]) -> u32 {
        number(add(area, name, value))
    }

    fn update(&self, area: &mut [u8], name: &[u8], value: &[u8]) -> u32 {
        number(update(area, name, value))
    }

    fn raw_update(&self, area: &mut [u8], entry: u32, backup: &[u8], value: &[u8]) -> u32 {
        number(raw_update(area, entry, backup, value))
    }

    fn backup_read(&self, area: &mut [u8], buffer: &mut [u8]) -> u32 {
        number(backup_read(area, buffer))
    }

    fn update_distance(&self, earlier: u32, later: u32) -> u32 {
        update_distance(earlier, later)
    }
}
