//! The entries of a sound area, one after the other.

use std::{iter, vec};

use crate::update_distance;

/// An entry with all that is read of it: what [`Area::entry`](crate::Area::entry) answers, and [`Area::entries`](crate::Area::entries) for each.
#[derive(Clone, Copy, Debug, PartialEq, Eq, Hash)]
pub struct Entry<'a> {
    /// Its offset, from byte 128 of the area.
    pub offset: u32,
    /// Its whole dotted name, a part of the area.
    pub name: &'a [u8],
    /// Its value up to the first zero, a part of the area.
    pub value: &'a [u8],
    /// Its serial: [`Area::serial`](crate::Area::serial) says what the bits mean.
    pub serial: u32,
}

impl Entry<'_> {
    /// How many updates lie between an earlier serial of this entry and this one: [`update_distance`], which goes round at 32,768.
    #[must_use]
    pub fn updates(&self, earlier_serial: u32) -> u32 {
        update_distance(earlier_serial, self.serial)
    }

    /// Whether its value is long (bit 16 of the serial): such an entry cannot be updated.
    #[must_use]
    pub const fn is_long(&self) -> bool {
        self.serial & 1 << 16 != 0
    }

    /// Whether a write was begun and not ended (bit 0 of the serial).
    #[must_use]
    pub const fn is_odd(&self) -> bool {
        self.serial & 1 != 0
    }
}

/// The entries of a sound area, in listing order: what [`Area::entries`](crate::Area::entries) answers.
#[derive(Clone, Debug)]
pub struct Entries<'a> {
    entries: vec::IntoIter<Entry<'a>>,
}

impl<'a> Entries<'a> {
    pub(crate) fn new(entries: Vec<Entry<'a>>) -> Entries<'a> {
        Entries { entries: entries.into_iter() }
    }
}

impl<'a> Iterator for Entries<'a> {
    type Item = Entry<'a>;

    fn next(&mut self) -> Option<Entry<'a>> {
        self.entries.next()
    }

    fn size_hint(&self) -> (usize, Option<usize>) {
        self.entries.size_hint()
    }
}

impl ExactSizeIterator for Entries<'_> {}
impl iter::FusedIterator for Entries<'_> {}
