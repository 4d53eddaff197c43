//! What goes through a whole area: check, listing and dump.

use crate::refusal::accepted;
use crate::{ffi, places, room_len, scratch_len, Area, Checked, Entries, Refusal};

impl<'a> Area<'a> {
    /// Whether the area is sound. Refused with 8 or 5.
    ///
    /// Its scratch is allocated here, a quarter of the area's length; [`check_with`](Area::check_with) does without.
    ///
    /// ```
    /// # use property_area::{Area, AreaMut, Refusal};
    /// # fn main() -> Result<(), Refusal> {
    /// let mut bytes = [0; 4_096];
    /// AreaMut::format(&mut bytes)?.add("a", "x")?;
    /// assert_eq!(Area::new(&bytes).check(), Ok(()));
    ///
    /// bytes[128] = 1; // the root has no name
    /// assert_eq!(Area::new(&bytes).check(), Err(Refusal::Damaged));
    /// # Ok(())
    /// # }
    /// ```
    pub fn check(&self) -> Result<(), Refusal> {
        self.check_with(&mut self.scratch()?)
    }

    /// [`check`](Area::check) with the caller's scratch. Refused with 8, 10 (fewer than [`scratch_len`] bytes) or 5.
    ///
    /// Scratch may hold anything; all of it ends zero unless 8 or 10 is given.
    pub fn check_with(&self, scratch: &mut [u8]) -> Result<(), Refusal> {
        accepted(ffi::check(self.bytes(), scratch))
    }

    /// The area as one that is sound, whose lookups are cheap: for bytes that nobody vouches for. Refused as [`check`](Area::check) is.
    ///
    /// ```
    /// # use property_area::{Area, Refusal};
    /// fn limit(bytes: &[u8]) -> Result<&[u8], Refusal> {
    ///     Area::new(bytes).checked()?.get("inverter.limit")
    /// }
    /// # assert_eq!(limit(b"no area"), Err(Refusal::BadHeader));
    /// ```
    pub fn checked(&self) -> Result<Checked<'a>, Refusal> {
        self.checked_with(&mut self.scratch()?)
    }

    /// [`checked`](Area::checked) with the caller's scratch. Refused as [`check_with`](Area::check_with) is, and scratch left as it does.
    pub fn checked_with(&self, scratch: &mut [u8]) -> Result<Checked<'a>, Refusal> {
        self.check_with(scratch)?;
        Ok(Checked::accepted(*self))
    }

    /// The entries of a sound area, in the tree's order: left side, own entry, children, right side. Refused with 8 or 5.
    ///
    /// Shorter segments come first, equally long ones in the order of their bytes. Scratch and list are allocated here, sized from the
    /// area's length; [`list_with`](Area::list_with) does without.
    ///
    /// ```
    /// # use property_area::{AreaMut, Refusal};
    /// # fn main() -> Result<(), Refusal> {
    /// let mut bytes = [0; 4_096];
    /// let mut area = AreaMut::format(&mut bytes)?;
    /// area.add("ab.c", "12")?;
    /// area.add("b", "q")?;
    /// for entry in area.entries()? {
    ///     // b: q, serial 0x01000000; then ab.c: 12, serial 0x02000000
    ///     println!("{}: {}, serial {:#010x}", entry.name.escape_ascii(), entry.value.escape_ascii(), entry.serial);
    /// }
    /// # let listed: Vec<_> = area.entries()?.map(|entry| (entry.name, entry.value, entry.serial)).collect();
    /// # assert_eq!(listed, [(&b"b"[..], &b"q"[..], 0x0100_0000), (b"ab.c", b"12", 0x0200_0000)]);
    /// # Ok(())
    /// # }
    /// ```
    pub fn entries(&self) -> Result<Entries<'a>, Refusal> {
        let (mut scratch, mut list) = (self.scratch()?, self.places());
        let offsets = self.list_with(&mut scratch, &mut list)?;
        let entries = offsets.iter().map(|&offset| self.entry_at(offset)).collect::<Result<Vec<_>, Refusal>>()?;
        Ok(Entries::new(entries))
    }

    /// The offsets of a sound area's entries, in the order of [`entries`](Area::entries), in the caller's memory. Refused as
    /// [`check_with`](Area::check_with) is, then with 10 where the list has fewer places than there are entries; [`places`] are enough.
    ///
    /// A refusal keeps the list; places beyond the entries stay.
    ///
    /// ```
    /// # use property_area::{places, scratch_len, AreaMut, Refusal};
    /// # fn main() -> Result<(), Refusal> {
    /// let mut bytes = [0; 4_096];
    /// let mut area = AreaMut::format(&mut bytes)?;
    /// area.add("ab.c", "12")?;
    /// area.add("b", "q")?;
    /// let (mut scratch, mut list) = ([0; scratch_len(4_096)], [0; places(4_096)]);
    /// assert_eq!(area.as_area().list_with(&mut scratch, &mut list)?, [288, 160]);
    /// assert_eq!(area.name(288)?, b"b");
    /// # Ok(())
    /// # }
    /// ```
    pub fn list_with<'l>(&self, scratch: &mut [u8], list: &'l mut [u32]) -> Result<&'l [u32], Refusal> {
        let ffi::Count { refusal, count } = ffi::list(self.bytes(), scratch, list);
        accepted(refusal)?;
        first(list, count)
    }

    /// The dump of a sound area, as text. Refused with 8 or 5.
    ///
    /// A line with the count and the used mark, then a line for each entry, in the order of [`entries`](Area::entries), with name and value. Bytes
    /// outside 0x20 to 0x7e and backslashes are put as `\x` and two hex digits. Scratch, list and room are allocated here, sized from the
    /// area's length; [`dump_with`](Area::dump_with) does without.
    ///
    /// ```
    /// # use property_area::{AreaMut, Refusal};
    /// # fn main() -> Result<(), Refusal> {
    /// let mut bytes = [0; 4_096];
    /// let mut area = AreaMut::format(&mut bytes)?;
    /// area.add("ab.c", "12")?;
    /// area.add("b", "q")?;
    /// assert_eq!(area.as_area().dump()?, b"entries 2 used 388\n[b]: [q]\n[ab.c]: [12]\n");
    /// # Ok(())
    /// # }
    /// ```
    pub fn dump(&self) -> Result<Vec<u8>, Refusal> {
        let (mut scratch, mut list) = (self.scratch()?, self.places());
        let mut room = vec![0; room_len(self.bytes().len())];
        let length = self.dump_with(&mut scratch, &mut list, &mut room)?.len();
        room.truncate(length);
        Ok(room)
    }

    /// [`dump`](Area::dump) with the caller's memory: the text is the first part of the room. Refused as [`list_with`](Area::list_with) is,
    /// then with 10 where the room is shorter than the text; [`room_len`] bytes are enough.
    ///
    /// A refusal keeps the room; bytes behind the text stay. Scratch and list end as `list_with` leaves them.
    pub fn dump_with<'r>(&self, scratch: &mut [u8], list: &mut [u32], room: &'r mut [u8]) -> Result<&'r [u8], Refusal> {
        let ffi::Count { refusal, count } = ffi::dump(self.bytes(), scratch, list, room);
        accepted(refusal)?;
        first(room, count)
    }

    /// Scratch for this area. The check is first asked with none: what is no area is refused (8) before anything is allocated.
    fn scratch(&self) -> Result<Vec<u8>, Refusal> {
        match self.check_with(&mut []) {
            Err(Refusal::ShortBuffer) => Ok(vec![0; scratch_len(self.bytes().len())]),
            other => other.map(|()| Vec::new()),
        }
    }

    /// Places for all entries that this area can have.
    fn places(&self) -> Vec<u32> {
        vec![0; places(self.bytes().len())]
    }
}

/// So many of these. An accepted count is at most their number, which is proved; nothing here relies on it.
fn first<T>(all: &[T], count: u32) -> Result<&[T], Refusal> {
    usize::try_from(count).ok().and_then(|count| all.get(..count)).ok_or(Refusal::ShortBuffer)
}
