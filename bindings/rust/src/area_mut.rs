//! An area over borrowed bytes, to write.

use std::fmt;

use crate::refusal::accepted;
use crate::{ffi, Area, Entries, Entry, Found, Refusal};

/// An area to write: borrowed bytes that nobody else reads or writes meanwhile.
pub struct AreaMut<'a> {
    bytes: &'a mut [u8],
}

impl<'a> AreaMut<'a> {
    /// These bytes, as the area that they hold. Nothing is tested until a call needs it.
    #[must_use]
    pub fn new(bytes: &'a mut [u8]) -> AreaMut<'a> {
        AreaMut { bytes }
    }

    /// Makes the whole buffer a fresh area. Refused with 8 where its length is not 240 to 131,072 bytes, and every byte kept.
    ///
    /// ```
    /// use property_area::{AreaMut, Refusal};
    ///
    /// assert!(AreaMut::format(&mut [0; 240]).is_ok());
    /// assert_eq!(AreaMut::format(&mut [0; 239]).err(), Some(Refusal::BadHeader));
    /// ```
    pub fn format(bytes: &'a mut [u8]) -> Result<AreaMut<'a>, Refusal> {
        accepted(ffi::format(bytes))?;
        Ok(AreaMut { bytes })
    }

    /// The area to read, for as long as this is not written.
    #[must_use]
    pub fn as_area(&self) -> Area<'_> {
        Area::new(self.bytes)
    }

    /// The entry of a dotted name: [`Area::find`].
    pub fn find(&self, name: impl AsRef<[u8]>) -> Result<Found, Refusal> {
        self.as_area().find(name)
    }

    /// The value of a dotted name: [`Area::get`].
    pub fn get(&self, name: impl AsRef<[u8]>) -> Result<&[u8], Refusal> {
        self.as_area().get(name)
    }

    /// The entry of a dotted name, with all that is read of it: [`Area::entry`].
    pub fn entry(&self, name: impl AsRef<[u8]>) -> Result<Entry<'_>, Refusal> {
        self.as_area().entry(name)
    }

    /// The value of the entry at an offset: [`Area::value`].
    pub fn value(&self, entry: u32) -> Result<&[u8], Refusal> {
        self.as_area().value(entry)
    }

    /// The name of the entry at an offset: [`Area::name`].
    pub fn name(&self, entry: u32) -> Result<&[u8], Refusal> {
        self.as_area().name(entry)
    }

    /// The serial of the entry at an offset: [`Area::serial`].
    pub fn serial(&self, entry: u32) -> Result<u32, Refusal> {
        self.as_area().serial(entry)
    }

    /// Fills the buffer from the backup slot: [`Area::backup`].
    pub fn backup(&self, buffer: &mut [u8]) -> Result<(), Refusal> {
        self.as_area().backup(buffer)
    }

    /// Whether the area is sound: [`Area::check`].
    pub fn check(&self) -> Result<(), Refusal> {
        self.as_area().check()
    }

    /// The entries of a sound area: [`Area::entries`].
    pub fn entries(&self) -> Result<Entries<'_>, Refusal> {
        self.as_area().entries()
    }

    /// Adds a name with a value. A name that is there already keeps its value, and that is accepted. Refused with 8, 1, 2; then with 4, 5
    /// or 9, and what has been linked by then stays. Where only a long value found no room, its entry's room is taken all the same, at each
    /// try anew: an add that was refused with 4 is not to be repeated.
    ///
    /// ```
    /// # use property_area::{AreaMut, Refusal};
    /// # fn main() -> Result<(), Refusal> {
    /// let mut bytes = [0; 364];
    /// let mut area = AreaMut::format(&mut bytes)?;
    /// area.add("a", "x")?;
    /// area.add("a", "y")?;
    /// assert_eq!(area.get("a")?, b"x");
    /// assert_eq!(area.add("b", "z"), Err(Refusal::NoRoom));
    /// # Ok(())
    /// # }
    /// ```
    pub fn add(&mut self, name: impl AsRef<[u8]>, value: impl AsRef<[u8]>) -> Result<(), Refusal> {
        accepted(ffi::add(self.bytes, name.as_ref(), value.as_ref()))
    }

    /// Updates the value of a name in place; the old value goes to the backup slot. Refused as [`Area::find`] is; then with 7 (the value
    /// was added as a long one), 6 or 5; and every byte kept.
    ///
    /// ```
    /// # use property_area::{AreaMut, Refusal};
    /// # fn main() -> Result<(), Refusal> {
    /// let mut bytes = [0; 4_096];
    /// let mut area = AreaMut::format(&mut bytes)?;
    /// area.add("limit", "70")?;
    /// area.update("limit", "100")?;
    /// assert_eq!(area.get("limit")?, b"100");
    /// assert_eq!(area.update("limit", [b'9'; 92]), Err(Refusal::TooLong));
    /// # Ok(())
    /// # }
    /// ```
    pub fn update(&mut self, name: impl AsRef<[u8]>, value: impl AsRef<[u8]>) -> Result<(), Refusal> {
        accepted(ffi::update(self.bytes, name.as_ref(), value.as_ref()))
    }

    /// Sets the value of a name: [`update`](AreaMut::update), and where that is refused with 3 [`add`](AreaMut::add).
    ///
    /// A name that is there is updated, also with the value that it has: its serial counts each set. A name that is missing is added, with a
    /// value of 92 bytes or more as a long one, which no later set changes.
    ///
    /// The update's refusals but 3 are given as they are, and every byte kept: 8, 2, 5; then, of a name that is there, 7 (its value is a long
    /// one), 6 (a value of 92 bytes or more), 5. Where it gives 3, the add's refusals are: 1 or 2, and every byte kept; then 4, 5 or 9, and
    /// what has been linked by then stays, as an add's does.
    ///
    /// ```
    /// # use property_area::{AreaMut, Refusal};
    /// # fn main() -> Result<(), Refusal> {
    /// let mut bytes = [0; 4_096];
    /// let mut area = AreaMut::format(&mut bytes)?;
    /// area.set("limit", "70")?;
    /// area.set("limit", "100")?;
    /// assert_eq!(area.get("limit")?, b"100");
    /// assert_eq!(area.set("limit", [b'9'; 92]), Err(Refusal::TooLong));
    ///
    /// area.set("note", [b'n'; 92])?;
    /// assert_eq!(area.set("note", "short"), Err(Refusal::LongEntry));
    /// # Ok(())
    /// # }
    /// ```
    pub fn set(&mut self, name: impl AsRef<[u8]>, value: impl AsRef<[u8]>) -> Result<(), Refusal> {
        let (name, value) = (name.as_ref(), value.as_ref());
        match self.update(name, value) {
            Err(Refusal::Missing) => self.add(name, value),
            done => done,
        }
    }

    /// Stores a backup, then updates the entry at an offset. Refused with 8, 6, 5; then, with the backup stored, with 5, 7, 6.
    ///
    /// Any offset is answered. One that is no entry's may leave the area damaged: [`update`](AreaMut::update) is for whoever has a name.
    ///
    /// ```
    /// # use property_area::{AreaMut, Refusal};
    /// # fn main() -> Result<(), Refusal> {
    /// let mut bytes = [0; 4_096];
    /// let mut area = AreaMut::format(&mut bytes)?;
    /// area.add("limit", "70")?;
    /// let entry = area.find("limit")?.entry;
    /// area.raw_update(entry, "70", "100")?;
    /// assert_eq!(area.value(entry)?, b"100");
    /// # Ok(())
    /// # }
    /// ```
    pub fn raw_update(&mut self, entry: u32, backup: impl AsRef<[u8]>, value: impl AsRef<[u8]>) -> Result<(), Refusal> {
        accepted(ffi::raw_update(self.bytes, entry, backup.as_ref(), value.as_ref()))
    }
}

impl fmt::Debug for AreaMut<'_> {
    fn fmt(&self, f: &mut fmt::Formatter<'_>) -> fmt::Result {
        write!(f, "AreaMut({} bytes)", self.bytes.len())
    }
}
