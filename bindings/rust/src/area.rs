//! An area over borrowed bytes, to read: lookups. Check, listing and dump, which go through the whole area, are in audit.rs.

use std::fmt;

use crate::refusal::{accepted, Refusal};
use crate::{ffi, Entry};

/// An area to read: any borrowed bytes. Nothing is tested until a call needs it.
///
/// ```
/// use property_area::{Area, Refusal};
///
/// assert_eq!(Area::new(b"no area").get("a"), Err(Refusal::BadHeader));
/// ```
#[derive(Clone, Copy)]
pub struct Area<'a> {
    bytes: &'a [u8],
}

/// What [`Area::find`] answers.
#[derive(Clone, Copy, Debug, PartialEq, Eq, Hash)]
pub struct Found {
    /// The entry's offset, from byte 128 of the area.
    pub entry: u32,
    /// How many nodes were compared, over all segments of the name.
    pub compared: u64,
}

impl<'a> Area<'a> {
    /// These bytes, as an area.
    #[must_use]
    pub const fn new(bytes: &'a [u8]) -> Area<'a> {
        Area { bytes }
    }

    /// The area's bytes.
    #[must_use]
    pub const fn bytes(&self) -> &'a [u8] {
        self.bytes
    }

    /// The entry of a dotted name. Refused with 8; then, for each segment in turn, with 2, 5 or 3.
    ///
    /// ```
    /// # use property_area::{AreaMut, Found, Refusal};
    /// # fn main() -> Result<(), Refusal> {
    /// let mut bytes = [0; 4_096];
    /// let mut area = AreaMut::format(&mut bytes)?;
    /// area.add("ab.c", "12")?;
    /// assert_eq!(area.find("ab.c"), Ok(Found { entry: 160, compared: 2 }));
    /// assert_eq!(area.find("ab."), Err(Refusal::EmptySegment));
    /// # Ok(())
    /// # }
    /// ```
    pub fn find(&self, name: impl AsRef<[u8]>) -> Result<Found, Refusal> {
        let ffi::Found { refusal, entry, compared } = ffi::find(self.bytes, name.as_ref());
        accepted(refusal)?;
        Ok(Found { entry, compared })
    }

    /// The value of the entry at an offset, a part of the area itself, up to its first zero. Refused with 8 or 5.
    ///
    /// Any offset is answered; one that [`find`](Area::find) or a listing gave leads to an entry.
    pub fn value(&self, entry: u32) -> Result<&'a [u8], Refusal> {
        self.part(&ffi::value(self.bytes, entry))
    }

    /// The value of a dotted name: [`find`](Area::find), then [`value`](Area::value).
    ///
    /// ```
    /// # use property_area::{AreaMut, Refusal};
    /// # fn main() -> Result<(), Refusal> {
    /// let mut bytes = [0; 4_096];
    /// let mut area = AreaMut::format(&mut bytes)?;
    /// area.add("pulses", "0")?;
    /// assert_eq!(area.get("pulses")?, b"0");
    /// assert_eq!(area.get("pulse"), Err(Refusal::Missing));
    /// # Ok(())
    /// # }
    /// ```
    pub fn get(&self, name: impl AsRef<[u8]>) -> Result<&'a [u8], Refusal> {
        self.value(self.find(name)?.entry)
    }

    /// The entry of a dotted name, with all that is read of it: [`find`](Area::find), then name, value and serial. Refused as these are.
    ///
    /// ```
    /// # use property_area::{AreaMut, Refusal};
    /// # fn main() -> Result<(), Refusal> {
    /// let mut bytes = [0; 4_096];
    /// let mut area = AreaMut::format(&mut bytes)?;
    /// area.add("pulses", "41")?;
    /// let before = area.entry("pulses")?.serial;
    /// area.update("pulses", "42")?;
    /// let now = area.entry("pulses")?;
    /// assert_eq!((now.value, now.updates(before)), (&b"42"[..], 1));
    /// # Ok(())
    /// # }
    /// ```
    pub fn entry(&self, name: impl AsRef<[u8]>) -> Result<Entry<'a>, Refusal> {
        self.entry_at(self.find(name)?.entry)
    }

    /// What is read of the entry at an offset that find or a listing gave.
    pub(crate) fn entry_at(&self, offset: u32) -> Result<Entry<'a>, Refusal> {
        Ok(Entry { offset, name: self.name(offset)?, value: self.value(offset)?, serial: self.serial(offset)? })
    }

    /// The whole dotted name of the entry at an offset, a part of the area itself. Refused with 8 or 5.
    ///
    /// Any offset is answered, as for [`value`](Area::value).
    pub fn name(&self, entry: u32) -> Result<&'a [u8], Refusal> {
        self.part(&ffi::name(self.bytes, entry))
    }

    /// The serial of the entry at an offset. Refused with 8 or 5.
    ///
    /// Bit 0: a write was begun and not ended. Bits 1 to 15 count updates: [`update_distance`](crate::update_distance) tells how many lie
    /// between two serials. Bit 16: the value is long. Bits 17 to 23 stay as they are. The top byte: the length that was last written,
    /// which no call reads or checks; how long a value is, [`value`](Area::value) says.
    ///
    /// ```
    /// # use property_area::{update_distance, AreaMut, Refusal};
    /// # fn main() -> Result<(), Refusal> {
    /// let mut bytes = [0; 4_096];
    /// let mut area = AreaMut::format(&mut bytes)?;
    /// area.add("pulses", "41")?;
    /// let entry = area.find("pulses")?.entry;
    /// let earlier = area.serial(entry)?;
    /// area.update("pulses", "42")?;
    /// area.update("pulses", "43")?;
    /// assert_eq!(update_distance(earlier, area.serial(entry)?), 2);
    /// # Ok(())
    /// # }
    /// ```
    pub fn serial(&self, entry: u32) -> Result<u32, Refusal> {
        let ffi::Serial { refusal, serial } = ffi::serial(self.bytes, entry);
        accepted(refusal)?;
        Ok(serial)
    }

    /// Fills the buffer with the first bytes of the backup slot, where an update keeps the value that it replaces. Refused with 8, 6
    /// (a buffer of 92 bytes or more) or 5, and the buffer kept.
    ///
    /// ```
    /// # use property_area::{AreaMut, Refusal};
    /// # fn main() -> Result<(), Refusal> {
    /// let mut bytes = [0; 4_096];
    /// let mut area = AreaMut::format(&mut bytes)?;
    /// area.add("pulses", "41")?;
    /// area.update("pulses", "42")?;
    /// let mut before = [0; 3];
    /// area.backup(&mut before)?;
    /// assert_eq!(&before, b"41\0");
    /// # Ok(())
    /// # }
    /// ```
    pub fn backup(&self, buffer: &mut [u8]) -> Result<(), Refusal> {
        accepted(ffi::backup_read(self.bytes, buffer))
    }

    /// The part of the area that an answer names.
    fn part(&self, answer: &ffi::Part) -> Result<&'a [u8], Refusal> {
        accepted(answer.refusal)?;
        // An accepted part lies in the area, which is proved; nothing here relies on it.
        within(self.bytes, answer.start, answer.length).ok_or(Refusal::Damaged)
    }
}

impl fmt::Debug for Area<'_> {
    fn fmt(&self, f: &mut fmt::Formatter<'_>) -> fmt::Result {
        write!(f, "Area({} bytes)", self.bytes.len())
    }
}

/// So many bytes from a place on; none where they do not lie in these bytes.
fn within(bytes: &[u8], start: u32, length: u64) -> Option<&[u8]> {
    bytes.get(usize::try_from(start).ok()?..)?.get(..usize::try_from(length).ok()?)
}
