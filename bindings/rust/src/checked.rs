//! An area whose check has accepted.

use std::fmt;

use crate::{Area, Entries, Entry, Found, Refusal};

/// An area that is sound: only [`Area::checked`] and [`Area::checked_with`] make one, where the check has accepted.
///
/// The bytes are borrowed and cannot change, so that it stays sound. Lookups in it are cheap: the nodes that one compares have at most
/// used - 112 bytes, which is proved of sound areas. In bytes that nobody checked, the time of one can grow, for each
/// segment of its name, with the square of their length.
///
/// ```
/// use property_area::{Area, AreaMut, Refusal};
///
/// # fn main() -> Result<(), Refusal> {
/// let mut bytes = [0; 4_096];
/// AreaMut::format(&mut bytes)?.add("inverter.limit", "70")?;
///
/// let area = Area::new(&bytes).checked()?;
/// assert_eq!(area.get("inverter.limit")?, b"70");
/// assert_eq!(area.get("inverter"), Err(Refusal::Missing));
/// # Ok(())
/// # }
/// ```
#[derive(Clone, Copy)]
pub struct Checked<'a> {
    area: Area<'a>,
}

impl<'a> Checked<'a> {
    /// For the two calls that have asked the check.
    pub(crate) const fn accepted(area: Area<'a>) -> Checked<'a> {
        Checked { area }
    }

    /// The area, for calls that take any.
    #[must_use]
    pub const fn area(&self) -> Area<'a> {
        self.area
    }

    /// The area's bytes.
    #[must_use]
    pub const fn bytes(&self) -> &'a [u8] {
        self.area.bytes()
    }

    /// [`Area::find`]: refused with 2 or 3.
    pub fn find(&self, name: impl AsRef<[u8]>) -> Result<Found, Refusal> {
        self.area.find(name)
    }

    /// [`Area::get`]: refused with 2 or 3.
    pub fn get(&self, name: impl AsRef<[u8]>) -> Result<&'a [u8], Refusal> {
        self.area.get(name)
    }

    /// [`Area::entry`]: refused with 2 or 3.
    pub fn entry(&self, name: impl AsRef<[u8]>) -> Result<Entry<'a>, Refusal> {
        self.area.entry(name)
    }

    /// [`Area::value`]: never refused at the offset of an entry.
    pub fn value(&self, entry: u32) -> Result<&'a [u8], Refusal> {
        self.area.value(entry)
    }

    /// [`Area::name`]: never refused at the offset of an entry.
    pub fn name(&self, entry: u32) -> Result<&'a [u8], Refusal> {
        self.area.name(entry)
    }

    /// [`Area::serial`]: never refused at the offset of an entry.
    pub fn serial(&self, entry: u32) -> Result<u32, Refusal> {
        self.area.serial(entry)
    }

    /// [`Area::backup`]: refused with 6 where the buffer has 92 bytes or more.
    pub fn backup(&self, buffer: &mut [u8]) -> Result<(), Refusal> {
        self.area.backup(buffer)
    }

    /// Every entry: [`Area::entries`]. A sound area is never refused, which is proved; the type does not know it.
    pub fn entries(&self) -> Result<Entries<'a>, Refusal> {
        self.area.entries()
    }

    /// The area as text: [`Area::dump`]. A sound area is never refused, as for [`entries`](Checked::entries).
    pub fn dump(&self) -> Result<Vec<u8>, Refusal> {
        self.area.dump()
    }
}

impl fmt::Debug for Checked<'_> {
    fn fmt(&self, f: &mut fmt::Formatter<'_>) -> fmt::Result {
        write!(f, "Checked({} bytes)", self.bytes().len())
    }
}
