//! Android property areas from Rust: a thin binding of `libcapi.a`, whose every call is proved.
//!
//! An area is a byte buffer of 128 to 131,072 bytes with a trie of dotted names and an entry for each name. Every call here answers for
//! any bytes, with a result or with a [`Refusal`] that has a number; none of them panics.
//!
//! ```text
//!  &mut [u8] --AreaMut::format--> AreaMut --set, add, update, raw_update--> the bytes are changed
//!  &mut [u8] --AreaMut::new----->    |
//!                                 as_area (AreaMut has the common reads itself)
//!                                    v
//!  &[u8] -------Area::new------->  Area --checked--> Checked: it is sound, and its lookups are cheap; the same reads
//!                                    |
//!                                    |--find--> Found { entry, .. } --value, name--> &[u8], a part of the area
//!                                    |                |----serial--> u32 --update_distance--> how many updates
//!                                    |--get--> &[u8], the value of a name
//!                                    |--entry--> Entry { offset, name, value, serial }, of a name
//!                                    |--check---> sound, or a refusal
//!                                    |--entries--> Entry { .. }, Entry { .. }, ..
//!                                    |--dump----> the same as text
//!                                    +--backup--> what stood in an entry before the last update
//! ```
//!
//! # Example
//!
//! ```
//! use property_area::{Area, AreaMut, Refusal};
//!
//! # fn main() -> Result<(), Refusal> {
//! let mut bytes = [0; 4_096];
//! let mut area = AreaMut::format(&mut bytes)?;
//! area.set("inverter.limit", "70")?;
//! area.set("grid", "on")?;
//! let earlier = area.serial(area.find("inverter.limit")?.entry)?;
//! area.set("inverter.limit", "100")?;
//! assert_eq!(area.get("inverter.limit")?, b"100");
//! assert_eq!(area.get("inverter"), Err(Refusal::Missing));
//!
//! // Bytes that somebody else wrote are checked first.
//! let area = Area::new(&bytes).checked()?;
//! assert_eq!(area.get("grid")?, b"on");
//! let limit = area.entries()?.find(|entry| entry.name == b"inverter.limit").ok_or(Refusal::Missing)?;
//! assert_eq!((limit.value, limit.updates(earlier)), (&b"100"[..], 1));
//! # Ok(())
//! # }
//! ```
//!
//! # What is proved, and what is not
//!
//! What a call answers and every byte that it leaves is proved of the archive (README.md at the project's top says where). Not proved is the
//! passage from slices to C (the module `ffi`, the only one with `unsafe`). The rest of this crate puts proved calls together, a line or two
//! each: `get` is `find` and `value`; `entry` and `entries` read name, value and serial at an offset that was found or listed; `set` is
//! `update` or `add`; [`Entry::is_long`] and [`Entry::is_odd`] look at one bit.
//!
//! # What is asked of the caller
//!
//! Nobody else writes the bytes during a call: they are borrowed as Rust means it. A mapping that another process may write is copied first.
//!
//! Bytes that nobody vouches for are checked first: [`Area::checked`] (listing and dump do it themselves). Every call ends on any bytes, but
//! in a damaged area the time of one lookup can grow, for each segment of its name, with the square of the length; in a sound one the nodes
//! that it compares have at most used - 112 bytes. The check's time grows with the length, as measured.

#![deny(clippy::unwrap_used, clippy::expect_used, clippy::panic, clippy::indexing_slicing, clippy::arithmetic_side_effects)]
#![warn(clippy::pedantic)]
// Each call's own text says which numbers it is refused with, and in which order: a section `# Errors` would say it again.
#![allow(clippy::missing_errors_doc)]

mod area;
mod area_mut;
mod audit;
mod checked;
mod entries;
mod ffi;
mod refusal;
mod sizes;

pub use area::{Area, Found};
pub use area_mut::AreaMut;
pub use checked::Checked;
pub use entries::{Entries, Entry};
pub use refusal::{Refusal, Unlisted};
pub use sizes::{places, room_len, scratch_len, AREA_MAX};

/// How many updates lie between two serials of one entry, the earlier first: k updates are distance k, with k below 32,768.
///
/// From there on it goes round: 32,768 updates look like none. Whoever counts by it reads a counter at least once in 32,767 updates. The
/// serials are of a short entry, since a long one cannot be updated, and even, since an odd one is of a write that was not ended:
/// [`Area::serial`] reads them.
///
/// ```
/// assert_eq!(property_area::update_distance(0x0102_fffe, 0x0102_0000), 1);
/// ```
#[must_use]
pub fn update_distance(earlier: u32, later: u32) -> u32 {
    ffi::update_distance(earlier, later)
}
