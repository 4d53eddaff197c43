//! The original, compiled unchanged, behind the ten calls, as RULES mean them.
//!
//! Ported calls are the original's own functions; format and update by name, which RULES add, are put together
//! from its parts. Its errors become the numbers of RULES 9 here. build.rs says how its text gets in.

use calls::{Found, Part, Serial, Side, UNMAPPED};
use errors::Error;
use property_area::{PropertyAreaMap, LONGEST, SHORTEST, SLOT};
use std::cell::Cell;
use std::sync::atomic::Ordering;
use wire::PROP_VALUE_MAX;

include!(concat!(env!("OUT_DIR"), "/modules.rs"));
include!(concat!(env!("OUT_DIR"), "/bionic_align.rs"));

/// property_info.rs takes the constant from here.
mod system_properties {
    pub(crate) use crate::wire::PROP_VALUE_MAX;
}

// What the derive of `thiserror` would write, as far as the included files use it.
impl From<std::io::Error> for Error {
    fn from(error: std::io::Error) -> Self {
        Error::Io(error)
    }
}

impl From<rustix::io::Errno> for Error {
    fn from(error: rustix::io::Errno) -> Self {
        Error::Errno(error)
    }
}

thread_local! {
    static COMPARED: Cell<u64> = const { Cell::new(0) };
}

/// The one statement that the counted copy has more than the original.
fn count_comparison() {
    COMPARED.set(COMPARED.get() + 1);
}

const EMPTY_BUFFER: [u8; PROP_VALUE_MAX] = [0; PROP_VALUE_MAX];
/// An area that holds no root node and backup slot cannot be formatted.
const SHORTEST_FORMATTED: usize = SHORTEST + 112;

/// An error by its number. `InvalidArgument` has another meaning in each call, which therefore says it.
fn number(error: Error, invalid_argument: u32) -> u32 {
    match error {
        Error::Parse(_) => 2,
        Error::NotFound(_) => 3,
        Error::AreaFull(_) => 4,
        Error::FileValidation(_) => 5,
        Error::FileSize(_) => 9,
        Error::InvalidArgument(_) => invalid_argument,
        _ => UNMAPPED,
    }
}

/// Tests length and header (8), then makes the call.
fn on_area<R>(area: &mut [u8], call: impl FnOnce(&mut PropertyAreaMap) -> Result<R, u32>) -> Result<R, u32> {
    if !(SHORTEST..=LONGEST).contains(&area.len()) {
        return Err(8);
    }
    property_area::lend(area, |map| if map.has_header() { call(map) } else { Err(8) })
}

/// Bytes that are no UTF-8 lie outside what can be compared.
fn text(bytes: &[u8]) -> Result<&str, u32> {
    std::str::from_utf8(bytes).map_err(|_| UNMAPPED)
}

fn refusal(answer: Result<(), u32>) -> u32 {
    answer.err().unwrap_or(0)
}

fn update(map: &mut PropertyAreaMap, name: &str, value: &str) -> Result<(), u32> {
    let (info, entry) = map.find(name).map_err(|error| number(error, UNMAPPED))?;
    let serial = info.serial.load(Ordering::Relaxed);
    if info.is_long() {
        return Err(7);
    }
    if value.len() >= PROP_VALUE_MAX {
        return Err(6);
    }
    let mut buffer = EMPTY_BUFFER;
    let old = map.property_value_bytes(entry, &mut buffer).map_err(|error| number(error, UNMAPPED))?.to_vec();
    // The entry is short and the value fits, so an invalid argument is an old value that the backup slot cannot hold.
    map.update_with_serial(entry, serial, &old, value).map_err(|error| number(error, 6))
}

fn raw_update(map: &mut PropertyAreaMap, entry: u32, backup: &[u8], value: &str) -> Result<(), u32> {
    map.backup_and_apply_write(entry, backup, value).map_err(|error| {
        // Nothing is stored after the test for a long entry fails, so that entry is still long.
        let long = backup.len() < PROP_VALUE_MAX && map.property_info(entry).is_ok_and(|info| info.is_long());
        number(error, if long { 7 } else { 6 })
    })
}

/// The value's place and its bytes. A short value is handed out as a copy, a long one as a part of the area at `base`.
fn shown(map: &PropertyAreaMap, entry: u32, base: usize) -> Result<(usize, Vec<u8>), Error> {
    let long = map.property_info(entry)?.is_long();
    let mut buffer = EMPTY_BUFFER;
    let bytes = map.property_value_bytes(entry, &mut buffer)?;
    let start = if long { bytes.as_ptr() as usize - base } else { SLOT + entry as usize };
    Ok((start, bytes.to_vec()))
}

/// The name's place and its length. The original hands it out as a part of the area at `base`.
fn named(map: &PropertyAreaMap, entry: u32, base: usize) -> Result<(usize, usize), Error> {
    let name = map.property_info_name(entry)?.to_bytes();
    Ok((name.as_ptr() as usize - base, name.len()))
}

/// How many nodes the search for a name that is there compares, by the counted copy.
fn compared(area: &mut [u8], name: &str, entry: u32) -> u64 {
    COMPARED.set(0);
    let found = counted_area::lend(area, |map| map.find(name).map(|(_, entry)| entry).ok());
    assert_eq!(found, Some(entry), "the counted copy finds what the original finds");
    COMPARED.get()
}

pub struct Original;

impl Side for Original {
    fn format(&self, area: &mut [u8]) -> u32 {
        if !(SHORTEST_FORMATTED..=LONGEST).contains(&area.len()) {
            return 8;
        }
        area.fill(0);
        refusal(property_area::lend(area, |map| map.init()).map_err(|error| number(error, UNMAPPED)))
    }

    fn find(&self, area: &mut [u8], name: &[u8]) -> Found {
        let found = on_area(area, |map| {
            let name = text(name)?;
            map.find(name).map(|(_, entry)| (name, entry)).map_err(|error| number(error, UNMAPPED))
        });
        match found {
            Ok((name, entry)) => Found { refusal: 0, entry, compared: compared(area, name, entry) },
            Err(refusal) => Found { refusal, ..Found::default() },
        }
    }

    fn value(&self, area: &mut [u8], entry: u32) -> Part {
        let base = area.as_ptr() as usize;
        match on_area(area, |map| shown(map, entry, base).map_err(|error| number(error, UNMAPPED))) {
            Ok((start, bytes)) => {
                assert_eq!(bytes, area[start..start + bytes.len()], "a value is a part of the area");
                Part { refusal: 0, start: start as u32, length: bytes.len() as u64 }
            }
            Err(refusal) => Part { refusal, ..Part::default() },
        }
    }

    fn name(&self, area: &mut [u8], entry: u32) -> Part {
        let base = area.as_ptr() as usize;
        match on_area(area, |map| named(map, entry, base).map_err(|error| number(error, UNMAPPED))) {
            Ok((start, length)) => Part { refusal: 0, start: start as u32, length: length as u64 },
            Err(refusal) => Part { refusal, ..Part::default() },
        }
    }

    fn serial(&self, area: &mut [u8], entry: u32) -> Serial {
        let serial = |map: &mut PropertyAreaMap| map.property_info(entry).map(|info| info.serial.load(Ordering::Relaxed));
        match on_area(area, |map| serial(map).map_err(|error| number(error, UNMAPPED))) {
            Ok(serial) => Serial { refusal: 0, serial },
            Err(refusal) => Serial { refusal, serial: 0 },
        }
    }

    fn add(&self, area: &mut [u8], name: &[u8], value: &[u8]) -> u32 {
        refusal(on_area(area, |map| map.add(text(name)?, text(value)?).map_err(|error| number(error, 1))))
    }

    fn update(&self, area: &mut [u8], name: &[u8], value: &[u8]) -> u32 {
        refusal(on_area(area, |map| update(map, text(name)?, text(value)?)))
    }

    fn raw_update(&self, area: &mut [u8], entry: u32, backup: &[u8], value: &[u8]) -> u32 {
        refusal(on_area(area, |map| raw_update(map, entry, backup, text(value)?)))
    }

    fn backup_read(&self, area: &mut [u8], buffer: &mut [u8]) -> u32 {
        refusal(on_area(area, |map| map.read_dirty_backup(buffer).map_err(|error| number(error, 6))))
    }

    /// Not in the original. RULES 5.10: the difference of positions, (serial mod 65,536) / 2, mod 32,768.
    fn update_distance(&self, earlier: u32, later: u32) -> u32 {
        let position = |serial: u32| i64::from(serial % 65_536 / 2);
        (position(later) - position(earlier)).rem_euclid(32_768) as u32
    }
}
