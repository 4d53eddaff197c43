//! The original, compiled unchanged by the oracle's build script, with its map open: it is set up once, and each call here
//! is the original's own, without what the oracle does around one (header test, UTF-8 test, counted copy, copies of values).

use property_area::PropertyAreaMap;
use wire::PROP_VALUE_MAX;

include!(concat!(env!("OUT_DIR"), "/modules.rs"));
include!(concat!(env!("OUT_DIR"), "/bionic_align.rs"));

/// property_info.rs takes the constant from here.
mod system_properties {
    pub(crate) use crate::wire::PROP_VALUE_MAX;
}

// What the derive of `thiserror` would write, as far as the included files use it.
impl From<std::io::Error> for errors::Error {
    fn from(error: std::io::Error) -> Self {
        errors::Error::Io(error)
    }
}

impl From<rustix::io::Errno> for errors::Error {
    fn from(error: rustix::io::Errno) -> Self {
        errors::Error::Errno(error)
    }
}

/// The build script also makes the counted copy, which calls this. It is not used here.
fn count_comparison() {}

/// The original's map over lent bytes, and the array into which it copies short values.
pub struct Map<'a> {
    map: &'a mut PropertyAreaMap,
    buffer: [u8; PROP_VALUE_MAX],
}

/// Lends a map over `area`, which begins at a multiple of 4, to `call`.
pub fn lend<R>(area: &mut [u8], call: impl FnOnce(&mut Map) -> R) -> R {
    property_area::lend(area, |map| call(&mut Map { map, buffer: [0; PROP_VALUE_MAX] }))
}

impl Map<'_> {
    /// `find`: the entry's offset.
    pub fn find(&self, name: &str) -> Option<u32> {
        self.map.find(name).ok().map(|(_, entry)| entry)
    }

    /// `property_value_bytes`: the value, copied into the buffer where it is short.
    pub fn value(&mut self, entry: u32) -> Option<&[u8]> {
        self.map.property_value_bytes(entry, &mut self.buffer).ok()
    }

    /// `add`: whether it is accepted.
    pub fn add(&mut self, name: &str, value: &str) -> bool {
        self.map.add(name, value).is_ok()
    }

    /// `find`, then what `SystemProperties::update` does in the area: the tests, the old value into an array on the stack,
    /// `backup_and_apply_write`. Whether it is accepted.
    pub fn update(&mut self, name: &str, value: &str) -> bool {
        let Ok((info, entry)) = self.map.find(name) else {
            return false;
        };
        if info.is_long() || value.len() >= PROP_VALUE_MAX {
            return false;
        }
        let mut old = [0; PROP_VALUE_MAX];
        let Ok(length) = self.map.property_value_bytes(entry, &mut old).map(<[u8]>::len) else {
            return false;
        };
        self.map.backup_and_apply_write(entry, &old[..length], value).is_ok()
    }
}
