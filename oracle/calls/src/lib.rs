//! The calls that are compared, as two interfaces: the ten that the original is held against; and check, listing and dump.
//!
//! A side is whatever answers them: the original, the proved archive, the plain twin, a twin broken on purpose.
//! Numbers are those of RULES 9: 0 is accepted, any other is a refusal. Offsets of entries count from byte 128.

/// Answer of find. Where refused the rest is 0.
#[repr(C)]
#[derive(Clone, Copy, Debug, Default, PartialEq, Eq)]
pub struct Found {
    pub refusal: u32,
    pub entry: u32,
    /// Nodes compared over all segments.
    pub compared: u64,
}

/// Answer of value and of name: it is `area[start .. start + length]`. Where refused the rest is 0.
#[repr(C)]
#[derive(Clone, Copy, Debug, Default, PartialEq, Eq)]
pub struct Part {
    pub refusal: u32,
    pub start: u32,
    pub length: u64,
}

/// Answer of serial. Where refused the serial is 0.
#[repr(C)]
#[derive(Clone, Copy, Debug, Default, PartialEq, Eq)]
pub struct Serial {
    pub refusal: u32,
    pub serial: u32,
}

/// Answer of listing, and of dump: entries, or bytes of the text. Where refused the count is 0.
#[repr(C)]
#[derive(Clone, Copy, Debug, Default, PartialEq, Eq)]
pub struct Count {
    pub refusal: u32,
    pub count: u32,
}

/// Not in RULES: the call ended in an error that stands for no refusal.
pub const UNMAPPED: u32 = 254;
/// Not in RULES: the call panicked.
pub const PANICKED: u32 = 255;

/// The ten calls. Every one is lent the area for writing, also those that only read: the original looks at an area
/// through atomics, which a shared slice does not allow, and a reading call that wrote would be noticed.
pub trait Side {
    fn format(&self, area: &mut [u8]) -> u32;
    fn find(&self, area: &mut [u8], name: &[u8]) -> Found;
    fn value(&self, area: &mut [u8], entry: u32) -> Part;
    fn name(&self, area: &mut [u8], entry: u32) -> Part;
    fn serial(&self, area: &mut [u8], entry: u32) -> Serial;
    fn add(&self, area: &mut [u8], name: &[u8], value: &[u8]) -> u32;
    fn update(&self, area: &mut [u8], name: &[u8], value: &[u8]) -> u32;
    fn raw_update(&self, area: &mut [u8], entry: u32, backup: &[u8], value: &[u8]) -> u32;
    fn backup_read(&self, area: &mut [u8], buffer: &mut [u8]) -> u32;
    fn update_distance(&self, earlier: u32, later: u32) -> u32;
}

/// Check, listing and dump, which the original does not have. They are lent the area for writing too, so that a store would be noticed.
pub trait Audit {
    fn check(&self, area: &mut [u8], scratch: &mut [u8]) -> u32;
    fn list(&self, area: &mut [u8], scratch: &mut [u8], list: &mut [u32]) -> Count;
    fn dump(&self, area: &mut [u8], scratch: &mut [u8], list: &mut [u32], room: &mut [u8]) -> Count;
}
