//! The same calls with names and values that are no UTF-8. The original takes text, so these are tried between our own sides.

use calls::{Found, Part, Serial, Side};

/// A side that is given other bytes than the case says. Dots and zeros stay, so names keep their segments; a letter becomes
/// a byte from 128 on, and the bytes of a longer character become letters, zeros or dots.
pub struct OtherBytes<'a>(pub &'a (dyn Side + Sync));

fn other(text: &[u8]) -> Vec<u8> {
    text.iter().map(|&byte| if byte == b'.' || byte == 0 { byte } else { byte ^ 0x80 }).collect()
}

impl Side for OtherBytes<'_> {
    fn format(&self, area: &mut [u8]) -> u32 {
        self.0.format(area)
    }
    fn find(&self, area: &mut [u8], name: &[u8]) -> Found {
        self.0.find(area, &other(name))
    }
    fn value(&self, area: &mut [u8], entry: u32) -> Part {
        self.0.value(area, entry)
    }
    fn name(&self, area: &mut [u8], entry: u32) -> Part {
        self.0.name(area, entry)
    }
    fn serial(&self, area: &mut [u8], entry: u32) -> Serial {
        self.0.serial(area, entry)
    }
    fn add(&self, area: &mut [u8], name: &[u8], value: &[u8]) -> u32 {
        self.0.add(area, &other(name), &other(value))
    }
    fn update(&self, area: &mut [u8], name: &[u8], value: &[u8]) -> u32 {
        self.0.update(area, &other(name), &other(value))
    }
    fn raw_update(&self, area: &mut [u8], entry: u32, backup: &[u8], value: &[u8]) -> u32 {
        self.0.raw_update(area, entry, backup, &other(value))
    }
    fn backup_read(&self, area: &mut [u8], buffer: &mut [u8]) -> u32 {
        self.0.backup_read(area, buffer)
    }
    fn update_distance(&self, earlier: u32, later: u32) -> u32 {
        self.0.update_distance(earlier, later)
    }
}
