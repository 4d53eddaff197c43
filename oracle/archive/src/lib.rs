//! The proved archive behind the ten calls, and behind check, listing and dump: bindings/c/property_area.h, seen from Rust.

use calls::{Audit, Count, Found, Part, Serial, Side};

/// What C sees of a slice: a pointer and a number of bytes.
type Bytes = *const u8;
type BytesMut = *mut u8;

// Separate from bindings/rust/src/ffi.rs on purpose: that crate stands alone, and the tests of each hold it against the archive.
extern "C" {
    fn pa_format(area: BytesMut, area_len: usize) -> u32;
    fn pa_find(area: Bytes, area_len: usize, name: Bytes, name_len: usize) -> Found;
    fn pa_value(area: Bytes, area_len: usize, entry: u32) -> Part;
    fn pa_name(area: Bytes, area_len: usize, entry: u32) -> Part;
    fn pa_serial(area: Bytes, area_len: usize, entry: u32) -> Serial;
    fn pa_add(area: BytesMut, area_len: usize, name: Bytes, name_len: usize, value: Bytes, value_len: usize) -> u32;
    fn pa_update(area: BytesMut, area_len: usize, name: Bytes, name_len: usize, value: Bytes, value_len: usize) -> u32;
    #[rustfmt::skip]
    fn pa_raw_update(
        area: BytesMut,
        area_len: usize,
        entry: u32,
        backup: Bytes,
        backup_len: usize,
        value: Bytes,
        value_len: usize,
    ) -> u32;
    fn pa_backup_read(area: Bytes, area_len: usize, buffer: BytesMut, buffer_len: usize) -> u32;
    fn pa_update_distance(earlier: u32, later: u32) -> u32;
    fn pa_check(area: Bytes, area_len: usize, scratch: BytesMut, scratch_len: usize) -> u32;
    fn pa_list(area: Bytes, area_len: usize, scratch: BytesMut, scratch_len: usize, list: *mut u32, places: usize) -> Count;
    #[rustfmt::skip]
    fn pa_dump(
        area: Bytes,
        area_len: usize,
        scratch: BytesMut,
        scratch_len: usize,
        list: *mut u32,
        places: usize,
        room: BytesMut,
        room_len: usize,
    ) -> Count;
}

/// A slice of no bytes goes out as NULL: the archive says that this is allowed.
fn start(bytes: &[u8]) -> Bytes {
    if bytes.is_empty() {
        std::ptr::null()
    } else {
        bytes.as_ptr()
    }
}

fn start_mut<T>(lent: &mut [T]) -> *mut T {
    if lent.is_empty() {
        std::ptr::null_mut()
    } else {
        lent.as_mut_ptr()
    }
}

pub struct Archive;

// SAFETY, of every call below: each pointer leads to as many bytes (in a list: words) as the length beside it says, NULL goes with
// length 0, and Rust's borrows see to it that what is written overlaps nothing else. The archive asks for no more.
impl Side for Archive {
    fn format(&self, area: &mut [u8]) -> u32 {
        unsafe { pa_format(start_mut(area), area.len()) }
    }

    fn find(&self, area: &mut [u8], name: &[u8]) -> Found {
        unsafe { pa_find(start(area), area.len(), start(name), name.len()) }
    }

    fn value(&self, area: &mut [u8], entry: u32) -> Part {
        unsafe { pa_value(start(area), area.len(), entry) }
    }

    fn name(&self, area: &mut [u8], entry: u32) -> Part {
        unsafe { pa_name(start(area), area.len(), entry) }
    }

    fn serial(&self, area: &mut [u8], entry: u32) -> Serial {
        unsafe { pa_serial(start(area), area.len(), entry) }
    }

    fn add(&self, area: &mut [u8], name: &[u8], value: &[u8]) -> u32 {
        unsafe { pa_add(start_mut(area), area.len(), start(name), name.len(), start(value), value.len()) }
    }

    fn update(&self, area: &mut [u8], name: &[u8], value: &[u8]) -> u32 {
        unsafe { pa_update(start_mut(area), area.len(), start(name), name.len(), start(value), value.len()) }
    }

    fn raw_update(&self, area: &mut [u8], entry: u32, backup: &[u8], value: &[u8]) -> u32 {
        unsafe { pa_raw_update(start_mut(area), area.len(), entry, start(backup), backup.len(), start(value), value.len()) }
    }

    fn backup_read(&self, area: &mut [u8], buffer: &mut [u8]) -> u32 {
        unsafe { pa_backup_read(start(area), area.len(), start_mut(buffer), buffer.len()) }
    }

    fn update_distance(&self, earlier: u32, later: u32) -> u32 {
        unsafe { pa_update_distance(earlier, later) }
    }
}

impl Audit for Archive {
    fn check(&self, area: &mut [u8], scratch: &mut [u8]) -> u32 {
        unsafe { pa_check(start(area), area.len(), start_mut(scratch), scratch.len()) }
    }

    fn list(&self, area: &mut [u8], scratch: &mut [u8], list: &mut [u32]) -> Count {
        unsafe { pa_list(start(area), area.len(), start_mut(scratch), scratch.len(), start_mut(list), list.len()) }
    }

    fn dump(&self, area: &mut [u8], scratch: &mut [u8], list: &mut [u32], room: &mut [u8]) -> Count {
        let (bytes, places, text) = (scratch.len(), list.len(), room.len());
        let (scratch, list, room) = (start_mut(scratch), start_mut(list), start_mut(room));
        unsafe { pa_dump(start(area), area.len(), scratch, bytes, list, places, room, text) }
    }
}
