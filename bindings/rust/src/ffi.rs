//! The calls of `bindings/c/property_area.h` over slices: the only module with `unsafe`.
//!
//! The archive asks two things of its caller, and every call below gives them:
//!
//! - Each pointer leads to as many bytes (in a list: words, aligned to 4) as the length beside it says. Both are taken from one slice,
//!   in one expression. A slice of nothing has a pointer, too, which is not NULL and leads to 0 bytes: NULL is never needed.
//! - A buffer that a call writes overlaps no other buffer of that call. It is a `&mut` slice, and Rust lends no byte of it to another
//!   argument meanwhile.
//!
//! It gives back what Rust asks: it reads and writes nothing else, writes only through `*mut`, leaves bytes and words (all of whose
//! values are valid), keeps no pointer (it has no memory of its own), and does not unwind.

#![allow(unsafe_code)]

/// `pa_found`.
#[repr(C)]
pub struct Found {
    pub refusal: u32,
    pub entry: u32,
    pub compared: u64,
}

/// `pa_part`.
#[repr(C)]
pub struct Part {
    pub refusal: u32,
    pub start: u32,
    pub length: u64,
}

/// `pa_serial_answer`.
#[repr(C)]
pub struct Serial {
    pub refusal: u32,
    pub serial: u32,
}

/// `pa_count`.
#[repr(C)]
pub struct Count {
    pub refusal: u32,
    pub count: u32,
}

type Bytes = *const u8;
type BytesMut = *mut u8;

// Separate from oracle/archive/src/lib.rs on purpose: this crate stands alone, and the tests of each hold it against the archive.
extern "C" {
    fn pa_format(area: BytesMut, area_len: usize) -> u32;
    fn pa_find(area: Bytes, area_len: usize, name: Bytes, name_len: usize) -> Found;
    fn pa_value(area: Bytes, area_len: usize, entry: u32) -> Part;
    fn pa_name(area: Bytes, area_len: usize, entry: u32) -> Part;
    fn pa_serial(area: Bytes, area_len: usize, entry: u32) -> Serial;
    fn pa_add(area: BytesMut, area_len: usize, name: Bytes, name_len: usize, value: Bytes, value_len: usize) -> u32;
    fn pa_update(area: BytesMut, area_len: usize, name: Bytes, name_len: usize, value: Bytes, value_len: usize) -> u32;
    #[rustfmt::skip]
    fn pa_raw_update(
        area: BytesMut,
        area_len: usize,
        entry: u32,
        backup: Bytes,
        backup_len: usize,
        value: Bytes,
        value_len: usize,
    ) -> u32;
    fn pa_backup_read(area: Bytes, area_len: usize, buffer: BytesMut, buffer_len: usize) -> u32;
    fn pa_check(area: Bytes, area_len: usize, scratch: BytesMut, scratch_len: usize) -> u32;
    fn pa_list(area: Bytes, area_len: usize, scratch: BytesMut, scratch_len: usize, list: *mut u32, places: usize) -> Count;
    #[rustfmt::skip]
    fn pa_dump(
        area: Bytes,
        area_len: usize,
        scratch: BytesMut,
        scratch_len: usize,
        list: *mut u32,
        places: usize,
        room: BytesMut,
        room_len: usize,
    ) -> Count;
    fn pa_update_distance(earlier: u32, later: u32) -> u32;
}

pub fn format(area: &mut [u8]) -> u32 {
    // SAFETY: pointer and length are the slice's own; it is the only buffer.
    unsafe { pa_format(area.as_mut_ptr(), area.len()) }
}

pub fn find(area: &[u8], name: &[u8]) -> Found {
    // SAFETY: pointers and lengths are the slices' own; nothing is written, so that the two may overlap.
    unsafe { pa_find(area.as_ptr(), area.len(), name.as_ptr(), name.len()) }
}

pub fn value(area: &[u8], entry: u32) -> Part {
    // SAFETY: pointer and length are the slice's own; nothing is written. Any offset is allowed.
    unsafe { pa_value(area.as_ptr(), area.len(), entry) }
}

pub fn name(area: &[u8], entry: u32) -> Part {
    // SAFETY: as for `value`.
    unsafe { pa_name(area.as_ptr(), area.len(), entry) }
}

pub fn serial(area: &[u8], entry: u32) -> Serial {
    // SAFETY: as for `value`.
    unsafe { pa_serial(area.as_ptr(), area.len(), entry) }
}

pub fn add(area: &mut [u8], name: &[u8], value: &[u8]) -> u32 {
    // SAFETY: pointers and lengths are the slices' own; `area`, which is written, is borrowed apart from the other two.
    unsafe { pa_add(area.as_mut_ptr(), area.len(), name.as_ptr(), name.len(), value.as_ptr(), value.len()) }
}

pub fn update(area: &mut [u8], name: &[u8], value: &[u8]) -> u32 {
    // SAFETY: as for `add`.
    unsafe { pa_update(area.as_mut_ptr(), area.len(), name.as_ptr(), name.len(), value.as_ptr(), value.len()) }
}

pub fn raw_update(area: &mut [u8], entry: u32, backup: &[u8], value: &[u8]) -> u32 {
    // SAFETY: as for `add`. Any offset is allowed.
    unsafe { pa_raw_update(area.as_mut_ptr(), area.len(), entry, backup.as_ptr(), backup.len(), value.as_ptr(), value.len()) }
}

pub fn backup_read(area: &[u8], buffer: &mut [u8]) -> u32 {
    // SAFETY: pointers and lengths are the slices' own; `buffer`, which is written, is borrowed apart from `area`.
    unsafe { pa_backup_read(area.as_ptr(), area.len(), buffer.as_mut_ptr(), buffer.len()) }
}

pub fn check(area: &[u8], scratch: &mut [u8]) -> u32 {
    // SAFETY: pointers and lengths are the slices' own; `scratch`, which is written, is borrowed apart from `area`.
    unsafe { pa_check(area.as_ptr(), area.len(), scratch.as_mut_ptr(), scratch.len()) }
}

pub fn list(area: &[u8], scratch: &mut [u8], list: &mut [u32]) -> Count {
    // SAFETY: pointers and lengths are the slices' own, the list's in words and aligned as words are; `scratch` and `list`, which are
    // written, are borrowed apart from each other and from `area`.
    unsafe { pa_list(area.as_ptr(), area.len(), scratch.as_mut_ptr(), scratch.len(), list.as_mut_ptr(), list.len()) }
}

pub fn dump(area: &[u8], scratch: &mut [u8], list: &mut [u32], room: &mut [u8]) -> Count {
    let (bytes, work) = ((area.as_ptr(), area.len()), (scratch.as_mut_ptr(), scratch.len()));
    let (places, text) = ((list.as_mut_ptr(), list.len()), (room.as_mut_ptr(), room.len()));
    // SAFETY: as for `list`; `room`, which is written, is borrowed apart from the other three.
    unsafe { pa_dump(bytes.0, bytes.1, work.0, work.1, places.0, places.1, text.0, text.1) }
}

pub fn update_distance(earlier: u32, later: u32) -> u32 {
    // SAFETY: two numbers, of any value; no memory.
    unsafe { pa_update_distance(earlier, later) }
}
