//! Areas to try things on, and their words. The tests of the second look take this file in as well.

use property_area::AreaMut;

/// The little-endian word at a place that counts from the area's first byte.
pub fn word(bytes: &[u8], at: usize) -> u32 {
    u32::from_le_bytes(bytes[at..at + 4].try_into().unwrap())
}

pub fn put(bytes: &mut [u8], at: usize, word: u32) {
    bytes[at..at + 4].copy_from_slice(&word.to_le_bytes());
}

/// A fresh area of so many bytes, whatever the buffer held before.
pub fn fresh(length: usize) -> Vec<u8> {
    let mut bytes = vec![0xee; length];
    AreaMut::format(&mut bytes).unwrap();
    bytes
}

/// A fresh area of so many bytes with these names and values added.
pub fn with(length: usize, pairs: &[(&str, &str)]) -> Vec<u8> {
    let mut bytes = fresh(length);
    let mut area = AreaMut::new(&mut bytes);
    for (name, value) in pairs {
        area.add(name, value).unwrap();
    }
    bytes
}

/// A file at the project's top.
pub fn file(path: &str) -> Vec<u8> {
    std::fs::read(format!("{}/../../{path}", env!("CARGO_MANIFEST_DIR"))).unwrap()
}

/// An area of samples/.
pub fn sample(name: &str) -> Vec<u8> {
    file(&format!("samples/{name}"))
}
