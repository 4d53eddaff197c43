//! The bindings, held against docs/RULES.md: the settled examples, each refusal, listing, dump, and any bytes.

mod any_bytes;
mod areas;
mod by_hand;
mod checked;
mod dumping;
mod listing;
mod random;
mod refusals;
mod samples;
mod setting;
mod settled;

use areas::{fresh, put, with, word};
use property_area::{Area, AreaMut, Refusal};

/// The word at a place that counts from the data start.
fn data(bytes: &[u8], at: usize) -> u32 {
    word(bytes, 128 + at)
}

/// The second settled example (docs/RULES.md, 11.2).
fn second() -> Vec<u8> {
    with(4_096, &[("ab.c", "12"), ("b", "q")])
}

/// Names and values in listing order, as text.
fn listed(bytes: &[u8]) -> Vec<(String, String)> {
    let text = |bytes: &[u8]| String::from_utf8(bytes.to_vec()).unwrap();
    Area::new(bytes).entries().unwrap().map(|entry| (text(entry.name), text(entry.value))).collect()
}

fn refused<T>(answer: Result<T, Refusal>) -> u32 {
    answer.err().map_or(0, Refusal::number)
}

/// The number that a call on an area is refused with, where it leaves every byte.
fn kept(bytes: &mut [u8], call: impl FnOnce(&mut AreaMut) -> Result<(), Refusal>) -> u32 {
    let before = bytes.to_vec();
    let number = refused(call(&mut AreaMut::new(bytes)));
    assert_eq!(bytes, before);
    number
}
