//! One change at a time, each that there is of a kind: of a small area nothing that the rules look at is left out.

use property_area::Refusal;

use crate::look::Kind;
use crate::ways::sound;
use crate::{agreed, areas::sample, look, put, word};

/// How the check has answered.
#[derive(Default)]
struct Answers {
    sound: usize,
    damaged: usize,
    no_area: usize,
}

impl Answers {
    fn ask(&mut self, bytes: &[u8]) {
        *(match agreed(bytes) {
            Ok(()) => &mut self.sound,
            Err(Refusal::Damaged) => &mut self.damaged,
            Err(Refusal::BadHeader) => &mut self.no_area,
            Err(why) => panic!("{why}"),
        }) += 1;
    }
}

/// Where the used part ends.
fn used(bytes: &[u8]) -> usize {
    128 + word(bytes, 0) as usize
}

/// The words at which the look sees a link, with the one that leads to a long value.
fn links(bytes: &[u8]) -> Vec<usize> {
    let words = look(bytes).objects.into_iter().flat_map(|object| match object.kind {
        Kind::Root(node) | Kind::Node(node) => node.links().map(|(_, link)| link.at).to_vec(),
        Kind::Entry(entry) => entry.far.map(|far| far.at).into_iter().collect(),
        _ => Vec::new(),
    });
    words.collect()
}

#[test]
fn every_byte_of_the_used_part() {
    let mut bytes = sound();
    let mut answers = Answers::default();
    for at in 0..used(&bytes) {
        let before = bytes[at];
        for byte in [0, 1, 2, 3, 4, 16, 24, b'.', b'a', b'b', b'x', b'z', 0x7f, 0x80, 0xfc, 0xff] {
            bytes[at] = byte;
            answers.ask(&bytes);
        }
        bytes[at] = before;
    }
    assert!(answers.sound > 5_000 && answers.damaged > 1_000 && answers.no_area > 100);
}

/// Asks with a word set to each of these numbers.
fn each(bytes: &mut [u8], at: usize, numbers: impl Iterator<Item = u32>) {
    let before = word(bytes, at);
    for number in numbers {
        put(bytes, at, number);
        let _ = agreed(bytes);
    }
    put(bytes, at, before);
}

#[test]
fn every_link() {
    for (mut bytes, count) in [(sound(), 25), (sample("small.area"), 17)] {
        let (links, length) = (links(&bytes), bytes.len() as u32);
        assert_eq!(links.len(), count);
        for at in links {
            each(&mut bytes, at, (0..=length).step_by(4));
        }
    }
}

/// The used mark, and the root's and each node's namelen.
#[test]
fn every_used_mark_and_namelen() {
    let mut bytes = sound();
    for at in [0, 128, 128 + 112, 128 + 136, 128 + 264, 128 + 388, 128 + 708] {
        each(&mut bytes, at, 0..=1_024);
    }
}

#[test]
fn every_length() {
    let (bytes, mut answers) = (sound(), Answers::default());
    for length in 0..=bytes.len() {
        answers.ask(&bytes[..length]);
    }
    // Too short for a header; for what is used; and for nothing.
    let used = used(&bytes);
    assert_eq!((answers.no_area, answers.damaged, answers.sound), (128, used - 128, bytes.len() - used + 1));
}
