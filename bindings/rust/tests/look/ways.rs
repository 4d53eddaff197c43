//! The area of crates/unsound, and its ways of being unsound: the look says of each what stands in ways.out.

use property_area::{Area, Refusal};

use crate::areas::file;
use crate::look::Broken;
use crate::{agreed, look, put, with};

/// The sound area that the ways change.
pub fn sound() -> Vec<u8> {
    let long = "x".repeat(92);
    with(1_024, &[("ab.c", "12"), ("b", "q"), ("z", &long), ("ab", "w"), ("ab.d", "5")])
}

fn text(path: &str) -> String {
    String::from_utf8(file(path)).unwrap()
}

/// The area changed by a line of crates/unsound/stdin, and the way's name: src/breaking.rt there says what a line means.
fn changed(line: &str) -> (Vec<u8>, &str) {
    let words: Vec<_> = line.splitn(4, ' ').collect();
    let [what, offset, number, name] = words[..] else { panic!("{line}") };
    let (at, number) = (128 + offset.parse::<usize>().unwrap(), number.parse::<u32>().unwrap());
    let mut bytes = sound();
    match what {
        "none" => {}
        "used" => put(&mut bytes, 0, number),
        "word" => put(&mut bytes, at, number),
        "byte" => bytes[at] = number.try_into().unwrap(),
        "slot" => bytes[at..at + 92].fill(number.try_into().unwrap()),
        _ => panic!("{line}"),
    }
    (bytes, name)
}

/// What the look says, a line for each rule.
fn said(bytes: &[u8]) -> String {
    let look = look(bytes);
    let line = |one: &Broken| format!("    byte {}, in {}: {}\n", one.at, look.called(bytes, one.object), one.rule);
    look.broken.iter().map(line).collect()
}

#[test]
fn every_way() {
    let (ways, answers) = (text("crates/unsound/stdin"), text("crates/unsound/stdout"));
    let mut answers = answers.lines();
    let mut all = String::new();
    for line in ways.lines().filter(|line| !line.starts_with('#')) {
        let (bytes, name) = changed(line);
        let answer = answers.next().and_then(|answer| answer.strip_prefix(name)).unwrap();
        match agreed(&bytes) {
            Ok(()) => assert!(answer.starts_with(": entries 5, "), "{name}"),
            Err(why) => assert!(answer.starts_with(&format!(": refused {}, ", why.number())), "{name}"),
        }
        all += &format!("{name}\n{}", said(&bytes));
    }
    assert!(all == include_str!("ways.out"), "this is not ways.out:\n{all}");
}

#[test]
fn the_area_is_that_of_the_program() {
    let bytes = sound();
    let offsets: Vec<_> = Area::new(&bytes).entries().unwrap().map(|entry| entry.offset.to_string()).collect();
    let answers = text("crates/unsound/stdout");
    assert!(answers.starts_with(&format!("sound: entries 5, scratch zero, list {}\n", offsets.join(" "))));
}

#[test]
fn no_area() {
    let (mut magic, mut version, mut long) = (sound(), sound(), sound());
    magic[8] = b'Q';
    version[15] = 0;
    long.resize(131_073, 0);
    for bytes in [&magic[..], &version, &long, &magic[..127], &[]] {
        assert_eq!(agreed(bytes), Err(Refusal::BadHeader), "{}", said(bytes));
    }
}
