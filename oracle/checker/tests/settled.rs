//! The settled examples (RULES 11), as far as they say what check, listing and dump answer, and each refusal once.

use calls::{Audit, Count, Side};
use checker::{survey, Checker, Fault};
use twin::Twin;

const CHECKER: Checker = Checker::DOCUMENT;

/// The second example: fresh 4,096 bytes, "ab.c"="12", then "b"="q".
fn second() -> Vec<u8> {
    let mut area = vec![0; 4_096];
    assert_eq!(Twin.format(&mut area), 0);
    assert_eq!(Twin.add(&mut area, b"ab.c", b"12"), 0);
    assert_eq!(Twin.add(&mut area, b"b", b"q"), 0);
    area
}

fn list(area: &mut [u8], scratch: &mut [u8], list: &mut [u32]) -> (u32, u32) {
    let Count { refusal, count } = CHECKER.list(area, scratch, list);
    (refusal, count)
}

#[test]
fn the_second_example_is_listed_as_its_dump_shows() {
    let (mut area, mut scratch, mut places) = (second(), [7; 1_024], [9; 3]);
    assert_eq!(list(&mut area, &mut scratch, &mut places), (0, 2));
    assert_eq!(places, [288, 160, 9]);
    assert_eq!(scratch, [0; 1_024]);
}

#[test]
fn a_fresh_area_is_sound() {
    let mut area = vec![0; 240];
    assert_eq!(Twin.format(&mut area), 0);
    assert_eq!(CHECKER.check(&mut area, &mut [7; 60]), 0);
}

#[test]
fn a_long_value_is_sound() {
    let mut area = vec![0; 460];
    assert_eq!(Twin.format(&mut area), 0);
    assert_eq!(Twin.add(&mut area, b"a", &[b'v'; 92]), 0);
    assert_eq!(survey(&area), Ok(vec![136]));
}

#[test]
fn refusals_come_in_their_order() {
    let (mut area, mut scratch) = (second(), [7; 1_024]);
    assert_eq!(CHECKER.check(&mut area[..127], &mut []), 8);
    assert_eq!(list(&mut area, &mut scratch[1..], &mut []), (10, 0));
    assert_eq!(scratch, [7; 1_024]);
    assert_eq!(list(&mut area, &mut scratch, &mut [9]), (10, 0));
    assert_eq!(scratch, [0; 1_024]);
    // The first node's left link leads to itself.
    area[128 + 112 + 8..][..4].copy_from_slice(&112_u32.to_le_bytes());
    assert_eq!(list(&mut area, &mut scratch, &mut []), (5, 0));
    assert_eq!(survey(&area), Err(Fault::NodeShares));
}

/// The dump of the second settled example (docs/RULES.md, 11.4), whole.
const SECOND_DUMP: &[u8] = b"entries 2 used 388\n[b]: [q]\n[ab.c]: [12]\n";

fn dump(area: &mut [u8], scratch: &mut [u8], list: &mut [u32], room: &mut [u8]) -> (u32, u32) {
    let Count { refusal, count } = CHECKER.dump(area, scratch, list, room);
    (refusal, count)
}

#[test]
fn the_second_example_is_dumped_as_it_stands() {
    let (mut area, mut scratch, mut places, mut room) = (second(), [7; 1_024], [9; 3], [8; 42]);
    assert_eq!(dump(&mut area, &mut scratch, &mut places, &mut room), (0, 41));
    assert_eq!((&room[..41], room[41]), (SECOND_DUMP, 8));
    assert_eq!((places, scratch), ([288, 160, 9], [0; 1_024]));
}

#[test]
fn a_short_room_is_kept_and_the_list_is_not() {
    let (mut area, mut scratch, mut places, mut room) = (second(), [7; 1_024], [9; 3], [8; 40]);
    assert_eq!(dump(&mut area, &mut scratch, &mut places[..1], &mut room), (10, 0));
    assert_eq!((places, scratch), ([9; 3], [0; 1_024]));
    assert_eq!(dump(&mut area, &mut scratch, &mut places, &mut room), (10, 0));
    assert_eq!((places, room), ([288, 160, 9], [8; 40]));
}

#[test]
fn bytes_that_do_not_print_are_escaped() {
    let (mut area, mut scratch, mut room) = (vec![0; 4_096], [7; 1_024], [8; 200]);
    assert_eq!(Twin.format(&mut area), 0);
    assert_eq!(Twin.add(&mut area, b"\x01", b" \x1f~\x7f\\\xab]"), 0);
    assert_eq!(Twin.add(&mut area, b"long", &[b'v'; 92]), 0);
    // Nodes of 24 and 28 bytes, entries of 100 and 104, a long value of 96, behind the first 112.
    let (_, length) = dump(&mut area, &mut scratch, &mut [0; 2], &mut room);
    let text = format!("entries 2 used 464\n[\\x01]: [ \\x1f~\\x7f\\x5c\\xab]]\n[long]: [{}]\n", "v".repeat(92));
    assert_eq!(room[..length as usize].escape_ascii().to_string(), text.into_bytes().escape_ascii().to_string());
}
