//! The settled examples (docs/RULES.md, 11), in their order.

use property_area::{update_distance, Area, AreaMut, Found, Refusal};

use crate::{data, fresh, listed, put, second, with, word};

const USED: usize = 0;
const ROOT_CHILDREN: usize = 16;

fn add_a_x(length: usize) -> (Result<(), Refusal>, Vec<u8>) {
    let mut bytes = fresh(length);
    let answer = AreaMut::new(&mut bytes).add("a", "x");
    (answer, bytes)
}

#[test]
fn the_room_that_a_name_takes() {
    let (answer, bytes) = add_a_x(364);
    assert_eq!((answer, word(&bytes, USED)), (Ok(()), 236));
    let (answer, bytes) = add_a_x(363);
    assert_eq!((answer, word(&bytes, USED)), (Err(Refusal::NoRoom), 136));
    assert_eq!(data(&bytes, ROOT_CHILDREN), 112);
    let (answer, bytes) = add_a_x(263);
    assert_eq!((answer, word(&bytes, USED)), (Err(Refusal::NoRoom), 112));
}

#[test]
fn the_second_example() {
    let bytes = with(4_096, &[("ab.c", "12")]);
    assert_eq!((data(&bytes, ROOT_CHILDREN), data(&bytes, 112 + 16), data(&bytes, 136 + 4)), (112, 136, 160));
    assert_eq!((word(&bytes, USED), data(&bytes, 160)), (264, 0x0200_0000));
    let bytes = second();
    assert_eq!((data(&bytes, 112 + 8), data(&bytes, 264 + 4), word(&bytes, USED)), (264, 288, 388));
    let area = Area::new(&bytes);
    assert_eq!(area.find("ab.c"), Ok(Found { entry: 160, compared: 2 }));
    assert_eq!(area.find("b"), Ok(Found { entry: 288, compared: 2 }));
    assert_eq!(area.find("ab"), Err(Refusal::Missing));
    assert_eq!(area.get("ab.c"), Ok(&b"12"[..]));
    assert_eq!(listed(&bytes), [("b", "q"), ("ab.c", "12")].map(|(name, value)| (name.into(), value.into())));
}

#[test]
fn short_up_to_91_bytes_and_long_from_92() {
    let bytes = with(4_096, &[("a", &"v".repeat(91))]);
    assert_eq!(data(&bytes, 136), 0x5b00_0000);
    let bytes = with(4_096, &[("a", &"v".repeat(92))]);
    assert_eq!((data(&bytes, 136), data(&bytes, 136 + 60), word(&bytes, USED)), (0x3201_0000, 100, 332));
    let value = Area::new(&bytes).value(136).unwrap();
    assert_eq!(value, [b'v'; 92]);
    assert_eq!(value.as_ptr(), bytes[128 + 236..].as_ptr(), "the value is a part of the area");
}

#[test]
fn serials_and_their_distance() {
    let mut bytes = with(4_096, &[("ab.c", "12")]);
    assert_eq!(AreaMut::new(&mut bytes).update("ab.c", "345"), Ok(()));
    assert_eq!(data(&bytes, 160), 0x0300_0002);
    assert_eq!(Area::new(&bytes).get("ab.c"), Ok(&b"345"[..]));

    put(&mut bytes, 128 + 160, 0x0102_fffe);
    assert_eq!(AreaMut::new(&mut bytes).update("ab.c", "6"), Ok(()));
    assert_eq!(data(&bytes, 160), 0x0102_0000);
    assert_eq!(update_distance(0x0102_fffe, 0x0102_0000), 1);
}

#[test]
fn an_empty_segment_counts_when_the_walk_reaches_it() {
    let mut bytes = fresh(4_096);
    assert_eq!(Area::new(&bytes).find("a..b"), Err(Refusal::Missing));
    AreaMut::new(&mut bytes).add("a", "x").unwrap();
    assert_eq!(Area::new(&bytes).find("a..b"), Err(Refusal::EmptySegment));
}

#[test]
fn a_value_is_shown_up_to_its_first_zero() {
    let bytes = with(4_096, &[("a", "x\0y")]);
    assert_eq!(Area::new(&bytes).get("a"), Ok(&b"x"[..]));
}

#[test]
fn a_name_added_again_keeps_its_value() {
    let mut bytes = second();
    let before = bytes.clone();
    assert_eq!(AreaMut::new(&mut bytes).add("b", "other"), Ok(()));
    assert_eq!(bytes, before);
}

#[test]
fn the_old_value_goes_to_the_backup_slot() {
    let mut bytes = second();
    let mut area = AreaMut::new(&mut bytes);
    area.update("ab.c", "345").unwrap();
    let mut slot = [0xee; 3];
    assert_eq!(area.as_area().backup(&mut slot), Ok(()));
    assert_eq!(&slot, b"12\0");
    area.raw_update(288, "r", "s").unwrap();
    assert_eq!(area.as_area().get("b"), Ok(&b"s"[..]));
    assert_eq!(area.as_area().backup(&mut slot), Ok(()));
    assert_eq!(&slot, b"r\0\0");
}
