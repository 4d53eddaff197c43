//! Each refusal by its number, with what it leaves; the numbers' table.

use std::error::Error;

use property_area::{Area, AreaMut, Refusal};

use crate::{data, fresh, kept, put, refused, second, with};

const SLOT: std::ops::Range<usize> = 128 + 20..128 + 112;

#[test]
fn zero_byte_1() {
    assert_eq!(kept(&mut second(), |area| area.add("x.\0", "v")), 1);
    assert_eq!(kept(&mut second(), |area| area.add("\0..", "v")), 1);
}

#[test]
fn empty_segment_2() {
    for name in ["", ".", "x.", ".x", "x..y"] {
        assert_eq!(kept(&mut second(), |area| area.add(name, "v")), 2, "{name:?}");
    }
    for name in ["", ".", "b.", "ab.", "ab..c"] {
        assert_eq!(refused(Area::new(&second()).get(name)), 2, "{name:?}");
        assert_eq!(kept(&mut second(), |area| area.update(name, "v")), 2, "{name:?}");
    }
}

#[test]
fn missing_3() {
    let mut bytes = second();
    for name in ["a", "ab", "ab.c.d", "c", "\0", "no.such.name"] {
        assert_eq!(refused(Area::new(&bytes).get(name)), 3, "{name:?}");
        assert_eq!(kept(&mut bytes, |area| area.update(name, "v")), 3, "{name:?}");
    }
}

#[test]
fn no_room_4() {
    let mut bytes = fresh(240);
    assert_eq!(kept(&mut bytes, |area| area.add("a", "x")), 4);
    // The node has room, and stays; the entry has none.
    let mut bytes = fresh(363);
    assert_eq!(refused(AreaMut::new(&mut bytes).add("a", "x")), 4);
    assert_eq!((data(&bytes, 16), refused(Area::new(&bytes).get("a"))), (112, 3));
}

#[test]
fn damaged_5() {
    let mut bytes = second();
    put(&mut bytes, 128 + 16, 113); // the root's children link is no multiple of 4
    assert_eq!(refused(Area::new(&bytes).find("b")), 5);
    assert_eq!(refused(Area::new(&bytes).check()), 5);
    assert_eq!(refused(Area::new(&bytes).entries()), 5);
    assert_eq!(refused(Area::new(&bytes).dump()), 5);
    assert_eq!(kept(&mut bytes, |area| area.update("b", "v")), 5);
    assert_eq!(kept(&mut bytes, |area| area.add("new", "v")), 5);
    for entry in [1, 4_096 - 128 - 92, u32::MAX, u32::MAX - 3] {
        assert_eq!(refused(Area::new(&bytes).value(entry)), 5, "{entry}");
    }
    assert_eq!(refused(Area::new(&bytes[..138]).backup(&mut [0])), 5);
}

/// A node that is its own left: a search that goes left from it compares as many nodes as it may, and is refused.
#[test]
fn circle_5() {
    let mut bytes = with(4_096, &[("b", "q")]);
    put(&mut bytes, 128 + 112 + 8, 112);
    assert_eq!(refused(Area::new(&bytes).find("a")), 5);
    assert_eq!(refused(Area::new(&bytes).check()), 5);
    assert_eq!(Area::new(&bytes).find("b").map(|found| found.compared), Ok(1));
}

/// Names and serials at offsets that are no entry's, and a name without a zero.
#[test]
fn names_and_serials_5() {
    let mut bytes = second();
    for entry in [1, 162, 4_096 - 128 - 92, 4_096, u32::MAX, u32::MAX - 3] {
        assert_eq!(refused(Area::new(&bytes).name(entry)), 5, "{entry}");
        assert_eq!(refused(Area::new(&bytes).serial(entry)), 5, "{entry}");
    }
    assert_eq!(Area::new(&bytes).name(160), Ok(&b"ab.c"[..]));
    assert_eq!(Area::new(&bytes).serial(160), Ok(0x0200_0000));
    bytes[128 + 160 + 96..].fill(b'x');
    assert_eq!(refused(Area::new(&bytes).name(160)), 5, "no zero behind the entry");
    assert_eq!(Area::new(&bytes).serial(160), Ok(0x0200_0000));
}

#[test]
fn too_long_6() {
    let mut bytes = second();
    assert_eq!(kept(&mut bytes, |area| area.update("b", [b'v'; 92])), 6);
    assert_eq!(kept(&mut bytes, |area| area.raw_update(288, [b'v'; 92], "v")), 6);
    let mut buffer = [0xee; 92];
    assert_eq!(refused(Area::new(&bytes).backup(&mut buffer)), 6);
    assert_eq!(buffer, [0xee; 92]);
    assert_eq!(refused(Area::new(&bytes).backup(&mut buffer[..91])), 0);
    // With a backup that fits, the value comes too late.
    let mut changed = bytes.clone();
    assert_eq!(refused(AreaMut::new(&mut changed).raw_update(288, "old", [b'v'; 92])), 6);
    assert_eq!(changed[SLOT][..4], *b"old\0");
    changed[SLOT].copy_from_slice(&bytes[SLOT]);
    assert_eq!(changed, bytes);
}

#[test]
fn long_entry_7() {
    let mut bytes = with(4_096, &[("a", &"v".repeat(92))]);
    assert_eq!(kept(&mut bytes, |area| area.update("a", "short")), 7);
    assert_eq!(refused(AreaMut::new(&mut bytes).raw_update(136, "old", "short")), 7);
}

#[test]
fn bad_header_8() {
    assert_eq!(refused(AreaMut::format(&mut [])), 8);
    assert_eq!(refused(AreaMut::format(&mut [0; 239])), 8);
    assert_eq!(refused(AreaMut::format(&mut vec![0; 131_073])), 8);
    let mut magic = second();
    magic[8] ^= 1;
    let mut version = second();
    version[15] ^= 1;
    for mut bytes in [vec![], vec![0; 4_096], second()[..127].to_vec(), magic, version] {
        let area = Area::new(&bytes);
        assert_eq!(
            [refused(area.find("b")), refused(area.get("")), refused(area.value(288)), refused(area.backup(&mut [0; 92]))],
            [8; 4]
        );
        assert_eq!([refused(area.name(288)), refused(area.serial(288)), refused(area.name(1)), refused(area.serial(1))], [8; 4]);
        assert_eq!([refused(area.check()), refused(area.entries()), refused(area.check_with(&mut []))], [8; 3]);
        assert_eq!([refused(area.checked()), refused(area.dump()), refused(area.dump_with(&mut [], &mut [], &mut []))], [8; 3]);
        assert_eq!(kept(&mut bytes, |area| area.add("\0", "v")), 8);
        assert_eq!(kept(&mut bytes, |area| area.update("b", "v")), 8);
        assert_eq!(kept(&mut bytes, |area| area.raw_update(288, [b'v'; 92], "v")), 8);
    }
}

#[test]
fn too_large_9() {
    let mut bytes = second();
    put(&mut bytes, 0, u32::MAX - 3);
    assert_eq!(kept(&mut bytes, |area| area.add("new", "v")), 9);
}

#[test]
fn short_buffer_10() {
    let bytes = second();
    let area = Area::new(&bytes);
    let (mut scratch, mut list) = ([7; 1_024], [9; 3]);
    assert_eq!(refused(area.check_with(&mut scratch[1..])), 10);
    assert_eq!(refused(area.list_with(&mut scratch[1..], &mut list)), 10);
    assert_eq!(scratch, [7; 1_024]);
    assert_eq!(refused(area.list_with(&mut scratch, &mut list[..1])), 10);
    assert_eq!((scratch, list), ([0; 1_024], [9; 3]));
    assert_eq!(refused(area.list_with(&mut scratch, &mut [])), 10);
}

#[test]
fn every_number_has_a_case_and_a_sentence() {
    assert_eq!(Refusal::from_number(0), None);
    let mut sentences = Vec::new();
    for number in 1..=10 {
        let refusal = Refusal::from_number(number).unwrap();
        assert!(!matches!(refusal, Refusal::Other(_)), "{number}");
        assert_eq!(refusal.number(), number);
        let error: Box<dyn Error> = refusal.into();
        let said = error.to_string();
        assert!(said.starts_with(&format!("refusal {number}: ")), "{said}");
        sentences.push(said);
    }
    sentences.sort();
    sentences.dedup_by_key(|said| said.split(": ").nth(1).map(String::from));
    assert_eq!(sentences.len(), 10, "no two say the same");
}

/// A number that is not in the list is `Other`; what `Other` holds is made by `from_number` alone.
#[test]
fn numbers_that_are_not_in_the_list() {
    for number in [11, u32::MAX] {
        let Some(refusal @ Refusal::Other(unlisted)) = Refusal::from_number(number) else {
            panic!("{number} is in the list");
        };
        assert_eq!((refusal.number(), unlisted.number()), (number, number));
        assert_eq!(refusal.sentence(), "the number is not in the list");
        assert_eq!(refusal.to_string(), format!("refusal {number}: the number is not in the list"));
    }
}
