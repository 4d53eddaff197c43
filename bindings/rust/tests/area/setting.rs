//! Set: an update, and where the name is missing an add; each outcome, with what it leaves.

use property_area::{update_distance, Area, AreaMut, Refusal};

use crate::{data, fresh, kept, put, refused, second, with, word};

#[test]
fn a_name_that_is_missing_is_added() {
    let mut bytes = fresh(4_096);
    assert_eq!(AreaMut::new(&mut bytes).set("ab.c", "12"), Ok(()));
    assert_eq!(AreaMut::new(&mut bytes).set("b", "q"), Ok(()));
    assert_eq!(bytes, second());
    // A node without an entry is no name that is there.
    assert_eq!(AreaMut::new(&mut bytes).set("ab", "x"), Ok(()));
    assert_eq!(Area::new(&bytes).get("ab"), Ok(&b"x"[..]));
}

#[test]
fn a_name_that_is_there_is_updated() {
    let mut bytes = second();
    let mut area = AreaMut::new(&mut bytes);
    let earlier = area.serial(160).unwrap();
    for (set, value) in ["345", "6", "6"].into_iter().enumerate() {
        assert_eq!(area.set("ab.c", value), Ok(()));
        assert_eq!(area.get("ab.c"), Ok(value.as_bytes()));
        assert_eq!(update_distance(earlier, area.serial(160).unwrap()) as usize, set + 1);
    }
    let mut before = [0xee; 2];
    assert_eq!((area.backup(&mut before), before), (Ok(()), *b"6\0"));
    assert_eq!(area.entries().unwrap().len(), 2);
}

#[test]
fn a_long_value_is_added_and_stays() {
    let mut bytes = second();
    assert_eq!(AreaMut::new(&mut bytes).set("note", [b'n'; 92]), Ok(()));
    let note = Area::new(&bytes).entries().unwrap().find(|entry| entry.name == b"note").unwrap();
    assert_eq!((note.value, note.is_long()), (&[b'n'; 92][..], true));
    for value in [&b"short"[..], &[b'n'; 92]] {
        assert_eq!(kept(&mut bytes, |area| area.set("note", value)), 7);
    }
    assert_eq!(kept(&mut bytes, |area| area.set("b", [b'v'; 92])), 6);
}

#[test]
fn names_that_cannot_be_added() {
    for name in ["\0", "x.\0", "b\0"] {
        assert_eq!(kept(&mut second(), |area| area.set(name, "v")), 1, "{name:?}");
    }
    // Of the update: the walk comes to an empty segment. Of the add: it is missing before.
    for name in ["", ".", "b.", "b..c", "x.", "x..y"] {
        assert_eq!(kept(&mut second(), |area| area.set(name, "v")), 2, "{name:?}");
    }
}

#[test]
fn no_room_4() {
    assert_eq!(kept(&mut fresh(240), |area| area.set("a", "x")), 4);
    let mut bytes = fresh(363);
    assert_eq!(refused(AreaMut::new(&mut bytes).set("a", "x")), 4);
    assert_eq!((data(&bytes, 16), word(&bytes, 0)), (112, 136), "the node has room, and stays");
    let mut full = with(364, &[("a", "x")]);
    assert_eq!(AreaMut::new(&mut full).set("a", [b'v'; 91]), Ok(()), "an update needs none");
}

#[test]
fn damage_5() {
    let mut bytes = second();
    put(&mut bytes, 128 + 16, 113); // the root's children link is no multiple of 4
    assert_eq!(kept(&mut bytes, |area| area.set("b", "v")), 5);
    // Missing for the update; the add gets room at a place that is no multiple of 4, and the used mark has moved.
    let mut bytes = fresh(4_096);
    put(&mut bytes, 0, 113);
    assert_eq!(refused(AreaMut::new(&mut bytes).set("a", "x")), 5);
    assert_eq!(word(&bytes, 0), 137);
}

#[test]
fn header_8_and_size_9() {
    let mut bytes = second();
    put(&mut bytes, 0, u32::MAX - 3);
    assert_eq!(kept(&mut bytes, |area| area.set("new", "v")), 9);
    bytes[8] ^= 1;
    assert_eq!(kept(&mut bytes, |area| area.set("\0", "v")), 8);
    assert_eq!(AreaMut::new(&mut []).set("a", "x"), Err(Refusal::BadHeader));
}
