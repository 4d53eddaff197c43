//! Listing: names and values after adds and updates, and their order.

use property_area::{Area, AreaMut, Entry, Refusal};

use crate::{fresh, listed, second, with};

fn names(bytes: &[u8]) -> Vec<String> {
    listed(bytes).into_iter().map(|(name, _)| name).collect()
}

#[test]
fn a_fresh_area_is_sound_and_lists_nothing() {
    for length in [240, 241, 4_096] {
        let bytes = fresh(length);
        assert_eq!(Area::new(&bytes).check(), Ok(()));
        assert_eq!(Area::new(&bytes).entries().unwrap().len(), 0);
    }
}

#[test]
fn names_and_values_after_adds_and_updates() {
    let long = "long ".repeat(60);
    let mut bytes = with(8_192, &[("ro.model", "S4"), ("ro", "top"), ("pulses.a", "0"), ("text", &long), ("empty", "")]);
    let mut area = AreaMut::new(&mut bytes);
    area.update("pulses.a", "17").unwrap();
    area.add("ro.model", "not taken").unwrap();
    assert_eq!(area.update("absent", "v"), Err(Refusal::Missing));
    let expected = [("ro", "top"), ("ro.model", "S4"), ("text", &long), ("empty", ""), ("pulses.a", "17")];
    assert_eq!(listed(&bytes), expected.map(|(name, value)| (name.to_string(), value.to_string())));
}

#[test]
fn left_side_own_entry_children_right_side() {
    let shuffled = ["m.b", "mm", "z", "m", "b.x.y", "aa.a", "m.a", "b", "m.bb", "a"];
    let bytes = with(4_096, &shuffled.map(|name| (name, name)));
    // Shorter segments first, then by bytes; a name before the names below it.
    assert_eq!(names(&bytes), ["a", "b", "b.x.y", "m", "m.a", "m.b", "m.bb", "z", "aa.a", "mm"]);
    for (name, value) in listed(&bytes) {
        assert_eq!(name, value);
    }
}

#[test]
fn the_order_is_of_the_names_and_not_of_the_adds() {
    let mut all = ["a", "b", "c", "aa", "a.a", "a.b", "c.a.a"];
    let expected = ["a", "a.a", "a.b", "b", "c", "c.a.a", "aa"];
    for _ in 0..all.len() {
        all.rotate_left(1);
        assert_eq!(names(&with(2_048, &all.map(|name| (name, "v")))), expected, "{all:?}");
    }
}

#[test]
fn the_iterator_says_how_many_and_ends_once() {
    let bytes = second();
    let mut entries = Area::new(&bytes).entries().unwrap();
    assert_eq!((entries.len(), entries.size_hint()), (2, (2, Some(2))));
    assert_eq!(entries.next(), Some(Entry { offset: 288, name: b"b", value: b"q", serial: 0x0100_0000 }));
    assert_eq!(entries.len(), 1);
    assert_eq!(entries.next(), Some(Entry { offset: 160, name: b"ab.c", value: b"12", serial: 0x0200_0000 }));
    assert_eq!((entries.next(), entries.next()), (None, None));
}

#[test]
fn serials_tell_updates_long_values_and_writes_not_ended() {
    let mut bytes = with(4_096, &[("a", "0"), ("b", "begun"), ("c", &"v".repeat(92))]);
    let earlier: Vec<_> = Area::new(&bytes).entries().unwrap().map(|entry| entry.serial).collect();
    for value in ["1", "2", "3"] {
        AreaMut::new(&mut bytes).update("a", value).unwrap();
    }
    let begun = Area::new(&bytes).find("b").unwrap().entry;
    let at = 128 + begun as usize;
    bytes[at] |= 1;
    let entries: Vec<_> = Area::new(&bytes).entries().unwrap().collect();
    let updates: Vec<_> = entries.iter().zip(&earlier).map(|(entry, &earlier)| entry.updates(earlier)).collect();
    assert_eq!(updates, [3, 0, 0]);
    assert_eq!(entries.iter().map(Entry::is_long).collect::<Vec<_>>(), [false, false, true]);
    assert_eq!(entries.iter().map(Entry::is_odd).collect::<Vec<_>>(), [false, true, false]);
}

#[test]
fn what_is_listed_outlives_the_list() {
    let bytes = second();
    let Entry { name, value, .. } = Area::new(&bytes).entries().unwrap().next().unwrap();
    assert_eq!((name, value), (&b"b"[..], &b"q"[..]));
    assert!(bytes.as_ptr_range().contains(&name.as_ptr()) && bytes.as_ptr_range().contains(&value.as_ptr()));
}

/// The smallest entries, as many as there is room for: the list's places, sized from the area's length, are enough.
#[test]
fn an_area_filled_with_the_smallest_entries() {
    for length in [240, 364, 488, 1_000, 8_192, 240 + 253 * 124] {
        let mut bytes = fresh(length);
        let mut area = AreaMut::new(&mut bytes);
        let added = (1..=255_u8).filter(|&byte| byte != b'.' && area.add([byte], "").is_ok()).count();
        // A node takes 24 bytes, an entry 100. A refused add may have linked its node: that is a name without an entry.
        assert_eq!(added, (length - 240) / 124, "{length}");
        let names: Vec<_> = Area::new(&bytes).entries().unwrap().map(|entry| entry.name).collect();
        assert_eq!(names.len(), added, "{length}");
        assert!(names.windows(2).all(|pair| pair[0] < pair[1]), "{length}");
    }
}

#[test]
fn scratch_and_list_of_the_caller() {
    let bytes = second();
    let (mut scratch, mut list) = ([7; 1_030], [9; 4]);
    assert_eq!(Area::new(&bytes).list_with(&mut scratch, &mut list), Ok(&[288, 160][..]));
    assert_eq!((scratch, list), ([0; 1_030], [288, 160, 9, 9]));
    scratch.fill(7);
    assert_eq!(Area::new(&bytes).check_with(&mut scratch), Ok(()));
    assert_eq!(scratch, [0; 1_030]);
}
