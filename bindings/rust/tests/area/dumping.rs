//! The dump: the settled one, its escapes, areas over the programs' limit of 65,536 bytes, and the caller's memory.

use property_area::{places, room_len, scratch_len, Area, AreaMut, Refusal, AREA_MAX};

use crate::{by_hand, fresh, second, with};

const SECOND: &str = "entries 2 used 388\n[b]: [q]\n[ab.c]: [12]\n";

fn dumped(bytes: &[u8]) -> String {
    String::from_utf8(Area::new(bytes).dump().unwrap()).unwrap()
}

#[test]
fn the_second_example() {
    assert_eq!(dumped(&second()), SECOND);
    assert_eq!(dumped(&fresh(240)), "entries 0 used 112\n");
}

#[test]
fn bytes_that_are_not_printed_as_they_are() {
    let bytes = with(4_096, &[("a\u{7f}\\", "\u{1f} ~\n\u{b0}\\x00")]);
    assert_eq!(dumped(&bytes), "entries 1 used 236\n[a\\x7f\\x5c]: [\\x1f ~\\x0a\\xc2\\xb0\\x5cx00]\n");
}

/// As many entries as fit, in names of three bytes.
#[test]
fn the_longest_area_with_the_most_entries() {
    let mut bytes = fresh(AREA_MAX);
    let mut area = AreaMut::new(&mut bytes);
    let added = (0..1_100).take_while(|number| area.add(format!("{number:03x}"), "").is_ok()).count();
    assert_eq!(added, (AREA_MAX - 240) / 124);
    let entries: Vec<_> = Area::new(&bytes).entries().unwrap().collect();
    assert_eq!(entries.len(), added);
    assert!(added <= places(AREA_MAX));
    assert_eq!(dumped(&bytes).as_bytes(), by_hand::dump(&bytes, &entries));
}

/// One value that fills the area, each byte of it four in the text: the room is enough.
#[test]
fn the_longest_area_with_the_longest_text() {
    let mut bytes = fresh(AREA_MAX);
    let value = vec![0xff; AREA_MAX - 240 - 124 - 1];
    AreaMut::new(&mut bytes).add("a", &value).unwrap();
    assert_eq!(AreaMut::new(&mut bytes).add("b", ""), Err(Refusal::NoRoom));
    let text = dumped(&bytes);
    let (count, line) = text.split_once('\n').unwrap();
    assert_eq!(count, format!("entries 1 used {}", AREA_MAX - 128));
    assert_eq!(line, format!("[a]: [{}]\n", "\\xff".repeat(value.len())));
    assert!(text.len() <= room_len(AREA_MAX));
}

#[test]
fn one_byte_over_the_longest_area_is_refused() {
    let mut bytes = fresh(AREA_MAX);
    bytes.push(0);
    assert_eq!(Area::new(&bytes).dump(), Err(Refusal::BadHeader));
}

#[test]
fn memory_of_the_caller() {
    let bytes = second();
    let (mut scratch, mut list) = ([7; scratch_len(4_096)], [9; places(4_096)]);
    let mut room = [0xee; 64];
    let text = Area::new(&bytes).dump_with(&mut scratch, &mut list, &mut room).map(<[u8]>::to_vec);
    assert_eq!(text, Ok(SECOND.into()));
    assert_eq!((&scratch[..], &list[..3]), (&[0; 1_024][..], &[288, 160, 9][..]));
    assert_eq!((&room[..SECOND.len()], &room[SECOND.len()..]), (SECOND.as_bytes(), &[0xee; 64][SECOND.len()..]));
}

/// Scratch, then the list, then the room; a refusal keeps the room.
#[test]
fn short_memory_of_the_caller_10() {
    let bytes = second();
    for (scratch, list, room, left) in [(1_023, 2, 64, 7), (1_024, 1, 64, 0), (1_024, 2, SECOND.len() - 1, 0), (0, 0, 0, 7)] {
        let (mut scratch, mut list, mut room) = (vec![7; scratch], vec![9; list], vec![0xee; room]);
        let answer = Area::new(&bytes).dump_with(&mut scratch, &mut list, &mut room);
        assert_eq!(answer, Err(Refusal::ShortBuffer));
        assert!(scratch.iter().all(|&byte| byte == left) && room.iter().all(|&byte| byte == 0xee));
    }
    let mut exact = vec![0; SECOND.len()];
    assert!(Area::new(&bytes).dump_with(&mut [0; 1_024], &mut [0; 2], &mut exact).is_ok());
    assert_eq!(exact, SECOND.as_bytes());
}
