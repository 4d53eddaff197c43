//! Areas whose check has accepted.

use property_area::{scratch_len, Area, Checked, Found, Refusal};

use crate::{put, second, with};

#[test]
fn refused_as_the_check_is() {
    let mut bytes = second();
    assert_eq!(Area::new(&bytes[..127]).checked().err(), Some(Refusal::BadHeader));
    put(&mut bytes, 128 + 16, 113); // the root's children link is no multiple of 4
    assert_eq!(Area::new(&bytes).checked().err(), Some(Refusal::Damaged));
}

#[test]
fn scratch_of_the_caller() {
    let bytes = second();
    let mut scratch = [7; scratch_len(4_096)];
    assert_eq!(Area::new(&bytes).checked_with(&mut scratch[1..]).err(), Some(Refusal::ShortBuffer));
    assert_eq!(scratch, [7; 1_024]);
    assert!(Area::new(&bytes).checked_with(&mut scratch).is_ok());
    assert_eq!(scratch, [0; 1_024]);
}

#[test]
fn it_reads_as_the_area_does() {
    let bytes = second();
    let checked = Area::new(&bytes).checked().unwrap();
    assert_eq!(checked.find("ab.c"), Ok(Found { entry: 160, compared: 2 }));
    assert_eq!(
        (checked.get("b"), checked.get("c"), checked.get("b.")),
        (Ok(&b"q"[..]), Err(Refusal::Missing), Err(Refusal::EmptySegment))
    );
    assert_eq!((checked.value(160), checked.name(160), checked.serial(160)), (Ok(&b"12"[..]), Ok(&b"ab.c"[..]), Ok(0x0200_0000)));
    assert_eq!(
        (checked.value(162), checked.name(162), checked.serial(162)),
        (Err(Refusal::Damaged), Err(Refusal::Damaged), Err(Refusal::Damaged))
    );
    let mut buffer = [0xee; 92];
    assert_eq!((checked.backup(&mut buffer), checked.backup(&mut buffer[..91])), (Err(Refusal::TooLong), Ok(())));
    let names: Vec<_> = checked.entries().unwrap().map(|entry| entry.name).collect();
    assert_eq!(names, [&b"b"[..], b"ab.c"]);
    assert_eq!(checked.dump(), Area::new(&bytes).dump());
    assert_eq!((checked.bytes(), checked.area().bytes()), (&bytes[..], &bytes[..]));
    assert_eq!(format!("{checked:?}"), "Checked(4096 bytes)");
}

fn shown<'a>(area: Checked<'a>, name: &str) -> Result<&'a [u8], Refusal> {
    area.get(name)
}

/// What is shown is a part of the bytes, and needs neither the area nor a copy of it.
#[test]
fn it_is_handed_around_by_value() {
    let bytes = with(4_096, &[("a", "x"), ("b", "y")]);
    let values = {
        let checked = Area::new(&bytes).checked().unwrap();
        [shown(checked, "a"), shown(checked, "b")]
    };
    assert_eq!(values, [Ok(&b"x"[..]), Ok(&b"y"[..])]);
}
