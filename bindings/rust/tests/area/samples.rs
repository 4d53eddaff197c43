//! The areas of samples/, as anybody reads them.

use property_area::{Area, AreaMut, Refusal};

use crate::areas::sample;

#[test]
fn the_fresh_one_is_sound_and_empty() {
    let bytes = sample("fresh.area");
    assert_eq!(Area::new(&bytes).check(), Ok(()));
    assert_eq!(Area::new(&bytes).entries().unwrap().count(), 0);
}

#[test]
fn the_inverters_settings_show_their_last_update() {
    let bytes = sample("inverter.area");
    let area = Area::new(&bytes);
    assert_eq!(area.check(), Ok(()));
    assert_eq!(area.entries().unwrap().count(), 14);
    assert_eq!(area.get("inverter.limit"), Ok(&b"100"[..]));
    assert_eq!(area.get("inverter.firmware"), Ok(&b"3.12.1"[..]));
    assert_eq!(area.get("site.contact"), Ok(&b"+31 6 5550 0182"[..]));
    assert!(area.get("site.note").unwrap().len() > 91);
    assert_eq!(area.get("inverter.grid"), Err(Refusal::Missing));
    assert_eq!(AreaMut::new(&mut bytes.clone()).update("site.note", "short"), Err(Refusal::LongEntry));
}

#[test]
fn no_file_has_more_entries() {
    let mut bytes = sample("most.area");
    assert_eq!(Area::new(&bytes).entries().unwrap().count(), 526);
    assert_eq!(AreaMut::new(&mut bytes).add("526", ""), Err(Refusal::NoRoom));
}

#[test]
fn the_pulses_fill_their_area() {
    let mut bytes = sample("pulses.area");
    let area = Area::new(&bytes);
    assert_eq!(area.check(), Ok(()));
    let names: Vec<_> = area.entries().unwrap().map(|entry| entry.name.to_vec()).collect();
    assert_eq!(names.len(), names.iter().filter(|name| name.starts_with(b"pulse.meter")).count());
    assert_eq!(area.get("pulse.meter1.m06.d21"), Ok(&b"18480"[..]));
    assert_eq!(AreaMut::new(&mut bytes).add("pulse.meter2.m12.d28", "0"), Err(Refusal::NoRoom));
}

#[test]
fn the_damaged_one_is_refused() {
    let bytes = sample("damaged.area");
    let area = Area::new(&bytes);
    assert_eq!(area.check(), Err(Refusal::Damaged));
    assert_eq!(area.entries().err(), Some(Refusal::Damaged));
    assert_eq!(area.get("inverter.limit"), Err(Refusal::Damaged));
}
