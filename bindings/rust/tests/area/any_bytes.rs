//! Any bytes get an answer: every call on areas of three kinds from a seeded generator. What is asked of each answer holds of every area.

use property_area::{Area, AreaMut, Refusal};

use crate::by_hand;
use crate::random::Random;

/// The answer, if its refusal is in the table.
fn known<T>(answer: Result<T, Refusal>) -> Result<T, Refusal> {
    assert!(!matches!(answer, Err(Refusal::Other(_))));
    answer
}

fn reads(random: &mut Random, bytes: &[u8]) {
    let area = Area::new(bytes);
    let name = random.name();
    let found = known(area.find(&name));
    assert_eq!(known(area.get(&name)), found.and_then(|found| area.value(found.entry)));
    // Any offset, a likely one, and what was found.
    let offsets = [random.word(), random.offset(bytes.len())];
    for entry in offsets.into_iter().chain(found.map(|found| found.entry)) {
        let _ = known(area.value(entry));
        assert_eq!(known(area.name(entry)), by_hand::name(bytes, entry), "{entry}");
        assert_eq!(known(area.serial(entry)), by_hand::serial(bytes, entry), "{entry}");
    }
    let mut buffer = vec![0xee; random.below(100)];
    if known(area.backup(&mut buffer)).is_err() {
        assert!(buffer.iter().all(|&byte| byte == 0xee));
    }
}

/// What is to be written is read in the same way.
fn reads_before_writes(random: &mut Random, bytes: &mut [u8]) {
    let copy = bytes.to_vec();
    let (area, same) = (AreaMut::new(bytes), Area::new(&copy));
    let (name, entry) = (random.name(), random.offset(copy.len()));
    assert_eq!((area.find(&name), area.get(&name)), (same.find(&name), same.get(&name)));
    assert_eq!((area.value(entry), area.name(entry)), (same.value(entry), same.name(entry)));
    assert_eq!((area.serial(entry), area.check()), (same.serial(entry), same.check()));
    let (mut one, mut other) = ([0xee; 91], [0xee; 91]);
    assert_eq!((area.backup(&mut one), one), (same.backup(&mut other), other));
    assert_eq!(area.entries().map(Vec::from_iter), same.entries().map(Vec::from_iter));
}

/// Check, listing and dump agree; what is listed is found, and shown with the same value; the dump is the listing, escaped.
fn audits(random: &mut Random, bytes: &[u8]) -> bool {
    let area = Area::new(bytes);
    let checked = known(area.checked());
    let listed = known(area.entries());
    let why = checked.err();
    assert_eq!([known(area.check()).err(), listed.as_ref().err().copied(), known(area.dump()).err()], [why; 3]);
    let Ok(checked) = checked else { return false };
    let entries: Vec<_> = listed.into_iter().flatten().collect();
    for entry in &entries {
        let found = checked.find(entry.name).map(|found| found.entry);
        assert_eq!((found, checked.get(entry.name)), (Ok(entry.offset), Ok(entry.value)));
        assert_eq!((checked.name(entry.offset), checked.value(entry.offset)), (Ok(entry.name), Ok(entry.value)));
        assert_eq!(Ok(entry.serial), by_hand::serial(bytes, entry.offset));
    }
    let name = random.name();
    assert_eq!(checked.get(&name), area.get(&name));
    assert!(!matches!(checked.get(&name), Err(Refusal::Damaged | Refusal::BadHeader)));
    assert_eq!(checked.dump(), Ok(by_hand::dump(bytes, &entries)));
    assert_eq!(checked.entries().map(Vec::from_iter), Ok(entries));
    true
}

/// Adds and updates: what a refusal must keep, and that a sound area stays sound.
fn writes(random: &mut Random, bytes: &mut [u8], sound: bool) {
    let before = bytes.to_vec();
    let (name, value) = (random.name(), random.value());
    match known(AreaMut::new(bytes).add(&name, &value)) {
        Ok(()) => assert!(!sound || Area::new(bytes).get(&name).is_ok()),
        Err(Refusal::ZeroByte | Refusal::EmptySegment | Refusal::BadHeader) => assert_eq!(bytes, before),
        Err(_) => {}
    }
    let before = bytes.to_vec();
    if known(AreaMut::new(bytes).update(&name, &value)).is_err() {
        assert_eq!(bytes, before);
    }
    sets(random, bytes);
    assert!(!sound || Area::new(bytes).check().is_ok());
    let (entry, backup) = (random.word(), random.value());
    let _ = known(AreaMut::new(bytes).raw_update(entry, backup, value));
}

/// A set is an update, else an add: the same answer and the same bytes.
fn sets(random: &mut Random, bytes: &mut [u8]) {
    let (name, value) = (random.name(), random.value());
    let mut copy = bytes.to_vec();
    let mut area = AreaMut::new(&mut copy);
    let updated = area.update(&name, &value);
    let expected = if updated == Err(Refusal::Missing) { area.add(&name, &value) } else { updated };
    assert_eq!(known(AreaMut::new(bytes).set(&name, &value)), expected);
    assert_eq!(bytes, copy);
}

#[test]
fn every_call_answers() {
    let mut random = Random(1);
    let (mut sound, mut unsound) = (0, 0);
    for _ in 0..20_000 {
        let mut bytes = random.area();
        reads(&mut random, &bytes);
        reads_before_writes(&mut random, &mut bytes);
        let checked = audits(&mut random, &bytes);
        writes(&mut random, &mut bytes, checked);
        reads(&mut random, &bytes);
        audits(&mut random, &bytes);
        *(if checked { &mut sound } else { &mut unsound }) += 1;
    }
    assert!(sound > 4_000 && unsound > 4_000, "{sound} sound, {unsound} not");
}
