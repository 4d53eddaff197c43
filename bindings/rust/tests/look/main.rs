//! The tool's second look, held against the proved check: it says that a rule is broken exactly where the check refuses.

// Some of what tests/area and the tool use of these files is not used here: dead code is allowed in them.
#[allow(dead_code)]
#[path = "../area/areas.rs"]
mod areas;
#[path = "../../src/bin/pa/html/mod.rs"]
mod html;
#[allow(dead_code)]
#[path = "../../src/bin/pa/look/mod.rs"]
mod look;
#[path = "../../src/bin/pa/picture.rs"]
mod picture;
#[allow(dead_code)]
#[path = "../area/random.rs"]
mod random;
#[allow(dead_code)]
#[path = "../../src/bin/pa/text.rs"]
mod text;

mod changed;
mod drawn;
mod every;
mod ways;

use areas::{fresh, put, with, word};
use look::{look, Look};
use property_area::{Area, Refusal};

/// What the check answers, where the look agrees with it.
fn agreed(bytes: &[u8]) -> Result<(), Refusal> {
    let look = look(bytes);
    let check = Area::new(bytes).check();
    assert_eq!(verdict(&look), check, "the look's verdict and the check's, of\n{}", picture::text(bytes));
    in_rows(&look, bytes);
    in_the_file(&look, bytes);
    check
}

/// What follows for the check from what the look says.
fn verdict(look: &Look) -> Result<(), Refusal> {
    match (look.has_header(), look.broken.len()) {
        (true, 0) => Ok(()),
        (true, _) => Err(Refusal::Damaged),
        (false, 1) => Err(Refusal::BadHeader),
        (false, many) => panic!("{many} rules are broken where there is no header"),
    }
}

/// The rows have every byte of the file once, in their order, and none is empty.
fn in_rows(look: &Look, bytes: &[u8]) {
    let mut next = 0;
    for row in look.rows(bytes.len()) {
        assert!(row.at == next && row.size > 0, "no row begins at byte {next}, in\n{}", picture::text(bytes));
        next += row.size;
    }
    assert_eq!(next, bytes.len());
}

/// A broken rule's byte is one of its object, and of the file.
fn in_the_file(look: &Look, bytes: &[u8]) {
    for broken in look.broken.iter().filter(|_| look.has_header()) {
        let object = &look.objects[broken.object];
        let (first, behind) = (object.at, object.at + object.size);
        let inside = broken.at < bytes.len() && (first..behind).contains(&broken.at);
        assert!(inside, "byte {}: {}, in\n{}", broken.at, broken.rule, picture::text(bytes));
    }
}

#[test]
fn every_sample() {
    let mut areas = 0;
    for file in std::fs::read_dir(concat!(env!("CARGO_MANIFEST_DIR"), "/../../samples")).unwrap() {
        let name = file.unwrap().file_name().into_string().unwrap();
        if name.ends_with(".area") {
            let expected = if name == "damaged.area" { Err(Refusal::Damaged) } else { Ok(()) };
            assert_eq!(agreed(&areas::sample(&name)), expected, "{name}");
            areas += 1;
        }
    }
    assert!(areas > 7, "{areas} samples");
}
