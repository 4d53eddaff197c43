//! How long one lookup takes in bytes that nobody checked: `cargo run --release --example circle`.
//!
//! The area has one node, whose name fills it and whose left link leads to itself. A lookup scans that name data size / 20 + 1 times before
//! it is refused with 5, so that its time grows with the square of the length; the check refuses the same bytes after a walk of their length.

use std::time::{Duration, Instant};

use property_area::{Area, AreaMut, Refusal};

const LENGTHS: [usize; 3] = [32_768, 65_536, 131_072];
/// Data offset of the first node: behind the root and the backup slot.
const NODE: u8 = 112;
/// Header and the node's namelen and prop: the place of its left link.
const LEFT: usize = 128 + NODE as usize + 8;

/// An add whose node takes all the room: it is refused for its entry (4), and the node stays. Then its left link is set.
fn circle(length: usize) -> Vec<u8> {
    let mut bytes = vec![0; length];
    let name = vec![b'b'; length - 128 - usize::from(NODE) - 21];
    let refused = AreaMut::format(&mut bytes).and_then(|mut area| area.add(&name, ""));
    assert_eq!(refused, Err(Refusal::NoRoom));
    bytes[LEFT] = NODE;
    bytes
}

fn timed<T>(call: impl FnOnce() -> T) -> (T, Duration) {
    let start = Instant::now();
    (call(), start.elapsed())
}

fn main() {
    let mut before = None;
    for length in LENGTHS {
        let bytes = circle(length);
        let area = Area::new(&bytes);
        let (found, find) = timed(|| area.find("a"));
        let (checked, check) = timed(|| area.check());
        assert_eq!(found.map(|found| found.entry), Err(Refusal::Damaged));
        assert_eq!(checked, Err(Refusal::Damaged));
        let grown = before.map_or(String::new(), |last: Duration| {
            format!(", {:.1} times as long as at half the length", find.as_secs_f64() / last.as_secs_f64())
        });
        println!("{length} bytes: find {find:?}, {:.0} checks{grown}", find.as_secs_f64() / check.as_secs_f64());
        before = Some(find);
    }
}
