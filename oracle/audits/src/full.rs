//! Full areas, whose dumps are as long as can be: those of the cases stay under the two programs' 65,536 bytes.

use crate::rng::Rng;
use calls::Side;
use trees::DATA;
use twin::Twin;

pub const KIND: &str = "full";

/// Each has one entry, with a long value up to its last word: any bytes, or bytes that are all escaped. They are played after the cases and not counted
/// among the areas, so that a run's areas stay what they were.
pub fn areas(seed: u64) -> Vec<Vec<u8>> {
    let mut rng = Rng::new(seed);
    let mut any = || rng.within(1, 255) as u8;
    vec![area(65_536, &mut any), area(131_072, &mut any), area(131_072, &mut || 0xff)]
}

fn area(len: usize, byte: &mut dyn FnMut() -> u8) -> Vec<u8> {
    let mut area = vec![0; len];
    // Root and backup slot take 112 bytes, node and entry of "a" 24 and 100, and the value a zero.
    let value: Vec<u8> = (0..len - DATA - 112 - 24 - 100 - 1).map(|_| byte()).collect();
    let refusals = (Twin.format(&mut area), Twin.add(&mut area, b"a", &value));
    assert_eq!(refusals, (0, 0), "a full area is made");
    area
}
