//! Makes the areas of samples/ in a folder, by the proved calls alone: `samples FOLDER`.
//!
//! - `fresh.area`: formatted, nothing added.
//! - `small.area`: two settings, one updated, one long: the picture in the README.
//! - `inverter.area`: an inverter's settings, some of them updated, one long.
//! - `pulses.area`: two meters' energy pulses day by day, each counter added at 0 and updated three times, until the area is full.
//! - `most.area`: as many entries as the programs can be given: 526 names of three digits, with empty values.
//! - `settled.area`: the second settled example (docs/RULES.md, 11.2).
//! - `large.area`: the same in more bytes than the programs take.
//! - `damaged.area`: `inverter.area` with the root's children leading to the last bytes, where no node fits.

use std::path::Path;
use std::{env, error, fs};

use property_area::{AreaMut, Refusal};

const NOTE: &str =
    "Roof south 34 degrees, roof west 21 degrees. Meter cabinet left of the barn door. Access over the farmyard; dog. \
     The feed-in contract runs to the end of 2031.";

const SETTINGS: [(&str, &str); 14] = [
    ("inverter.model", "PX-4200"),
    ("inverter.unit", "71-003-5528"),
    ("inverter.firmware", "3.11.2"),
    ("inverter.limit", "70"),
    ("inverter.grid.country", "NL"),
    ("inverter.grid.voltage.nominal", "230"),
    ("inverter.grid.voltage.low", "184"),
    ("inverter.grid.voltage.high", "253"),
    ("inverter.grid.frequency.nominal", "50.00"),
    ("inverter.string.a.panels", "11"),
    ("inverter.string.b.panels", "9"),
    ("site.name", "Hoeve \"De Rietkraag\" \\ schuur\tzuid, 34\u{b0}"),
    ("site.note", NOTE),
    ("site.contact", ""),
];

const UPDATES: [(&str, &str); 4] = [
    ("inverter.limit", "100"),
    ("inverter.firmware", "3.12.0"),
    ("site.contact", "+31 6 5550 0182"),
    ("inverter.firmware", "3.12.1"),
];

fn small() -> Result<Vec<u8>, Refusal> {
    let mut bytes = vec![0; 768];
    let mut area = AreaMut::format(&mut bytes)?;
    area.add("inverter.limit", "70")?;
    area.add("inverter.note", NOTE)?;
    area.update("inverter.limit", "100")?;
    Ok(bytes)
}

fn settled(size: usize) -> Result<Vec<u8>, Refusal> {
    let mut bytes = vec![0; size];
    let mut area = AreaMut::format(&mut bytes)?;
    area.add("ab.c", "12")?;
    area.add("b", "q")?;
    Ok(bytes)
}

fn inverter() -> Result<Vec<u8>, Refusal> {
    let mut bytes = vec![0; 4_096];
    let mut area = AreaMut::format(&mut bytes)?;
    for (name, value) in SETTINGS {
        area.add(name, value)?;
    }
    for (name, value) in UPDATES {
        area.update(name, value)?;
    }
    Ok(bytes)
}

/// The pulses counted up to an hour of a day: more in summer, none at night, some days dull.
fn counted(month: u32, day: u32, hour: u32) -> u32 {
    let season = 12 - month.abs_diff(6) * 2;
    let sky = 3 + (month * 31 + day * 17) % 8;
    season * sky * hour.saturating_sub(6) * 11
}

/// A day's counter, as it stands in the evening.
fn record(area: &mut AreaMut, meter: u32, month: u32, day: u32) -> Result<(), Refusal> {
    let name = format!("pulse.meter{meter}.m{month:02}.d{day:02}");
    area.add(&name, "0")?;
    for hour in [10, 14, 20] {
        area.update(&name, (meter * counted(month, day, hour)).to_string())?;
    }
    Ok(())
}

/// Both meters' counters of every day, until there is no room for another.
fn pulses() -> Result<Vec<u8>, Refusal> {
    let mut bytes = vec![0; 65_536];
    let mut area = AreaMut::format(&mut bytes)?;
    for (meter, month, day) in
        (1..=2).flat_map(|meter| (1..=12).flat_map(move |month| (1..=28).map(move |day| (meter, month, day))))
    {
        match record(&mut area, meter, month, day) {
            Err(Refusal::NoRoom) => break,
            done => done?,
        }
    }
    Ok(bytes)
}

/// The names of these numbers, the middle one first, so that the tree is even.
fn spread(area: &mut AreaMut, numbers: std::ops::Range<usize>) -> Result<(), Refusal> {
    if numbers.is_empty() {
        return Ok(());
    }
    let middle = (numbers.start + numbers.end) / 2;
    area.add(format!("{middle:03}"), "")?;
    spread(area, numbers.start..middle)?;
    spread(area, middle + 1..numbers.end)
}

/// A node of 24 bytes and an entry of 100 for each name: 526 times 124 is all but 72 of the bytes behind the backup slot.
fn most() -> Result<Vec<u8>, Refusal> {
    let mut bytes = vec![0; 65_536];
    spread(&mut AreaMut::format(&mut bytes)?, 0..526)?;
    Ok(bytes)
}

/// The root node's children, the word at byte 128 + 16, lead to where no node fits before the end.
fn damaged(mut bytes: Vec<u8>) -> Vec<u8> {
    bytes[144..148].copy_from_slice(&3_960u32.to_le_bytes());
    bytes
}

fn main() -> Result<(), Box<dyn error::Error>> {
    let folder = env::args().nth(1).ok_or("usage: samples FOLDER")?;
    let mut fresh = vec![0; 240];
    AreaMut::format(&mut fresh)?;
    let settings = inverter()?;
    let areas = [
        ("fresh.area", fresh),
        ("small.area", small()?),
        ("settled.area", settled(4_096)?),
        ("large.area", settled(65_540)?),
        ("damaged.area", damaged(settings.clone())),
        ("inverter.area", settings),
        ("pulses.area", pulses()?),
        ("most.area", most()?),
    ];
    for (name, bytes) in areas {
        fs::write(Path::new(&folder).join(name), bytes)?;
    }
    Ok(())
}
