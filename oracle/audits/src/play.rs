//! Plays a trial: some calls on one area, with scratch, lists and rooms that are long enough, too short and too long.

use crate::cases::Trial;
use crate::hold::{hold, Call, Difference, Ours, What};
use crate::rng::Rng;
use crate::tally::Tally;
use checker::{dump_text, survey, Checker};

/// Makes of an area's seed that of its dumps.
const DUMPS: u64 = 0x6475_6d70_7300;

/// A difference, with what it takes to see it again.
pub struct Shown {
    pub call: Call,
    pub fill: u64,
    pub difference: Box<Difference>,
}

/// Checks and listings for an area with so many entries.
fn calls(rng: &mut Rng, len: usize, entries: Option<usize>) -> Vec<Call> {
    let enough = len / 4;
    let mut some = || enough + rng.pick(&[0, 0, 1, 5]);
    let mut calls = vec![Call { scratch: some(), what: What::Check }];
    let count = entries.unwrap_or(2);
    calls.push(Call { scratch: some(), what: What::List { places: count + rng.pick(&[0, 0, 1, 4]) } });
    if count > 0 {
        let places = fewer(rng, count);
        calls.push(Call { scratch: enough, what: What::List { places } });
    }
    if enough > 0 && rng.once_in(4) {
        let scratch = fewer(rng, enough);
        let what = rng.pick(&[What::Check, What::List { places: 0 }, What::List { places: count }]);
        calls.push(Call { scratch, what });
    }
    calls
}

/// Too few, mostly by one.
fn fewer(rng: &mut Rng, enough: usize) -> usize {
    if rng.once_in(4) {
        rng.below(enough)
    } else {
        enough - 1
    }
}

/// The dumps for an area with so many entries and so long a text: one that lacks nothing, and one that lacks something.
fn dumps(rng: &mut Rng, len: usize, sound: Option<(usize, usize)>) -> Vec<Call> {
    let enough = len / 4;
    let (count, text) = sound.unwrap_or((2, 40));
    let (scratch, places) = (enough + rng.pick(&[0, 0, 1, 5]), count + rng.pick(&[0, 0, 1, 4]));
    let room = text + rng.pick(&[0, 0, 1, 7, 300]);
    let mut dumps = vec![Call { scratch, what: What::Dump { places, room } }];
    // An area that is not sound is refused before list and room are looked at: that is tried less often.
    if sound.is_some() || rng.once_in(4) {
        dumps.push(match rng.below(8) {
            0 if enough > 0 => Call { scratch: fewer(rng, enough), what: What::Dump { places, room } },
            1 if count > 0 => Call { scratch, what: What::Dump { places: fewer(rng, count), room } },
            _ => Call { scratch, what: What::Dump { places, room: fewer(rng, text) } },
        });
    }
    dumps
}

/// How many entries a sound area has, and how long its dump is: no more than property_area.h says is always enough.
fn measured(area: &[u8], entries: &[u32]) -> (usize, usize) {
    let text = dump_text(area, entries).len();
    assert!(entries.len() <= area.len() / 124, "PA_PLACES: {} entries in {} bytes", entries.len(), area.len());
    assert!(text <= 4 * area.len(), "PA_ROOM: a dump of {text} bytes of an area of {}", area.len());
    (entries.len(), text)
}

/// Plays it and counts; the first difference, if there is one.
pub fn play(ours: Ours, trial: &Trial, fill: u64, tally: &mut Tally) -> Result<(), Shown> {
    let mut rng = Rng::new(fill);
    let truth = Checker::DOCUMENT.has_header(&trial.area).then(|| survey(&trial.area));
    let sound = truth.as_ref().and_then(|truth| truth.as_ref().ok()).map(|entries| measured(&trial.area, entries));
    let refusal = match truth {
        None => 8,
        Some(Err(_)) => 5,
        Some(Ok(_)) => 0,
    };
    tally.area(trial.kind, refusal, truth.and_then(Result::err));
    for call in calls(&mut rng, trial.area.len(), sound.map(|(entries, _)| entries)) {
        compare(ours, &trial.area, call, rng.next(), tally)?;
    }
    play_dumps(ours, &trial.area, sound, fill, tally)
}

/// The dumps draw from a generator of their own, so that the other calls stay what they were.
fn play_dumps(ours: Ours, area: &[u8], sound: Option<(usize, usize)>, fill: u64, tally: &mut Tally) -> Result<(), Shown> {
    let mut rng = Rng::new(fill ^ DUMPS);
    for call in dumps(&mut rng, area.len(), sound) {
        compare(ours, area, call, rng.next(), tally)?;
    }
    Ok(())
}

/// Plays dumps of a full area.
pub fn play_full(ours: Ours, area: &[u8], fill: u64, tally: &mut Tally) -> Result<(), Shown> {
    let sound = survey(area).ok().map(|entries| measured(area, &entries));
    play_dumps(ours, area, sound, fill, tally)
}

fn compare(ours: Ours, area: &[u8], call: Call, fill: u64, tally: &mut Tally) -> Result<(), Shown> {
    let answer = hold(ours, area, call, fill).map_err(|difference| Shown { call, fill, difference })?;
    tally.call(call, answer.refusal, answer.count);
    Ok(())
}

/// Zeroes words of the area, in chunks that are halved down to one, as long as the same call still differs.
pub fn shrink(ours: Ours, area: &[u8], mut shown: Shown) -> (Vec<u8>, Shown) {
    let mut area = area.to_vec();
    let mut chunk = area.len().next_power_of_two();
    while chunk >= 4 {
        for from in (0..area.len()).step_by(chunk) {
            let to = (from + chunk).min(area.len());
            let mut fewer = area.clone();
            fewer[from..to].fill(0);
            if fewer == area {
                continue;
            }
            if let Err(difference) = hold(ours, &fewer, shown.call, shown.fill) {
                (area, shown.difference) = (fewer, difference);
            }
        }
        chunk /= 2;
    }
    (area, shown)
}
