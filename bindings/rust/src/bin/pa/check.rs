//! check: whether areas are sound, and what is worth knowing of a sound one.

use property_area::{Area, Checked, Entry, Refusal};

use crate::args::Call;
use crate::explain::{explain, refused_line};
use crate::input::{with_each, Input};
use crate::look::used;
use crate::output::{Goes, Output, Status};
use crate::serial::odd;
use crate::text::named;

/// The sound area's lines: how much it holds, then each entry whose write was not ended.
fn lines(area: &Checked) -> Result<Vec<String>, Refusal> {
    let entries = area.entries()?;
    let (count, used) = (entries.len(), used(area.bytes()));
    let noun = if count == 1 { "entry" } else { "entries" };
    let unfinished = entries.filter(Entry::is_odd).map(|entry| format!("entry {}: {}", named(entry.name), odd(&entry)));
    Ok([format!("sound: {count} {noun}, used mark {used}")].into_iter().chain(unfinished).collect())
}

fn check(output: &mut Output, call: &Call, input: &Input) -> Goes {
    // With several files a line says whose it is: such lines can be sorted and searched.
    let whose = if call.operands.len() > 1 { format!("{}: ", input.label()) } else { String::new() };
    match Area::new(&input.bytes).checked().and_then(|area| lines(&area)) {
        Ok(lines) => lines.iter().try_for_each(|line| output.line(&format!("{whose}{line}"))),
        Err(why) => {
            output.worsen(Status::Refused);
            output.line(&format!("{whose}{}", refused_line(why)))?;
            explain(output, input, why)
        }
    }
}

pub fn run(output: &mut Output, call: &Call) -> Goes {
    with_each(output, &call.operands, |output, input| check(output, call, input))
}
