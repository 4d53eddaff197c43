//! serial: how often an entry was updated.

use std::ffi::OsString;
use std::os::unix::ffi::OsStrExt;

use property_area::{Area, Checked, Entry, Refusal};

use crate::args::Call;
use crate::explain::{explain, refused_line};
use crate::input::with;
use crate::output::{Goes, Output, Status};
use crate::text::named;

/// How many updates a serial counts. It goes round at 32,768.
pub fn updates(entry: &Entry) -> u32 {
    entry.updates(0)
}

fn line(entry: &Entry) -> String {
    let kind = if entry.is_long() { "long" } else { "short" };
    let odd = if entry.is_odd() { " odd" } else { "" };
    format!("{:#010x} {} {kind}{odd}", entry.serial, updates(entry))
}

/// What was found of a name: a line, and what is worth knowing of a distance that is not the number of finished updates.
fn answer(output: &mut Output, found: &Entry, since: Option<u32>) -> Goes {
    let Some(earlier) = since else {
        return output.line(&line(found));
    };
    output.line(&found.updates(earlier).to_string())?;
    if found.is_odd() {
        output.say(&format!("{}: {}", named(found.name), odd(found)))?;
    }
    if found.is_long() {
        output.say(&format!("{}: its value is long, and such an entry cannot be updated", named(found.name)))?;
    }
    Ok(())
}

/// Says of an entry with an odd serial that it has one.
pub fn odd(entry: &Entry) -> String {
    format!("its serial {:#010x} is odd: a write was begun and not ended", entry.serial)
}

fn ask(output: &mut Output, area: &Checked, name: &OsString, since: Option<u32>) -> Goes {
    match area.entry(name.as_bytes()) {
        Ok(found) => answer(output, &found, since),
        Err(why) => {
            output.worsen(Status::Refused);
            output.line(&refused_line(why))?;
            output.refused(&named(name.as_bytes()), why)
        }
    }
}

/// A line for each name, so that the lines go with the names where the area is refused, too.
fn refuse_names(output: &mut Output, names: &[OsString], why: Refusal) -> Goes {
    output.worsen(Status::Refused);
    names.iter().try_for_each(|_| output.line(&refused_line(why)))
}

pub fn run(output: &mut Output, call: &Call) -> Goes {
    if call.number.is_some() && call.names().len() > 1 {
        return output.wrong("--since goes with one NAME");
    }
    with(output, call.file(), |output, input| match Area::new(&input.bytes).checked() {
        Ok(area) => call.names().iter().try_for_each(|name| ask(output, &area, name, call.number)),
        Err(why) => {
            refuse_names(output, call.names(), why)?;
            explain(output, input, why)
        }
    })
}
