//! The verbs: the table of them, and those that are a few lines each.

use std::os::unix::ffi::OsStrExt;

use property_area::Area;

use crate::args::Call;
use crate::explain::{explain, refuse};
use crate::input::{with, with_each, Input};
use crate::output::{Goes, Output};
use crate::text::named;
use crate::{check, help, html, list, lookup, picture, serial};

/// The option that a verb has.
pub enum Choice {
    None,
    Flag(&'static str),
    Number(&'static str),
}

/// A verb of the tool: how it is called, what it does, what help says of it.
pub struct Verb {
    pub name: &'static str,
    /// The operands it wants, in words, and how many.
    pub wants: &'static str,
    pub least: usize,
    pub most: usize,
    /// Whether every operand is a file; else the first is, and names follow.
    pub all_files: bool,
    pub choice: Choice,
    pub run: fn(&mut Output, &Call) -> Goes,
    pub help: &'static str,
}

/// A verb on files, as many as one likes, without an option.
const FILES: Verb = Verb {
    name: "dump",
    wants: "a FILE",
    least: 1,
    most: usize::MAX,
    all_files: true,
    choice: Choice::None,
    run: dump,
    help: help::DUMP,
};

/// A verb on a file and names.
const NAMES: Verb = Verb { wants: "a FILE and a NAME", least: 2, all_files: false, ..FILES };

pub static VERBS: [Verb; 7] = [
    FILES,
    Verb { name: "lookup", wants: "a FILE", least: 1, run: lookup::run, help: help::LOOKUP, ..NAMES },
    Verb { name: "get", most: 2, run: get, help: help::GET, ..NAMES },
    Verb { name: "serial", choice: Choice::Number("--since"), run: serial::run, help: help::SERIAL, ..NAMES },
    Verb { name: "check", run: check::run, help: help::CHECK, ..FILES },
    Verb { name: "list", choice: Choice::Flag("--json"), run: list::run, help: help::LIST, ..FILES },
    Verb { name: "picture", most: 1, choice: Choice::Flag("--html"), run: draw, help: help::PICTURE, ..FILES },
];

/// Where there are several files, a line above what is printed of one.
pub fn head(output: &mut Output, call: &Call, input: &Input) -> Goes {
    if call.operands.len() > 1 {
        output.line(&format!("==> {} <==", input.label()))?;
    }
    Ok(())
}

fn dump(output: &mut Output, call: &Call) -> Goes {
    with_each(output, &call.operands, |output, input| {
        head(output, call, input)?;
        match Area::new(&input.bytes).dump() {
            Ok(text) => output.put(&text),
            Err(why) => refuse(output, input, why),
        }
    })
}

/// A value and nothing else, of a sound area: whoever reads it has no place to see that something is wrong with the area.
fn get(output: &mut Output, call: &Call) -> Goes {
    with(output, call.file(), |output, input| {
        let area = match Area::new(&input.bytes).checked() {
            Ok(area) => area,
            Err(why) => return explain(output, input, why),
        };
        call.names().iter().try_for_each(|name| match area.get(name.as_bytes()) {
            Ok(value) => output.put(value),
            Err(why) => output.refused(&named(name.as_bytes()), why),
        })
    })
}

/// Draws any bytes, as far as links can be followed; whether they are an area, and a sound one, says the library.
fn draw(output: &mut Output, call: &Call) -> Goes {
    with_each(output, &call.operands, |output, input| {
        let drawn = if call.chosen { html::page(&input.label(), &input.bytes) } else { picture::text(&input.bytes) };
        output.put(drawn.as_bytes())?;
        Area::new(&input.bytes).check().or_else(|why| explain(output, input, why))
    })
}
