//! list: every entry with its place and its serial, for people and for programs.

use std::os::unix::ffi::OsStrExt;

use property_area::{Area, Entries, Entry, Refusal};

use crate::args::Call;
use crate::explain::{explain, refuse, sentence};
use crate::input::{with_each, Input};
use crate::json::Object;
use crate::look::used;
use crate::output::{Goes, Output};
use crate::serial::updates;
use crate::text::escaped;
use crate::verbs::head;

fn plain(output: &mut Output, call: &Call, input: &Input) -> Goes {
    head(output, call, input)?;
    match Area::new(&input.bytes).entries() {
        Ok(mut entries) => entries.try_for_each(|entry| output.line(&row(&entry))),
        Err(why) => refuse(output, input, why),
    }
}

fn row(entry: &Entry) -> String {
    format!("{:6} {:#010x} {}", entry.offset, entry.serial, escaped(entry.name))
}

/// An object on a line of its own for each file, for a refused one too.
fn json(output: &mut Output, input: &Input) -> Goes {
    let listed = Area::new(&input.bytes).entries();
    let mut object = Object::new().bytes("file", input.file.as_bytes());
    if let Some(length) = input.length() {
        object = object.number("length", length as u64);
    }
    match listed {
        Ok(entries) => output.line(&with_entries(object, input, entries).end()),
        Err(why) => {
            output.line(&with_refusal(object, why).end())?;
            explain(output, input, why)
        }
    }
}

fn with_entries(object: Object, input: &Input, entries: Entries) -> Object {
    let used = used(&input.bytes);
    object.number("used", used.into()).array("entries", entries.map(|entry| entry_object(&entry)).collect())
}

fn with_refusal(object: Object, why: Refusal) -> Object {
    object.number("refused", why.number().into()).bytes("why", sentence(why).as_bytes())
}

fn entry_object(entry: &Entry) -> Object {
    Object::new()
        .bytes("name", entry.name)
        .bytes("value", entry.value)
        .number("offset", entry.offset.into())
        .number("serial", entry.serial.into())
        .number("updates", updates(entry).into())
        .truth("long", entry.is_long())
        .truth("odd", entry.is_odd())
}

pub fn run(output: &mut Output, call: &Call) -> Goes {
    with_each(output, &call.operands, |output, input| if call.chosen { json(output, input) } else { plain(output, call, input) })
}
