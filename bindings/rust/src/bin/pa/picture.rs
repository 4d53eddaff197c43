//! An area drawn as text: what stands where, object by object, in the order of the bytes.
//!
//! It is a drawing for people, by the tool's second look, and no proof. Every byte of the file is in one row. A row whose object breaks a rule,
//! or has a link that does, says so at its end.

use crate::look::{look, Kind, Look, Node, What, VERSION};
use crate::text::quoted;

/// The picture of any bytes; of those without a header that can be followed, a line that says why.
pub fn text(bytes: &[u8]) -> String {
    let look = look(bytes);
    if !look.has_header() {
        return no_area(&look);
    }
    let marks = look.marks();
    let rows: Vec<_> = look.rows(bytes.len()).into_iter().map(|row| (kind(&look, bytes, row.what), row)).collect();
    let wide = rows.iter().map(|(kind, _)| kind.len()).max().unwrap_or(0);
    let mut out = String::from("  byte   size  what\n");
    for (kind, row) in rows {
        let says = says(&look, bytes, row.what);
        let mark = match row.what {
            What::Object(number) => marks.get(&number).map(|rules| format!("  <- broken: {}", rules.join("; "))),
            _ => None,
        };
        let line = format!("{:6} {:6}  {kind:wide$}  {says}{}", row.at, row.size, mark.unwrap_or_default());
        out.push_str(line.trim_end());
        out.push('\n');
    }
    out
}

/// Why nothing is drawn.
fn no_area(look: &Look) -> String {
    look.first_broken().map_or_else(String::new, |broken| format!("no property area: {}\n", broken.rule))
}

/// What stands in a row, in a word or two.
pub fn kind(look: &Look, bytes: &[u8], what: What) -> String {
    let object = match what {
        What::Object(number) => look.object(number),
        What::Unlinked => return "unlinked".to_string(),
        What::Free => return "free".to_string(),
    };
    match object.map(|object| &object.kind) {
        Some(Kind::Header) => "header".to_string(),
        Some(Kind::Root(_)) => "node root".to_string(),
        Some(Kind::Slot(_)) => "backup slot".to_string(),
        Some(Kind::Node(node)) => format!("node {}", quoted(node.name.of(bytes))),
        Some(Kind::Entry(entry)) => format!("entry {}", quoted(entry.name.of(bytes))),
        Some(Kind::Value(_)) => "long value".to_string(),
        None => String::new(),
    }
}

/// What there is to say of a row.
pub fn says(look: &Look, bytes: &[u8], what: What) -> String {
    let What::Object(number) = what else {
        return String::new();
    };
    match look.object(number).map(|object| &object.kind) {
        Some(Kind::Header) => format!("used {}, magic PROP, version {VERSION:#010x}", look.used),
        Some(Kind::Root(node) | Kind::Node(node)) => leads(node),
        Some(Kind::Slot(text) | Kind::Value(text)) => quoted(text.of(bytes)),
        Some(Kind::Entry(entry)) => {
            let value = match entry.far.and_then(|far| far.to) {
                Some(to) => format!("value at {to}"),
                None => format!("value {}", quoted(entry.slot.of(bytes))),
            };
            format!("serial {:#010x}, {value}", entry.serial)
        }
        None => String::new(),
    }
}

/// The links of a node that are not zero.
fn leads(node: &Node) -> String {
    let links = node.links().into_iter().filter_map(|(field, link)| link.to.map(|to| format!("{field} at {to}")));
    let links = links.collect::<Vec<_>>();
    if links.is_empty() {
        return "leads nowhere".to_string();
    }
    links.join(", ")
}
