//! The tables: the entries in the order of a listing, and the objects in the order of the bytes.

use super::{count, escaped, inert, Drawing};
use crate::look::{Entry, Kind, Link, What, HEADER, VERSION};
use crate::picture;
use crate::text::{commas, quoted};

/// How much of a name or a value a table shows.
const SHOWN: usize = 240;

impl Drawing<'_> {
    /// The entries, by their numbers.
    pub fn entries(&self, entries: &[usize]) -> String {
        let mut out = String::from("<section>\n<h2>Entries</h2>\n");
        if entries.is_empty() {
            out.push_str("<p>There are none.</p>\n</section>\n");
            return out;
        }
        out.push_str(
            "<p class=\"note\">In the order of a listing. The serial of a short value counts its updates, modulo 32,768; where it is odd, a \
             write was begun and not ended. The offset is what calls take: it counts from byte 128.</p>\n<div class=\"wide\">\n<table>\n<thead>\
             <tr><th>Name</th><th>Value</th><th>Serial</th><th class=\"r\">Updates</th><th>Kind</th><th class=\"r\">Offset</th></tr>\
             </thead>\n<tbody>\n",
        );
        for &number in entries {
            if let Some(object) = self.look.object(number) {
                if let Kind::Entry(entry) = &object.kind {
                    out.push_str(&self.entry(number, object.at, entry));
                }
            }
        }
        out.push_str("</tbody>\n</table>\n</div>\n</section>\n");
        out
    }

    fn entry(&self, number: usize, at: usize, entry: &Entry) -> String {
        let mark = if self.marks.contains_key(&number) { " class=\"x\"" } else { "" };
        let value = match self.value(entry) {
            Some(value) if value.len() > SHOWN => {
                format!("{} <small>({} bytes)</small>", inert(value, SHOWN), commas(value.len()))
            }
            Some(value) => inert(value, SHOWN),
            None => "<em>out of reach</em>".to_string(),
        };
        let kind = if entry.is_long() { "long" } else { "short" };
        let odd = if entry.is_odd() { " <b class=\"odd\">odd</b>" } else { "" };
        format!(
            "<tr id=\"e{at}\"{mark}><td class=\"name value\">{}</td><td class=\"value\">{value}</td><td><code>{:#010x}</code></td>\
             <td class=\"r\">{}</td><td>{kind}{odd}</td><td class=\"r\"><a href=\"#b{at}\">{}</a></td></tr>\n",
            inert(entry.name.of(self.bytes), SHOWN),
            entry.serial,
            commas(entry.updates() as usize),
            commas(at.saturating_sub(HEADER)),
        )
    }

    /// Every byte of the file, a row for each object.
    pub fn objects(&self) -> String {
        let rows = self.look.rows(self.bytes.len());
        let mut out = format!(
            "<section>\n<h2>Objects</h2>\n<p class=\"note\">{}, in the order of the bytes. All numbers here count from the file's first \
             byte.</p>\n<div class=\"wide\">\n<table>\n<thead><tr><th class=\"r\">Byte</th>\
             <th class=\"r\">Size</th><th>What</th><th>It says</th></tr></thead>\n\
             <tbody>\n",
            count(rows.len(), "row", "rows")
        );
        for row in rows {
            let mark = if self.is_broken(row.what) { " class=\"x\"" } else { "" };
            out.push_str(&format!(
                "<tr id=\"b{}\"{mark}><td class=\"r\">{}</td><td class=\"r\">{}</td><td class=\"what\"><i class=\"{}\"></i>{}</td><td class=\"says\">{}</td></tr>\n",
                row.at,
                commas(row.at),
                commas(row.size),
                self.colour(row.what),
                escaped(&picture::kind(self.look, self.bytes, row.what)),
                self.says(row.what),
            ));
        }
        out.push_str("</tbody>\n</table>\n</div>\n</section>\n");
        out
    }

    /// What there is to say of a row, with its links, and the rules that it breaks.
    fn says(&self, what: What) -> String {
        let What::Object(number) = what else {
            return String::new();
        };
        let says = match self.look.object(number).map(|object| &object.kind) {
            Some(Kind::Header) => format!("used {}, magic PROP, version {VERSION:#010x}", commas(self.look.used as usize)),
            Some(Kind::Root(node) | Kind::Node(node)) => {
                let links = node.links().into_iter().filter_map(|(field, link)| anchor(field, link));
                links.collect::<Vec<_>>().join(", ")
            }
            Some(Kind::Slot(text) | Kind::Value(text)) => escaped(&quoted(text.of(self.bytes))),
            Some(Kind::Entry(entry)) => {
                let far = entry.far.and_then(|far| anchor("value", far));
                let value = far.unwrap_or_else(|| format!("value {}", escaped(&quoted(entry.slot.of(self.bytes)))));
                format!("serial {:#010x}, {value}", entry.serial)
            }
            None => String::new(),
        };
        let rules = self.marks.get(&number).map(|rules| format!("<b class=\"rule\">{}</b>", escaped(&rules.join("; "))));
        format!("{says}{}", rules.unwrap_or_default())
    }
}

/// A link that is not zero, to the row to which it leads.
fn anchor(field: &str, link: Link) -> Option<String> {
    let to = link.to?;
    let says = format!("{field} at {}", commas(to));
    Some(if link.leads.is_some() { format!("<a href=\"#b{to}\">{says}</a>") } else { says })
}
