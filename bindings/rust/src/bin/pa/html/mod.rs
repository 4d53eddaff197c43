//! An area drawn as a page of HTML: one file, without script and without anything from outside.
//!
//! Names and values are any bytes: they are written as the dump writes them, and then once more for HTML, so that nothing of an area is taken
//! for a part of the page.

mod bytes;
mod order;
mod tables;
mod tree;

use crate::look::{look, Kind, Look, What};
use crate::text::{commas, shown};
use std::collections::BTreeMap;

/// A page under a title, of any bytes.
pub fn page(title: &str, bytes: &[u8]) -> String {
    let look = look(bytes);
    let drawing = Drawing { look: &look, bytes, marks: look.marks() };
    let body = if drawing.look.has_header() { drawing.body() } else { drawing.no_area() };
    let title = escaped(title);
    format!(
        "<!DOCTYPE html>\n<html lang=\"en\">\n<head>\n<meta charset=\"utf-8\">\n\
         <meta name=\"viewport\" content=\"width=device-width, initial-scale=1\">\n<title>{title}</title>\n\
         <style>\n{}</style>\n</head>\n<body>\n<header>\n<h1>{title}</h1>\n{body}\
         <footer>\n<p>Drawn by <code>pa picture --html</code>. The links were followed by a second look of the tool's own, which is not proved. \
         Whether an area is sound is told by <code>pa check</code>, which is.</p>\n</footer>\n</body>\n</html>\n",
        include_str!("style.css")
    )
}

/// A text in HTML. Control characters have no place there.
fn escaped(text: &str) -> String {
    let mut out = String::new();
    for c in text.chars() {
        match c {
            '&' => out.push_str("&amp;"),
            '<' => out.push_str("&lt;"),
            '>' => out.push_str("&gt;"),
            '"' => out.push_str("&quot;"),
            '\'' => out.push_str("&#39;"),
            c if c.is_control() => out.push('\u{fffd}'),
            c => out.push(c),
        }
    }
    out
}

/// The first bytes of a name or a value in HTML.
fn inert(text: &[u8], most: usize) -> String {
    if text.is_empty() {
        return "<em>empty</em>".to_string();
    }
    escaped(&shown(text, most))
}

/// A number of things.
fn count(number: usize, one: &str, more: &str) -> String {
    format!("{} {}", commas(number), if number == 1 { one } else { more })
}

/// What is drawn.
struct Drawing<'a> {
    look: &'a Look,
    bytes: &'a [u8],
    /// The rules that each object breaks.
    marks: BTreeMap<usize, Vec<&'a str>>,
}

impl Drawing<'_> {
    fn no_area(&self) -> String {
        let why = escaped(self.look.first_broken().map_or("", |broken| broken.rule.as_str()));
        format!("</header>\n<section class=\"broken\">\n<h2>This is no property area</h2>\n<p>The reason: {why}. Nothing is drawn.</p>\n</section>\n")
    }

    fn body(&self) -> String {
        let order = order::order(self.look);
        let entries: Vec<_> = order.iter().filter_map(|place| place.entry).collect();
        [
            self.facts(order.len(), entries.len()),
            "</header>\n".to_string(),
            self.broken(),
            self.strip(),
            self.tree(&order),
            self.entries(&entries),
            self.slot(),
            self.objects(),
        ]
        .concat()
    }

    /// The area in a few numbers.
    fn facts(&self, nodes: usize, entries: usize) -> String {
        let verdict = match self.look.broken.len() {
            0 => "<b class=\"good\">none</b>".to_string(),
            some => format!("<b class=\"bad\"><a href=\"#broken\">{}</a></b>", commas(some)),
        };
        let fact = |what: &str, number: usize, unit: &str| {
            format!("<div><dt>{what}</dt><dd><b>{}</b>{unit}</dd></div>\n", commas(number))
        };
        [
            "<p class=\"note\">A property area: a header, a tree of nodes for the segments of names, an entry for each name.</p>\n".to_string(),
            "<dl class=\"facts\">\n".to_string(),
            fact("Area", self.bytes.len(), " bytes"),
            fact("Entries", entries, ""),
            fact("Nodes", nodes, ""),
            fact("Used mark", self.look.used as usize, ""),
            fact("Unlinked", self.size_of(What::Unlinked), " bytes"),
            fact("Free", self.size_of(What::Free), " bytes"),
            format!("<div><dt>Broken rules</dt><dd>{verdict}</dd></div>\n</dl>\n"),
        ]
        .concat()
    }

    /// How many bytes have no object, in the used part or behind it.
    fn size_of(&self, what: What) -> usize {
        self.look.rows(self.bytes.len()).iter().filter(|row| row.what == what).map(|row| row.size).sum()
    }

    /// The rules that are broken, in a box; the first of many.
    fn broken(&self) -> String {
        const MOST: usize = 25;
        let broken = &self.look.broken;
        if broken.is_empty() {
            return String::new();
        }
        let mut out = format!(
            "<section class=\"broken\" id=\"broken\">\n<h2>{}</h2>\n<ol>\n",
            count(broken.len(), "rule is broken", "rules are broken")
        );
        for one in broken.iter().take(MOST) {
            let at = self.look.object(one.object).map_or(0, |object| object.at);
            let says = escaped(&format!("in {}: {}", self.look.called(self.bytes, one.object), one.rule));
            out.push_str(&format!("<li><a href=\"#b{at}\">Byte {}</a>, {says}.</li>\n", commas(one.at)));
        }
        out.push_str("</ol>\n");
        if broken.len() > MOST {
            let rest = commas(broken.len().saturating_sub(MOST));
            out.push_str(&format!("<p>And {rest} more: the list of objects has them all.</p>\n"));
        }
        out.push_str("<p class=\"note\">In the order in which the links were followed; what comes later may follow from the first.</p>\n</section>\n");
        out
    }

    /// The backup slot.
    fn slot(&self) -> String {
        let slot = self.look.objects.iter().find_map(|object| match object.kind {
            Kind::Slot(text) => Some((object.at, text.of(self.bytes))),
            _ => None,
        });
        let Some((at, text)) = slot else {
            return String::new();
        };
        format!(
            "<section>\n<h2>Backup slot</h2>\n<p class=\"note\">92 bytes from <a href=\"#b{at}\">byte {at}</a> on keep what the last update \
             replaced: of a write that was begun and not ended, the value before it.</p>\n<p class=\"value\">{}</p>\n</section>\n",
            inert(text, text.len())
        )
    }
}
