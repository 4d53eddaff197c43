//! The tree: nested lists of segments, siblings in their order, with what their links lead to.

use super::order::Place;
use super::{inert, Drawing};
use crate::look::{Entry, Kind, Link};
use crate::text::commas;

/// From this depth on lists are not nested any further: a browser stops somewhere, and so does a reader.
const DEEPEST: usize = 16;

impl Drawing<'_> {
    /// The tree's section.
    pub fn tree(&self, order: &[Place]) -> String {
        let mut out = String::from(
            "<section>\n<h2>Tree</h2>\n<p class=\"note\">Each line is a node with its segment, below it what hangs below. Siblings stand in \
             order: shorter is less, then byte by byte. A full dot is the one that the link from above leads to; the arrows are left and right \
             links.</p>\n",
        );
        out.push_str("<div class=\"wide\">\n<ul class=\"tree\">\n");
        out.push_str(&self.root());
        let mut open = 0;
        for (i, place) in order.iter().enumerate() {
            let level = place.depth.min(DEEPEST);
            while open > level.saturating_add(1) {
                out.push_str("</li></ul>\n");
                open = open.saturating_sub(1);
            }
            if open == level.saturating_add(1) {
                out.push_str("</li>\n");
            } else {
                let flat = if is_flat(order.get(i..).unwrap_or_default()) { " flat" } else { "" };
                out.push_str(&format!("<ul class=\"tree{flat}\">\n"));
                open = open.saturating_add(1);
            }
            out.push_str(&self.item(place));
        }
        out.push_str(&"</li></ul>\n".repeat(open.saturating_add(1)));
        out.push_str("</div>\n</section>\n");
        out
    }

    /// The root, above all others.
    fn root(&self) -> String {
        let number = self.look.objects.iter().position(|object| matches!(object.kind, Kind::Root(_)));
        number.map_or_else(|| "<li>".to_string(), |number| self.item(&Place { number, entry: None, depth: 0, top: true }))
    }

    fn item(&self, place: &Place) -> String {
        let (Some(node), Some(object)) = (self.look.node(place.number), self.look.object(place.number)) else {
            return "<li>".to_string();
        };
        let top = if place.top { " class=\"top\"" } else { "" };
        let mark = if self.marks.contains_key(&place.number) { " x" } else { "" };
        let deep = if place.depth > DEEPEST {
            format!("<small>level {}</small> ", commas(place.depth.saturating_add(1)))
        } else {
            String::new()
        };
        let name = if node.above.is_none() { "<em>root</em>".to_string() } else { inert(node.name.of(self.bytes), 64) };
        let mut out = format!("<li{top}>{deep}<a class=\"n{mark}\" href=\"#b{}\">{name}</a>", object.at);
        for (field, link) in node.links() {
            out.push_str(&self.leads(field, link));
        }
        out
    }

    /// What a link of a node leads to. Children that can be followed stand below, and need no word.
    fn leads(&self, field: &str, link: Link) -> String {
        let Some(to) = link.to else {
            return String::new();
        };
        let sign = match field {
            "left" => "\u{25c2}",
            "right" => "\u{25b8}",
            "entry" => "=",
            _ => "\u{25be}",
        };
        match link.leads.and_then(|number| self.look.object(number)).map(|object| &object.kind) {
            Some(Kind::Node(_)) if field == "children" => String::new(),
            Some(Kind::Node(other)) => {
                let name = inert(other.name.of(self.bytes), 24);
                format!(" <a class=\"l\" href=\"#b{to}\" title=\"{field} link, to byte {to}\">{sign}\u{a0}{name}</a>")
            }
            Some(Kind::Entry(entry)) => {
                let value = self.value(entry).map_or_else(|| "<em>out of reach</em>".to_string(), |value| inert(value, 32));
                format!(" <a class=\"e\" href=\"#e{to}\">{sign} {value}</a>")
            }
            _ => format!(" <span class=\"l x\">{sign} {field} at byte {}</span>", commas(to)),
        }
    }

    /// The value of an entry; of a long one, if its link can be followed.
    pub fn value(&self, entry: &Entry) -> Option<&[u8]> {
        let Some(far) = entry.far else {
            return Some(entry.slot.of(self.bytes));
        };
        match self.look.object(far.leads?).map(|object| &object.kind) {
            Some(Kind::Value(text)) => Some(text.of(self.bytes)),
            _ => None,
        }
    }
}

/// Whether a list that begins here is long and has no lists in it, so that it can stand in columns.
fn is_flat(rest: &[Place]) -> bool {
    let depth = rest.first().map_or(0, |place| place.depth);
    let same = rest.iter().take_while(|place| place.depth == depth).count();
    let ends = rest.get(same).map_or(true, |next| next.depth < depth);
    ends && same > 12
}
