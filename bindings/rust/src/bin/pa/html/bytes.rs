//! The bytes of the file, drawn in lines of equal length: each object as wide as it has bytes.

use super::{escaped, inert, Drawing};
use crate::look::{Kind, What};
use crate::picture;
use crate::text::commas;

/// Some bytes of one line.
struct Piece {
    line: usize,
    at: usize,
    size: usize,
    /// The row of which it is a part: its number, its first byte, its size.
    row: usize,
    first: usize,
    whole: usize,
    what: What,
}

impl Piece {
    fn end(&self) -> usize {
        self.at.saturating_add(self.size)
    }
}

impl Drawing<'_> {
    /// The strip of bytes with its legend.
    pub fn strip(&self) -> String {
        let line = (self.bytes.len() / 24).next_power_of_two().clamp(128, 2_048);
        let mut out = format!(
            "<section>\n<h2>Bytes</h2>\n<p class=\"note\">A line has {} bytes. A dark edge is where an object begins; each leads to its row \
             in the list of objects.</p>\n{}<div class=\"strip{}\">\n",
            commas(line),
            legend(),
            if line > 512 { " fine" } else { "" },
        );
        let pieces = self.pieces(line);
        let mut lines = pieces.chunk_by(|one, other| one.line == other.line).peekable();
        while let Some(pieces) = lines.next() {
            let mut to = pieces;
            while let Some(more) = lines.next_if(|more| alike(pieces, more)) {
                to = more;
            }
            out.push_str(&self.line(line, pieces, to));
        }
        out.push_str("</div>\n</section>\n");
        out
    }

    /// The rows of the file, cut where a line ends.
    fn pieces(&self, line: usize) -> Vec<Piece> {
        let mut pieces = Vec::new();
        for (number, row) in self.look.rows(self.bytes.len()).into_iter().enumerate() {
            let (mut at, end) = (row.at, row.at.saturating_add(row.size));
            while at < end {
                let to = at.saturating_add(1).next_multiple_of(line).min(end);
                let (line, size) = (at.checked_div(line).unwrap_or(0), to.saturating_sub(at));
                pieces.push(Piece { line, at, size, row: number, first: row.at, whole: row.size, what: row.what });
                at = to;
            }
        }
        pieces
    }

    /// A line; where all up to another are alike, one line stands for them.
    fn line(&self, line: usize, pieces: &[Piece], to: &[Piece]) -> String {
        let from = pieces.first().map_or(0, |piece| piece.at);
        let last = to.last().map_or(0, Piece::end);
        let several = last.saturating_sub(from) > line;
        let class = if several { " class=\"many\"" } else { "" };
        let mut out = format!("<div{class}><span>{}</span><p>", commas(from));
        for piece in pieces {
            out.push_str(&self.piece(line, piece, several.then_some(last)));
        }
        let rest = from.saturating_add(line).saturating_sub(last);
        if rest > 0 {
            out.push_str(&format!("<i style=\"flex:{rest}\"></i>"));
        }
        out.push_str("</p></div>\n");
        out
    }

    fn piece(&self, line: usize, piece: &Piece, last: Option<usize>) -> String {
        let starts = if piece.at == piece.first { " s" } else { "" };
        let mark = if self.is_broken(piece.what) { " x" } else { "" };
        let title = escaped(&picture::kind(self.look, self.bytes, piece.what));
        let size = commas(piece.whole);
        let label = match last {
            Some(last) => format!("{title}, to {}", commas(last.saturating_sub(1))),
            None if piece.size.saturating_mul(30) > line => self.label(piece),
            None => String::new(),
        };
        format!(
            "<a class=\"{}{starts}{mark}\" style=\"flex:{}\" href=\"#b{}\" title=\"{title}, {size} bytes from {}\">{label}</a>",
            self.colour(piece.what),
            piece.size,
            piece.first,
            commas(piece.first),
        )
    }

    /// What can be written on a piece: on the first of an object's, unless the next is the larger one.
    fn label(&self, piece: &Piece) -> String {
        let before = piece.at.saturating_sub(piece.first);
        let behind = piece.whole.saturating_sub(before).saturating_sub(piece.size);
        if before >= piece.size || before == 0 && behind > piece.size && piece.row > 0 {
            return String::new();
        }
        let object = match piece.what {
            What::Object(number) => self.look.object(number),
            What::Unlinked => return "unlinked".to_string(),
            What::Free => return "free".to_string(),
        };
        match object.map(|object| &object.kind) {
            Some(Kind::Header) => "header".to_string(),
            Some(Kind::Root(_)) => "root".to_string(),
            Some(Kind::Slot(_)) => "backup slot".to_string(),
            Some(Kind::Node(node)) => inert(node.name.of(self.bytes), 24),
            Some(Kind::Entry(entry)) => inert(entry.name.of(self.bytes), 48),
            Some(Kind::Value(_)) => "long value".to_string(),
            None => String::new(),
        }
    }

    pub fn is_broken(&self, what: What) -> bool {
        matches!(what, What::Object(number) if self.marks.contains_key(&number))
    }

    /// The class that colours an object.
    pub fn colour(&self, what: What) -> &'static str {
        let object = match what {
            What::Object(number) => self.look.object(number),
            What::Unlinked => return "u",
            What::Free => return "f",
        };
        match object.map(|object| &object.kind) {
            Some(Kind::Root(_) | Kind::Node(_)) => "n",
            Some(Kind::Slot(_)) => "b",
            Some(Kind::Entry(_)) => "e",
            Some(Kind::Value(_)) => "v",
            _ => "h",
        }
    }
}

/// Whether two lines have one piece each, of the same row.
fn alike(one: &[Piece], other: &[Piece]) -> bool {
    matches!((one, other), ([one], [other]) if one.row == other.row)
}

fn legend() -> String {
    let kinds = [
        ("h", "header"),
        ("n", "node: a segment of names"),
        ("e", "entry: name, serial, value"),
        ("v", "long value"),
        ("b", "backup slot"),
        ("u", "unlinked: no link leads there"),
        ("f", "free"),
        ("h x", "breaks a rule"),
    ];
    let items = kinds.map(|(class, says)| format!("<li><i class=\"{class}\"></i>{says}</li>"));
    format!("<ul class=\"legend\">{}</ul>\n", items.concat())
}
