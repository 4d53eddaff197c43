//! Every byte of the file, row by row.

use super::{Look, HEADER};

/// What stands in the bytes of a row.
#[derive(Clone, Copy, PartialEq, Eq)]
pub enum What {
    /// The object of that number.
    Object(usize),
    /// Nothing that a link leads to, in the used part: a refused add leaves such bytes.
    Unlinked,
    /// Nothing, behind the used part.
    Free,
}

/// Some bytes of the file.
pub struct Row {
    pub at: usize,
    pub size: usize,
    pub what: What,
}

impl Look {
    /// The rows of a file of that length, in the order of its bytes: each byte is in one of them.
    pub fn rows(&self, length: usize) -> Vec<Row> {
        let mut order: Vec<_> = self.objects.iter().enumerate().collect();
        order.sort_by_key(|(_, object)| object.at);
        let (mut rows, mut next) = (Vec::new(), 0);
        for (number, object) in order {
            self.gap(&mut rows, next, object.at);
            rows.push(Row { at: object.at, size: object.size, what: What::Object(number) });
            next = object.at.saturating_add(object.size);
        }
        self.gap(&mut rows, next, length);
        rows
    }

    /// The rows between two objects: what is in the used part, and what is behind it.
    fn gap(&self, rows: &mut Vec<Row>, from: usize, to: usize) {
        let used = HEADER.saturating_add(self.used as usize).clamp(from, to.max(from));
        for (at, end, what) in [(from, used, What::Unlinked), (used, to, What::Free)] {
            if at < end {
                rows.push(Row { at, size: end.saturating_sub(at), what });
            }
        }
    }
}
