//! A second look at the bytes of an area, the tool's own. It is not proved and decides nothing: the proved check does. It explains what the
//! check said, by the rule that is broken and its byte, and tells the pictures what stands where.
//!
//! It follows the links from the root, goes to no place twice, and takes what it meets first to be right: of two objects that share a byte
//! the second is the broken one.

mod rows;
mod rules;
mod walk;

pub use rows::What;

use std::collections::BTreeMap;

use property_area::{update_distance, AREA_MAX};

use crate::text::{commas, quoted};

/// The sizes and offsets of a header, a node and an entry; a link counts from the header's end.
pub const HEADER: usize = 128;
const NODE: usize = 20;
const ENTRY: usize = 96;
pub const SLOT: usize = 92;
const FIRST_FREE: usize = NODE + SLOT;
const MAGIC: &[u8] = b"PROP";
pub const VERSION: u32 = 0xfc6e_d0ab;

/// What was seen. Without a header that can be followed there are no objects, and one rule is broken.
pub struct Look {
    /// In the order of the walk: the header, the root, the backup slot, then each node before what hangs from it.
    pub objects: Vec<Object>,
    /// In the order of the walk.
    pub broken: Vec<Broken>,
    /// The used mark, whatever it is.
    pub used: u32,
}

/// A rule that is broken.
pub struct Broken {
    /// The byte of the file where it shows; where there is no header, it may be the first that is missing or one too many.
    pub at: usize,
    /// A sentence without a full stop.
    pub rule: String,
    /// The object that has this byte, in `Look::objects`.
    pub object: usize,
}

/// Some bytes of the file that belong together. No two objects share a byte: one that runs into another is cut there.
pub struct Object {
    pub at: usize,
    pub size: usize,
    pub kind: Kind,
}

/// The kinds of objects.
pub enum Kind {
    Header,
    Root(Node),
    Slot(Part),
    Node(Node),
    Entry(Entry),
    /// A long value.
    Value(Part),
}

/// A node.
pub struct Node {
    pub name: Part,
    /// The node that it hangs below, by its number; the root has none.
    pub above: Option<usize>,
    pub entry: Link,
    pub left: Link,
    pub right: Link,
    pub children: Link,
    /// Whether its name breaks no rule. Nothing is compared with one that does.
    whole: bool,
}

/// An entry.
pub struct Entry {
    pub name: Part,
    pub serial: u32,
    /// What the slot shows; a long entry's has the message.
    pub slot: Part,
    /// Where a long value stands.
    pub far: Option<Link>,
}

/// A link: the byte where it stands, the byte to which it leads unless it is zero, and the object there, if this link is the way to it.
#[derive(Clone, Copy)]
pub struct Link {
    pub at: usize,
    pub to: Option<usize>,
    pub leads: Option<usize>,
}

/// A text's bytes in the file.
#[derive(Clone, Copy)]
pub struct Part {
    pub start: usize,
    pub end: usize,
}

impl Part {
    /// The bytes themselves.
    pub fn of(self, bytes: &[u8]) -> &[u8] {
        bytes.get(self.start..self.end).unwrap_or_default()
    }
}

impl Node {
    /// The links in the order of the bytes, with their names.
    pub fn links(&self) -> [(&'static str, Link); 4] {
        [("entry", self.entry), ("left", self.left), ("right", self.right), ("children", self.children)]
    }
}

impl Entry {
    /// Whether its value is long.
    pub fn is_long(&self) -> bool {
        self.serial >> 16 & 1 == 1
    }

    /// Whether a write was begun and not ended.
    pub fn is_odd(&self) -> bool {
        self.serial & 1 == 1
    }

    /// The updates that its serial counts, modulo 32,768: the library tells it of any serial.
    pub fn updates(&self) -> u32 {
        update_distance(0, self.serial)
    }
}

impl Look {
    /// The rule whose breach was met first.
    pub fn first_broken(&self) -> Option<&Broken> {
        self.broken.first()
    }

    /// Whether there is a header to follow.
    pub fn has_header(&self) -> bool {
        !self.objects.is_empty()
    }

    /// The rules that each object breaks, by its number.
    pub fn marks(&self) -> BTreeMap<usize, Vec<&str>> {
        let mut marks = BTreeMap::<_, Vec<_>>::new();
        for broken in &self.broken {
            marks.entry(broken.object).or_default().push(broken.rule.as_str());
        }
        marks
    }

    /// The object of a number.
    pub fn object(&self, number: usize) -> Option<&Object> {
        self.objects.get(number)
    }

    /// The node of a number, the root too.
    pub fn node(&self, number: usize) -> Option<&Node> {
        match self.object(number).map(|object| &object.kind) {
            Some(Kind::Root(node) | Kind::Node(node)) => Some(node),
            _ => None,
        }
    }

    /// An object of these bytes in a sentence.
    pub fn called(&self, bytes: &[u8], number: usize) -> String {
        let with = |kind, name: Part| match name.of(bytes) {
            [] => format!("the {kind} without a name"),
            name => format!("the {kind} {}", quoted(name)),
        };
        match self.object(number).map(|object| &object.kind) {
            Some(Kind::Header) => "the header".to_string(),
            Some(Kind::Root(_)) => "the root node".to_string(),
            Some(Kind::Slot(_)) => "the backup slot".to_string(),
            Some(Kind::Node(node)) => with("node", node.name),
            Some(Kind::Entry(entry)) => with("entry", entry.name),
            Some(Kind::Value(_)) => "the long value".to_string(),
            None => String::new(),
        }
    }
}

/// Looks at any bytes.
pub fn look(bytes: &[u8]) -> Look {
    match bad_header(bytes) {
        Some((at, rule)) => Look { objects: Vec::new(), broken: vec![Broken { at, rule, object: 0 }], used: 0 },
        None => walk::walk(bytes),
    }
}

/// What keeps the bytes from having an area's header. Of a file that is too long, one byte more than an area has is read.
fn bad_header(bytes: &[u8]) -> Option<(usize, String)> {
    let (magic, version) = (bytes.get(8..12).unwrap_or_default(), word(bytes, 12));
    if bytes.len() < HEADER {
        Some((bytes.len(), format!("it is too short: {} bytes; an area has {HEADER} at least", bytes.len())))
    } else if bytes.len() > AREA_MAX {
        Some((AREA_MAX, format!("it is too long: over {} bytes", commas(AREA_MAX))))
    } else if magic != MAGIC {
        Some((8, format!("it has no magic: byte 8 has {}; an area has {}", quoted(magic), quoted(MAGIC))))
    } else if version != VERSION {
        Some((12, format!("it is of another version: byte 12 has {version:#010x}; an area has {VERSION:#010x}")))
    } else {
        None
    }
}

/// The used mark.
pub fn used(bytes: &[u8]) -> u32 {
    word(bytes, 0)
}

/// The word at a byte; 0 where there is none.
fn word(bytes: &[u8], at: usize) -> u32 {
    let four = bytes.get(at..at.saturating_add(4)).and_then(|part| part.try_into().ok());
    four.map_or(0, u32::from_le_bytes)
}
