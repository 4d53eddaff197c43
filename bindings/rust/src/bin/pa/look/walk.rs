//! The walk over the links: which objects there are, and which rules they break.

use super::{commas, quoted, word, Broken, Entry, Kind, Link, Look, Node, Object, Part};
use super::{ENTRY, FIRST_FREE, HEADER, NODE, SLOT};
use std::cmp::Ordering;

/// The walk so far.
pub(super) struct Walk<'a> {
    pub(super) bytes: &'a [u8],
    pub(super) look: Look,
    /// For each word behind the header, the object that has it.
    pub(super) owner: Vec<Option<usize>>,
    /// Where the used part ends; the file, where the mark is none that can be.
    pub(super) used_end: usize,
    todo: Vec<Todo>,
}

/// A link that is still to be followed, of the node `from`, and what is known of the node there: what it hangs below, and the nodes between
/// which its name has to be.
struct Todo {
    from: usize,
    field: &'static str,
    link: Link,
    above: usize,
    low: Option<usize>,
    high: Option<usize>,
}

/// Looks at an area with a header.
pub(super) fn walk(bytes: &[u8]) -> Look {
    let used = word(bytes, 0);
    let look = Look { objects: Vec::new(), broken: Vec::new(), used };
    let words = bytes.len().saturating_sub(HEADER) / 4;
    let end = HEADER.saturating_add(words.saturating_mul(4));
    let mut walk = Walk { bytes, look, owner: vec![None; words], used_end: end, todo: Vec::new() };
    walk.header();
    walk.root();
    while let Some(todo) = walk.todo.pop() {
        walk.node(&todo);
    }
    walk.look
}

impl Walk<'_> {
    /// Used is a multiple of 4 from 112 to the size of the data.
    fn header(&mut self) {
        let number = self.object(0, HEADER, Kind::Header);
        let (used, size) = (self.look.used as usize, self.bytes.len().saturating_sub(HEADER));
        let says = format!("the used mark is {}", commas(used));
        if used < FIRST_FREE {
            self.broken(number, 0, format!("{says}, under 112, where the backup slot ends"));
        } else if used > size {
            self.broken(number, 0, format!("{says}, and the data has {} bytes", commas(size)));
        } else if used % 4 != 0 {
            self.broken(number, 0, format!("{says}, which is no multiple of 4"));
        } else {
            self.used_end = HEADER.saturating_add(used);
        }
    }

    /// The root's namelen, prop, left and right are zero. None of them is followed.
    fn root(&mut self) {
        let slot = HEADER.saturating_add(NODE);
        if self.bytes.len() < slot {
            return;
        }
        let node = self.read_node(HEADER, Part { start: slot, end: slot }, None);
        let (links, children) = (node.links(), node.children);
        let number = self.object(HEADER, NODE, Kind::Root(node));
        let namelen = word(self.bytes, HEADER);
        if namelen != 0 {
            self.broken(number, HEADER, format!("the root's namelen is {}, not 0", commas(namelen as usize)));
        }
        for (field, link) in links {
            if link.to.is_some() && field != "children" {
                self.broken(number, link.at, format!("the root's {field} link is not zero"));
            }
        }
        let end = slot.saturating_add(SLOT).min(self.bytes.len());
        if slot < end {
            let text = self.until_zero(slot, end);
            self.object(slot, end.saturating_sub(slot), Kind::Slot(text));
        }
        self.later(Todo { from: number, field: "children", link: children, above: number, low: None, high: None });
    }

    fn later(&mut self, todo: Todo) {
        if todo.link.to.is_some() {
            self.todo.push(todo);
        }
    }

    /// The node at the end of a link, and its entry.
    fn node(&mut self, todo: &Todo) {
        let Some(at) = self.place(todo.from, todo.field, todo.link, NODE, "a node") else {
            return;
        };
        let start = at.saturating_add(NODE);
        let namelen = word(self.bytes, at) as usize;
        let run = self.text(start, namelen.saturating_add(1));
        let name = Part { start, end: run.end.min(start.saturating_add(namelen)) };
        let node = self.read_node(at, name, Some(todo.above));
        let (entry, left, right, children) = (node.entry, node.left, node.right, node.children);
        let number = self.object(at, run.size_from(at), Kind::Node(node));
        self.leads(todo.from, todo.link, number);
        let whole = self.node_name(number, namelen, run);
        if let Some(Kind::Node(node)) = self.look.objects.get_mut(number).map(|object| &mut object.kind) {
            node.whole = whole;
        }
        let ordered = whole && self.in_order(number, todo.low, todo.high);
        self.entry(number, entry);
        let own = |bound| if ordered { Some(number) } else { bound };
        let side = |field, link, low, high| Todo { from: number, field, link, above: todo.above, low, high };
        self.later(side("right", right, own(todo.low), todo.high));
        self.later(Todo { above: number, ..side("children", children, None, None) });
        self.later(side("left", left, todo.low, own(todo.high)));
    }

    /// The entry of a node, with its value.
    fn entry(&mut self, node: usize, link: Link) {
        if link.to.is_none() {
            return;
        }
        let Some(at) = self.place(node, "entry", link, ENTRY, "an entry") else {
            return;
        };
        let (start, slot) = (at.saturating_add(ENTRY), at.saturating_add(4));
        let run = self.text(start, usize::MAX);
        let name = Part { start, end: run.end };
        let serial = word(self.bytes, at);
        let entry = Entry { name, serial, slot: self.until_zero(slot, start), far: None };
        let (long, size, shows) = (entry.is_long(), run.size_from(at), entry.slot);
        let number = self.object(at, size, Kind::Entry(entry));
        self.leads(node, link, number);
        self.ends(number, "the entry", "'s name", run);
        if self.is_path(name.of(self.bytes), node) == Some(false) {
            let path = self.path(node);
            self.broken(number, start, format!("the entry's name is not its path, {path}"));
        }
        if long {
            self.long_value(number, at, size);
        } else if shows.end == start {
            self.broken(number, slot, "the value's slot has no zero".to_string());
        }
    }

    /// The long value of an entry, which stands behind all of it.
    fn long_value(&mut self, entry: usize, at: usize, size: usize) {
        let by = at.saturating_add(60);
        let far = word(self.bytes, by) as usize;
        let link = Link { at: by, to: Some(at.saturating_add(far)), leads: None };
        if let Some(Kind::Entry(entry)) = self.look.objects.get_mut(entry).map(|object| &mut object.kind) {
            entry.far = Some(link);
        }
        if far < size {
            let says = format!("the long value is {} bytes behind its entry's start, inside the entry", commas(far));
            return self.broken(entry, by, says);
        }
        let Some(start) = self.place(entry, "value", link, 4, "a long value") else {
            return;
        };
        let run = self.text(start, usize::MAX);
        let number = self.object(start, run.size_from(start), Kind::Value(Part { start, end: run.end }));
        self.leads(entry, link, number);
        self.ends(number, "the long value", "", run);
    }

    /// An object more; its words are its own from now on. It ends with the file, whose last word need not be whole.
    fn object(&mut self, at: usize, size: usize, kind: Kind) -> usize {
        let size = size.min(self.bytes.len().saturating_sub(at));
        let number = self.look.objects.len();
        let first = at.saturating_sub(HEADER) / 4;
        let words = if at < HEADER { 0 } else { size / 4 };
        for owner in self.owner.iter_mut().skip(first).take(words) {
            *owner = Some(number);
        }
        self.look.objects.push(Object { at, size, kind });
        number
    }

    /// A rule more that is broken: where it would show behind its object, it shows at the object's last byte.
    pub(super) fn broken(&mut self, object: usize, at: usize, rule: String) {
        let behind = self.look.object(object).map_or(0, |object| object.at.saturating_add(object.size));
        let at = at.min(behind.saturating_sub(1));
        self.look.broken.push(Broken { at, rule, object });
    }

    /// Notes where a link has led.
    fn leads(&mut self, from: usize, link: Link, number: usize) {
        let Some(object) = self.look.objects.get_mut(from) else {
            return;
        };
        match &mut object.kind {
            Kind::Root(node) | Kind::Node(node) => {
                for own in [&mut node.entry, &mut node.left, &mut node.right, &mut node.children] {
                    if own.at == link.at {
                        own.leads = Some(number);
                    }
                }
            }
            Kind::Entry(entry) => entry.far = Some(Link { leads: Some(number), ..link }),
            _ => {}
        }
    }

    fn read_node(&self, at: usize, name: Part, above: Option<usize>) -> Node {
        let link = |by: usize| {
            let at = at.saturating_add(by);
            let to = word(self.bytes, at) as usize;
            Link { at, to: (to != 0).then(|| HEADER.saturating_add(to)), leads: None }
        };
        Node { name, above, entry: link(4), left: link(8), right: link(12), children: link(16), whole: true }
    }

    /// The text from a byte up to its zero, or to an end.
    fn until_zero(&self, start: usize, end: usize) -> Part {
        let text = Part { start, end }.of(self.bytes);
        let zero = text.iter().position(|&byte| byte == 0);
        Part { start, end: start.saturating_add(zero.unwrap_or(text.len())) }
    }

    /// Whether a name is smaller than all to whose left it hangs, and greater than all to whose right.
    fn in_order(&mut self, number: usize, low: Option<usize>, high: Option<usize>) -> bool {
        for (bound, side, wanted) in [(high, "left", Ordering::Less), (low, "right", Ordering::Greater)] {
            let Some((own, other)) = self.look.node(number).zip(bound.and_then(|bound| self.look.node(bound))) else {
                continue;
            };
            let (start, than) = (own.name.start, other.name.of(self.bytes));
            if order(own.name.of(self.bytes), than) != wanted {
                let word = if side == "left" { "smaller" } else { "greater" };
                let says = format!("the node's name is not {word} than {}, on whose {side} side it hangs", quoted(than));
                self.broken(number, start, says);
                return false;
            }
        }
        true
    }
}

/// Shorter is less; equal lengths compare byte by byte.
fn order(one: &[u8], other: &[u8]) -> Ordering {
    one.len().cmp(&other.len()).then_with(|| one.cmp(other))
}
