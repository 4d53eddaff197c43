//! Trees laid down by hand, in any order and with gaps, whole or with one fault.

use crate::built::{letters, segment, value};
use crate::faults::Fault;
use crate::rng::Rng;
use std::collections::BTreeSet;
use trees::{align4, put, Object, Places, Tree, Value, DATA, FIRST};

pub struct Hand {
    pub tree: Tree,
    pub places: Places,
    pub area: Vec<u8>,
}

/// Stores, for faults: each answers that it is made.
impl Hand {
    pub fn set(&mut self, at: usize, bytes: &[u8]) -> Option<()> {
        put(&mut self.area, at, bytes);
        Some(())
    }

    pub fn set_word(&mut self, at: usize, word: u32) -> Option<()> {
        self.set(at, &word.to_le_bytes())
    }
}

/// An area with a hand-made tree, with this fault.
pub fn area(rng: &mut Rng, fault: Option<&Fault>, large: bool) -> Option<Vec<u8>> {
    let mut tree = if large { large_tree(rng) } else { any_tree(rng) };
    if let Some(Fault::Tree(make)) = fault {
        make(rng, &mut tree)?;
    }
    // Faults of place need room around each object, so that nothing else breaks.
    let apart = matches!(fault, Some(Fault::Place(_)));
    let mut objects = tree.objects();
    if rng.once_in(2) {
        shuffle(rng, &mut objects);
    }
    let from = if apart || rng.once_in(2) { FIRST + 160 } else { FIRST };
    let gaps = if large { 1 } else { rng.pick(&[1, 4, 12]) };
    let gap = || if apart { 4 } else { 4 * rng.below(gaps).saturating_sub(2) };
    let mut places = Places::in_order(&tree, &objects, from, gap);
    if let Some(Fault::Place(make)) = fault {
        make(rng, &tree, &mut places)?;
    }
    let len = DATA + places.end + rng.below(2) * rng.below(9);
    let mut hand = Hand { tree, places, area: filled(rng, len) };
    trees::write(&mut hand.area, &hand.tree, &hand.places);
    if let Some(Fault::Bytes(make)) = fault {
        make(rng, &mut hand)?;
    }
    Some(hand.area)
}

/// What gaps, padding and the backup slot hold: nothing, or anything.
fn filled(rng: &mut Rng, len: usize) -> Vec<u8> {
    match rng.below(3) {
        0 => vec![0; len],
        1 => vec![rng.word() as u8; len],
        _ => (0..len).map(|_| rng.word() as u8).collect(),
    }
}

// ---- trees

/// What the trees of one area are made of.
struct Style {
    letters: &'static [u8],
    /// The most siblings.
    most: usize,
    /// So many nodes in eight have an entry.
    entries: usize,
}

fn any_tree(rng: &mut Rng) -> Tree {
    let mut tree = Tree::default();
    let (depth, most) = rng.pick(&[(0, 1), (0, 6), (1, 3), (2, 3), (3, 2), (3, 2), (12, 1), (0, 24), (5, 2)]);
    let style = Style { letters: letters(rng), most, entries: rng.pick(&[3, 5, 8]) };
    // Bare nodes can be many: the more steps for each byte.
    let (depth, style) = match rng.below(20) {
        0 => (60, Style { most: 1, entries: 0, ..style }),
        1 => (1, Style { most: 60, entries: 0, letters: b"abcdefgh" }),
        _ => (depth, style),
    };
    let top = siblings(rng, &mut tree, None, &style, depth);
    tree.hang(None, top);
    tree
}

/// A tree of siblings, with trees below some of them, so many deep at most.
fn siblings(rng: &mut Rng, tree: &mut Tree, above: Option<usize>, style: &Style, depth: usize) -> Option<usize> {
    // Sorted by length, then by bytes: segment order.
    let names: BTreeSet<(usize, Vec<u8>)> =
        (0..rng.within(1, style.most)).map(|_| segment(rng, style.letters, 4)).map(|name| (name.len(), name)).collect();
    let made: Vec<usize> = names.iter().map(|(_, name)| tree.add(name, above, own(rng, style))).collect();
    for &node in &made {
        if depth > 0 && (style.most == 1 || rng.once_in(2)) {
            let below = siblings(rng, tree, Some(node), style, depth - 1);
            tree.hang(Some(node), below);
        }
    }
    let shape = rng.below(4);
    link(rng, tree, &made, shape)
}

fn own(rng: &mut Rng, style: &Style) -> Option<Value> {
    if rng.below(8) >= style.entries {
        return None;
    }
    Some(if rng.once_in(3) { Value::Long(value(rng)) } else { Value::Short(short_text(rng)) })
}

/// A text that leaves room for its zero in a slot.
fn short_text(rng: &mut Rng) -> Vec<u8> {
    let mut text = value(rng);
    text.truncate(91);
    text
}

/// Links siblings in order as a search tree: any, a list to the right, a list to the left, or balanced.
fn link(rng: &mut Rng, tree: &mut Tree, made: &[usize], shape: usize) -> Option<usize> {
    let at = match shape {
        _ if made.is_empty() => return None,
        0 => rng.below(made.len()),
        1 => 0,
        2 => made.len() - 1,
        _ => made.len() / 2,
    };
    let top = made[at];
    tree.nodes[top].left = link(rng, tree, &made[..at], shape);
    tree.nodes[top].right = link(rng, tree, &made[at + 1..], shape);
    Some(top)
}

/// A tree that about fills the largest area: a chain of children, or a list of siblings, with an entry here and there.
fn large_tree(rng: &mut Rng) -> Tree {
    let mut tree = Tree::default();
    let shape = rng.below(3);
    let entries = if shape == 0 { 300 } else { rng.pick(&[1, 4, 300]) };
    let mut room = 130_000usize;
    let mut last = None;
    for number in 0.. {
        let name = if shape == 0 { b"a".to_vec() } else { trees::numbered(number) };
        let above = if shape == 0 { last } else { None };
        let own = rng.once_in(entries).then(|| Value::Short(b"v".to_vec()));
        let made = tree.add(&name, above, own);
        let takes = |object| align4(tree.size(object));
        let size = takes(Object::Node(made)) + tree.nodes[made].own.as_ref().map_or(0, |_| takes(Object::Entry(made)));
        room = match room.checked_sub(size) {
            Some(room) => room,
            None => {
                tree.nodes.pop();
                break;
            }
        };
        match (shape, last) {
            (0, _) => tree.hang(last, Some(made)),
            (1, Some(before)) => tree.nodes[before].right = Some(made),
            (1, None) => tree.top = Some(made),
            _ => {
                tree.nodes[made].left = last;
                tree.top = Some(made);
            }
        }
        last = Some(made);
    }
    tree
}

/// Any order, but each long value behind its entry: the relative offset has no sign.
fn shuffle(rng: &mut Rng, objects: &mut [Object]) {
    for last in (1..objects.len()).rev() {
        objects.swap(last, rng.below(last + 1));
    }
    for at in 0..objects.len() {
        let Object::Value(node) = objects[at] else { continue };
        if let Some(entry) = objects[at..].iter().position(|&object| object == Object::Entry(node)) {
            objects.swap(at, at + entry);
        }
    }
}
