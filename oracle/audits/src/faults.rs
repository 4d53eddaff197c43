//! Faults made on purpose in trees laid down by hand: each breaks one clause of soundness and, as far as that can be, no other.

use crate::hand::Hand;
use crate::rng::Rng;
use trees::{align4, word, Object, Places, Tree, Value};
use trees::{CHILDREN, DATA, ENTRY, FIRST, LEFT, NODE, PROP, RELATIVE, RIGHT, SLOT, USED};

/// Where a fault is made: in the tree, in the places of its objects, or in the bytes. None: this tree offers no place for it.
pub enum Fault {
    Tree(fn(&mut Rng, &mut Tree) -> Option<()>),
    Place(fn(&mut Rng, &Tree, &mut Places) -> Option<()>),
    Bytes(fn(&mut Rng, &mut Hand) -> Option<()>),
}

/// Each with the name it is counted under.
pub const FAULTS: [(&str, Fault); 38] = [
    ("names of siblings swapped", Fault::Tree(names_swapped)),
    ("names of neighbours swapped", Fault::Tree(neighbours_swapped)),
    ("a name twice among siblings", Fault::Tree(name_twice)),
    ("a dot in a name", Fault::Tree(|rng, tree| name_byte(rng, tree, b'.'))),
    ("a zero in a name", Fault::Tree(|rng, tree| name_byte(rng, tree, 0))),
    ("an empty name", Fault::Tree(name_empty)),
    ("a node at no multiple of 4", Fault::Place(|rng, tree, places| shifted(rng, tree, places, a_node))),
    ("an entry at no multiple of 4", Fault::Place(|rng, tree, places| shifted(rng, tree, places, an_entry))),
    ("a value at no multiple of 4", Fault::Place(|rng, tree, places| shifted(rng, tree, places, a_value))),
    ("a node below 112", Fault::Place(|rng, tree, places| lowered(rng, tree, places, a_node))),
    ("an entry below 112", Fault::Place(|rng, tree, places| lowered(rng, tree, places, an_entry))),
    ("padding shared", Fault::Place(padding_shared)),
    ("objects overlap", Fault::Place(overlap)),
    ("a node in a long entry's unwritten bytes", Fault::Place(in_long_entry)),
    ("a node in a slot behind the value", Fault::Place(in_slot)),
    ("a node linked twice", Fault::Bytes(linked_twice)),
    ("children linked twice", Fault::Bytes(children_twice)),
    ("a node linked to itself", Fault::Bytes(|rng, hand| cycle(rng, hand, false))),
    ("a node linked to one above", Fault::Bytes(|rng, hand| cycle(rng, hand, true))),
    ("another node's entry", Fault::Bytes(other_entry)),
    ("an entry's name with a byte changed", Fault::Bytes(entry_name_byte)),
    ("an entry's name cut short", Fault::Bytes(entry_name_cut)),
    ("an entry's name longer", Fault::Bytes(entry_name_longer)),
    ("an entry's name without its first segment", Fault::Bytes(entry_name_tail)),
    ("a short slot without zero", Fault::Bytes(full_slot)),
    ("a value without zero before used", Fault::Bytes(value_to_used)),
    ("an entry's name without zero before used", Fault::Bytes(name_to_used)),
    ("one value for two entries", Fault::Bytes(value_twice)),
    ("a value in another object", Fault::Bytes(value_elsewhere)),
    ("a value in its own entry", Fault::Bytes(value_in_entry)),
    ("a relative offset round 2^32", Fault::Bytes(value_round)),
    ("used before the last object's end", Fault::Bytes(|rng, hand| used(rng, hand, |used, word, _| used - 4 * word))),
    ("used at no multiple of 4", Fault::Bytes(|rng, hand| used(rng, hand, |used, word, byte| used + 4 * word - byte))),
    ("used behind the data's end", Fault::Bytes(cut)),
    ("a word of the root", Fault::Bytes(|rng, hand| hand.set_word(DATA + 4 * rng.below(4), 1 << rng.below(32)))),
    ("namelen one less", Fault::Bytes(|rng, hand| namelen(rng, hand, u32::MAX))),
    ("namelen one more", Fault::Bytes(|rng, hand| namelen(rng, hand, 1))),
    ("a node's name without its zero", Fault::Bytes(name_zero)),
];

// ---- choices

fn which(rng: &mut Rng, tree: &Tree, right: impl Fn(usize) -> bool) -> Option<usize> {
    let all: Vec<usize> = (0..tree.nodes.len()).filter(|&node| right(node)).collect();
    (!all.is_empty()).then(|| rng.pick(&all))
}

fn node(rng: &mut Rng, tree: &Tree) -> Option<usize> {
    which(rng, tree, |_| true)
}

/// A node with an entry.
fn owner(rng: &mut Rng, tree: &Tree) -> Option<usize> {
    which(rng, tree, |node| tree.nodes[node].own.is_some())
}

/// A node with a short entry.
fn short(rng: &mut Rng, tree: &Tree) -> Option<usize> {
    which(rng, tree, |node| matches!(tree.nodes[node].own, Some(Value::Short(_))))
}

fn long(rng: &mut Rng, tree: &Tree) -> Option<usize> {
    which(rng, tree, |node| matches!(tree.nodes[node].own, Some(Value::Long(_))))
}

fn a_node(rng: &mut Rng, tree: &Tree) -> Option<Object> {
    node(rng, tree).map(Object::Node)
}

/// A short one: the value of a long one would have to move with it.
fn an_entry(rng: &mut Rng, tree: &Tree) -> Option<Object> {
    short(rng, tree).map(Object::Entry)
}

fn a_value(rng: &mut Rng, tree: &Tree) -> Option<Object> {
    long(rng, tree).map(Object::Value)
}

/// A node's zero link, as a place in the area.
fn zero_link(rng: &mut Rng, hand: &Hand) -> Option<(usize, usize)> {
    let from = node(rng, &hand.tree)?;
    let at = DATA + hand.places.node[from] + rng.pick(&[LEFT, RIGHT, CHILDREN]);
    (word(&hand.area, at)? == 0).then_some((from, at))
}

// ---- faults of the tree

/// Siblings in order, of any node that has some.
fn several(rng: &mut Rng, tree: &Tree) -> Option<Vec<usize>> {
    let above = tree.nodes[node(rng, tree)?].above;
    let mut all: Vec<usize> = (0..tree.nodes.len()).filter(|&node| tree.nodes[node].above == above).collect();
    all.sort_by_key(|&node| (tree.nodes[node].name.len(), tree.nodes[node].name.clone()));
    (all.len() > 1).then_some(all)
}

fn swap_names(tree: &mut Tree, a: usize, b: usize) -> Option<()> {
    let held = std::mem::take(&mut tree.nodes[a].name);
    tree.nodes[a].name = std::mem::replace(&mut tree.nodes[b].name, held);
    Some(())
}

fn names_swapped(rng: &mut Rng, tree: &mut Tree) -> Option<()> {
    let all = several(rng, tree)?;
    let (a, b) = (rng.pick(&all), rng.pick(&all));
    (a != b).then(|| swap_names(tree, a, b)).flatten()
}

fn neighbours_swapped(rng: &mut Rng, tree: &mut Tree) -> Option<()> {
    let all = several(rng, tree)?;
    let at = rng.below(all.len() - 1);
    swap_names(tree, all[at], all[at + 1])
}

fn name_twice(rng: &mut Rng, tree: &mut Tree) -> Option<()> {
    let all = several(rng, tree)?;
    let at = rng.below(all.len() - 1);
    tree.nodes[all[at]].name = tree.nodes[all[at + 1]].name.clone();
    Some(())
}

fn name_empty(rng: &mut Rng, tree: &mut Tree) -> Option<()> {
    let node = node(rng, tree)?;
    tree.nodes[node].name.clear();
    Some(())
}

fn name_byte(rng: &mut Rng, tree: &mut Tree, byte: u8) -> Option<()> {
    let name = &mut node(rng, tree).map(|node| &mut tree.nodes[node])?.name;
    let at = rng.below(name.len());
    name[at] = byte;
    Some(())
}

// ---- faults of place

type Choice = fn(&mut Rng, &Tree) -> Option<Object>;

fn shifted(rng: &mut Rng, tree: &Tree, places: &mut Places, choice: Choice) -> Option<()> {
    *places.of(choice(rng, tree)?) += rng.within(1, 3);
    Some(())
}

/// Into the backup slot: what is behind it is free as far as an object reaches.
fn lowered(rng: &mut Rng, tree: &Tree, places: &mut Places, choice: Choice) -> Option<()> {
    *places.of(choice(rng, tree)?) = 20 + 4 * rng.below(23);
    Some(())
}

/// An object whose last word holds its zero and padding, and an entry that begins there: its serial's first byte is zero too.
fn padding_shared(rng: &mut Rng, tree: &Tree, places: &mut Places) -> Option<()> {
    let second = short(rng, tree)?;
    let over = |object: &Object| tree.size(*object) % 4 == 1 && *object != Object::Entry(second);
    // An entry with a long value may not come to stand behind it.
    let stays =
        |object: &Object| matches!(tree.nodes[object.node()].own, Some(Value::Long(_))) && matches!(object, Object::Entry(_));
    let all: Vec<Object> = tree.objects().into_iter().filter(|object| over(object) && !stays(object)).collect();
    let first = (!all.is_empty()).then(|| rng.pick(&all))?;
    *places.of(first) = places.end;
    places.entry[second] = places.end + align4(tree.size(first)) - 4;
    places.end = places.entry[second] + align4(tree.size(Object::Entry(second)));
    Some(())
}

fn overlap(rng: &mut Rng, tree: &Tree, places: &mut Places) -> Option<()> {
    let all = tree.objects();
    let (moved, still) = (rng.pick(&all), rng.pick(&all));
    let at = *places.of(still) + 4 * rng.below(align4(tree.size(still)) / 4);
    *places.of(moved) = at;
    places.end = places.end.max(at + align4(tree.size(moved)));
    (moved != still).then_some(())
}

fn in_long_entry(rng: &mut Rng, tree: &Tree, places: &mut Places) -> Option<()> {
    let (moved, entry) = (node(rng, tree)?, long(rng, tree)?);
    places.node[moved] = places.entry[entry] + 64;
    (tree.size(Object::Node(moved)) <= 32).then_some(())
}

fn in_slot(rng: &mut Rng, tree: &Tree, places: &mut Places) -> Option<()> {
    let (moved, entry) = (node(rng, tree)?, short(rng, tree)?);
    let Some(Value::Short(text)) = &tree.nodes[entry].own else { return None };
    let from = align4(SLOT + text.len() + 1);
    places.node[moved] = places.entry[entry] + from;
    (from + tree.size(Object::Node(moved)) <= ENTRY).then_some(())
}

// ---- faults of links

fn linked_twice(rng: &mut Rng, hand: &mut Hand) -> Option<()> {
    let (_, at) = zero_link(rng, hand)?;
    let to = node(rng, &hand.tree)?;
    hand.set_word(at, hand.places.node[to] as u32)
}

/// Two nodes with the same tree below: every node in it has two paths.
fn children_twice(rng: &mut Rng, hand: &mut Hand) -> Option<()> {
    let tree = &hand.tree;
    let with = which(rng, tree, |node| tree.nodes[node].below.is_some())?;
    let without = which(rng, tree, |node| tree.nodes[node].below.is_none())?;
    let below = word(&hand.area, DATA + hand.places.node[with] + CHILDREN)?;
    hand.set_word(DATA + hand.places.node[without] + CHILDREN, below)
}

fn cycle(rng: &mut Rng, hand: &mut Hand, above: bool) -> Option<()> {
    let (from, at) = zero_link(rng, hand)?;
    let to = if above { hand.tree.nodes[from].above? } else { from };
    hand.set_word(at, hand.places.node[to] as u32)
}

fn other_entry(rng: &mut Rng, hand: &mut Hand) -> Option<()> {
    let (from, to) = (node(rng, &hand.tree)?, owner(rng, &hand.tree)?);
    hand.set_word(DATA + hand.places.node[from] + PROP, hand.places.entry[to] as u32)?;
    (from != to).then_some(())
}

// ---- faults of names

/// An entry's name: where it starts, and the path that it is.
fn entry_name(rng: &mut Rng, hand: &Hand) -> Option<(usize, Vec<u8>)> {
    let node = owner(rng, &hand.tree)?;
    Some((DATA + hand.places.entry[node] + ENTRY, hand.tree.path(node)))
}

fn entry_name_byte(rng: &mut Rng, hand: &mut Hand) -> Option<()> {
    let (at, path) = entry_name(rng, hand)?;
    let place = rng.below(path.len());
    let near = path[place] ^ 1 << rng.below(8);
    let other = rng.pick(&[b'a', b'b', b'c', b'.', near]);
    hand.set(at + place, &[other])?;
    (other != path[place]).then_some(())
}

fn entry_name_cut(rng: &mut Rng, hand: &mut Hand) -> Option<()> {
    let (at, path) = entry_name(rng, hand)?;
    hand.set(at + rng.below(path.len()), &[0])
}

/// Into its padding.
fn entry_name_longer(rng: &mut Rng, hand: &mut Hand) -> Option<()> {
    let (at, path) = entry_name(rng, hand)?;
    let more = rng.pick(b"a.");
    hand.set(at + path.len(), &[more, 0])?;
    (path.len() % 4 != 3).then_some(())
}

fn entry_name_tail(rng: &mut Rng, hand: &mut Hand) -> Option<()> {
    let (at, path) = entry_name(rng, hand)?;
    let tail = &path[path.iter().position(|&byte| byte == b'.')? + 1..];
    hand.set(at, tail)?;
    hand.set(at + tail.len(), &[0])
}

fn namelen(rng: &mut Rng, hand: &mut Hand, more: u32) -> Option<()> {
    let at = DATA + hand.places.node[node(rng, &hand.tree)?];
    let held = word(&hand.area, at)?;
    hand.set_word(at, held.wrapping_add(more))
}

fn name_zero(rng: &mut Rng, hand: &mut Hand) -> Option<()> {
    let node = node(rng, &hand.tree)?;
    let at = DATA + hand.places.node[node] + NODE + hand.tree.nodes[node].name.len();
    hand.set(at, b"a")
}

/// Nothing but zeros behind the used data.
fn zeros_behind(hand: &mut Hand, end: usize) -> Option<()> {
    hand.area.resize(end, 0);
    hand.area.resize(end + 8, 0);
    Some(())
}

/// An entry that is the last object, and nothing but its name up to used; a zero stands behind.
fn name_to_used(_: &mut Rng, hand: &mut Hand) -> Option<()> {
    let last = (0..hand.tree.nodes.len()).max_by_key(|&node| hand.places.entry[node])?;
    let from = DATA + hand.places.entry[last] + ENTRY;
    let end = DATA + hand.places.end;
    hand.area.get_mut(from..end)?.iter_mut().filter(|byte| **byte == 0).for_each(|byte| *byte = b'a');
    zeros_behind(hand, end)
}

// ---- faults of values

fn full_slot(rng: &mut Rng, hand: &mut Hand) -> Option<()> {
    let at = DATA + hand.places.entry[short(rng, &hand.tree)?] + SLOT;
    hand.set(at, &[b'v'; 92])
}

fn value_to_used(_: &mut Rng, hand: &mut Hand) -> Option<()> {
    let last = (0..hand.tree.nodes.len()).max_by_key(|&node| hand.places.value[node])?;
    let (from, end) = (DATA + hand.places.value[last], DATA + hand.places.end);
    // Nothing else may stand behind it.
    let size = align4(hand.tree.size(Object::Value(last)));
    if hand.places.value[last] == 0 || from + size != end {
        return None;
    }
    hand.area.get_mut(from..end)?.fill(b'v');
    zeros_behind(hand, end)
}

/// Sets the relative offset of a long entry so that its value is at an offset, before or behind it.
fn set_value(hand: &mut Hand, node: usize, at: usize) -> Option<()> {
    let entry = hand.places.entry[node];
    hand.set_word(DATA + entry + RELATIVE, (at as u32).wrapping_sub(entry as u32))
}

fn value_twice(rng: &mut Rng, hand: &mut Hand) -> Option<()> {
    let (a, b) = (long(rng, &hand.tree)?, long(rng, &hand.tree)?);
    set_value(hand, a, hand.places.value[b])?;
    (a != b).then_some(())
}

fn value_elsewhere(rng: &mut Rng, hand: &mut Hand) -> Option<()> {
    let entry = long(rng, &hand.tree)?;
    let other = rng.pick(&hand.tree.objects());
    let at = *hand.places.of(other) + 4 * rng.below(align4(hand.tree.size(other)) / 4);
    set_value(hand, entry, at)?;
    (at != hand.places.value[entry]).then_some(())
}

/// The last words of its entry, or any.
fn value_in_entry(rng: &mut Rng, hand: &mut Hand) -> Option<()> {
    let entry = long(rng, &hand.tree)?;
    let words = align4(hand.tree.size(Object::Entry(entry))) / 4;
    let word = if rng.once_in(2) { words - 1 } else { rng.below(words) };
    set_value(hand, entry, hand.places.entry[entry] + 4 * word)
}

/// In the gap before all objects, where there is one: right in all but the sign of the distance.
fn value_round(rng: &mut Rng, hand: &mut Hand) -> Option<()> {
    let entry = long(rng, &hand.tree)?;
    let first = hand.tree.objects().into_iter().map(|object| *hand.places.of(object)).min()?;
    hand.set(DATA + FIRST, b"far\0")?;
    set_value(hand, entry, FIRST)?;
    (first >= FIRST + 160).then_some(())
}

// ---- faults of used

fn used(rng: &mut Rng, hand: &mut Hand, other: fn(usize, usize, usize) -> usize) -> Option<()> {
    let other = other(hand.places.end, rng.within(1, 2), rng.within(1, 3));
    let len = hand.area.len().max(DATA + other);
    hand.area.resize(len, 0);
    hand.set_word(USED, other as u32)
}

fn cut(rng: &mut Rng, hand: &mut Hand) -> Option<()> {
    hand.area.truncate(DATA + hand.places.end - rng.within(1, 4));
    Some(())
}
