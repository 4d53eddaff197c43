//! Areas of any length, about full of one kind of tree. Objects stand one behind the other, each node with its entry, in the order in
//! which they are made.

use trees::{align4, numbered, Object, Places, Tree, Value, DATA, ENTRY, FIRST, NODE};

/// A tree for so many bytes of room.
type Shape = fn(usize) -> Tree;

pub const SHAPES: [(&str, Shape); 9] = [
    ("balanced, no entries", |room| balanced(room / BARE, false)),
    ("balanced, entries", |room| balanced(room / OWNING, true)),
    ("right list", |room| list(room / BARE, false, false)),
    ("left list, addresses falling", |room| list(room / BARE, true, false)),
    ("left list, entries", |room| list(room / OWNING, true, true)),
    ("children chain", |room| chain(room / LINK, None)),
    ("children chain, one entry", |room| chain((room - ENTRY - 8) / (LINK + 2), Some(0))),
    ("children chain, entry at each level", |room| chain(levels(room), Some(usize::MAX))),
    ("left list, each with a child and its entry", parents),
];

/// Bytes of a node with a name of four bytes, and with its entry; of a node with a name of one byte.
const BARE: usize = NODE + 8;
const OWNING: usize = BARE + ENTRY + 8;
const LINK: usize = NODE + 4;

/// The area of that length with such a tree, and how many nodes and entries it has.
pub fn area(shape: Shape, len: usize) -> (Vec<u8>, usize, usize) {
    let tree = shape(len - DATA - FIRST);
    let objects = tree.objects();
    let places = Places::in_order(&tree, &objects, FIRST, || 0);
    let mut area = vec![0; len];
    trees::write(&mut area, &tree, &places);
    let entries = objects.iter().filter(|object| matches!(object, Object::Entry(_))).count();
    (area, tree.nodes.len(), entries)
}

fn value(wanted: bool) -> Option<Value> {
    wanted.then(|| Value::Short(b"v".to_vec()))
}

fn siblings(tree: &mut Tree, count: usize, entries: bool) -> Vec<usize> {
    (0..count).map(|number| tree.add(&numbered(number), None, value(entries))).collect()
}

fn balanced(count: usize, entries: bool) -> Tree {
    let mut tree = Tree::default();
    let made = siblings(&mut tree, count, entries);
    tree.top = halve(&mut tree, &made);
    tree
}

fn halve(tree: &mut Tree, made: &[usize]) -> Option<usize> {
    let (less, rest) = made.split_at(made.len() / 2);
    let (&top, more) = rest.split_first()?;
    tree.nodes[top].left = halve(tree, less);
    tree.nodes[top].right = halve(tree, more);
    Some(top)
}

fn list(count: usize, left: bool, entries: bool) -> Tree {
    let mut tree = Tree::default();
    let made = siblings(&mut tree, count, entries);
    join(&mut tree, &made, left);
    tree
}

fn join(tree: &mut Tree, made: &[usize], left: bool) {
    tree.top = if left { made.last().copied() } else { made.first().copied() };
    for pair in made.windows(2) {
        match left {
            true => tree.nodes[pair[1]].left = Some(pair[0]),
            false => tree.nodes[pair[0]].right = Some(pair[1]),
        }
    }
}

/// So many nodes, each the child of the one before. The last ones have an entry: all above that number of nodes still to come.
fn chain(count: usize, entries: Option<usize>) -> Tree {
    let mut tree = Tree::default();
    let mut above = None;
    for number in 0..count {
        let own = entries.is_some_and(|below| count - 1 - number <= below);
        let made = tree.add(b"a", above, value(own));
        tree.hang(above, Some(made));
        above = Some(made);
    }
    tree
}

/// How deep a chain with an entry at each level fits: the path of level n has 2n - 1 bytes.
fn levels(room: usize) -> usize {
    let mut left = room;
    (1..)
        .take_while(|level| {
            let taken = left.checked_sub(LINK + align4(ENTRY + 2 * level));
            left = taken.unwrap_or(0);
            taken.is_some()
        })
        .count()
}

fn parents(room: usize) -> Tree {
    let mut tree = Tree::default();
    let made = siblings(&mut tree, room / (BARE + LINK + ENTRY + 8), false);
    join(&mut tree, &made, true);
    for above in made {
        let child = tree.add(b"a", Some(above), value(true));
        tree.hang(Some(above), Some(child));
    }
    tree
}
