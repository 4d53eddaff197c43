//! The nodes in the order of a listing: left side, the node itself, what hangs below it, right side.

use crate::look::{Kind, Look, Node};

/// A node's place in the tree.
pub struct Place {
    /// The node, and its entry, by their numbers.
    pub number: usize,
    pub entry: Option<usize>,
    /// How many nodes stand above it.
    pub depth: usize,
    /// Whether the link from above leads to it, and not a sibling's.
    pub top: bool,
}

enum Step {
    Side(usize, usize, bool),
    Own(Place),
}

/// All nodes but the root.
pub fn order(look: &Look) -> Vec<Place> {
    let root = look.objects.iter().find_map(|object| match &object.kind {
        Kind::Root(node) => Some(node),
        _ => None,
    });
    let mut places = Vec::new();
    let mut todo: Vec<_> =
        root.and_then(|root| root.children.leads).map(|first| Step::Side(first, 0, true)).into_iter().collect();
    while let Some(step) = todo.pop() {
        match step {
            Step::Own(place) => places.push(place),
            Step::Side(number, depth, top) => {
                if let Some(node) = look.node(number) {
                    steps(&mut todo, node, number, depth, top);
                }
            }
        }
    }
    places
}

/// Puts the steps of a node on the pile, the last one first.
fn steps(todo: &mut Vec<Step>, node: &Node, number: usize, depth: usize, top: bool) {
    let place = Place { number, entry: node.entry.leads, depth, top };
    todo.extend(node.right.leads.map(|right| Step::Side(right, depth, false)));
    todo.extend(node.children.leads.map(|below| Step::Side(below, depth.saturating_add(1), true)));
    todo.push(Step::Own(place));
    todo.extend(node.left.leads.map(|left| Step::Side(left, depth, false)));
}
