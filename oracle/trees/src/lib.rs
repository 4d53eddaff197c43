//! Areas laid down by hand: a tree of nodes, a place for each of its objects, and the bytes that say so.
//!
//! No call of ours makes these areas, so they reach shapes that no history has: objects in any order, with gaps, at wrong places.

/// The data's first byte; offsets count from it.
pub const DATA: usize = 128;
pub const USED: usize = 0;
pub const MAGIC: usize = 8;
pub const VERSION: usize = 12;
/// The first offset behind root and backup slot.
pub const FIRST: usize = 112;

/// Fields and size of a node.
pub const PROP: usize = 4;
pub const LEFT: usize = 8;
pub const RIGHT: usize = 12;
pub const CHILDREN: usize = 16;
pub const NODE: usize = 20;

/// Fields and size of an entry.
pub const SLOT: usize = 4;
pub const RELATIVE: usize = 60;
pub const ENTRY: usize = 96;
pub const LONG_BIT: u32 = 1 << 16;

pub enum Value {
    Short(Vec<u8>),
    Long(Vec<u8>),
}

pub struct Node {
    pub name: Vec<u8>,
    /// The node whose children link holds this tree of siblings; None is the root.
    pub above: Option<usize>,
    pub left: Option<usize>,
    pub right: Option<usize>,
    pub below: Option<usize>,
    pub own: Option<Value>,
}

#[derive(Default)]
pub struct Tree {
    pub nodes: Vec<Node>,
    pub top: Option<usize>,
}

impl Tree {
    /// A node that nothing leads to yet.
    pub fn add(&mut self, name: &[u8], above: Option<usize>, own: Option<Value>) -> usize {
        self.nodes.push(Node { name: name.to_vec(), above, left: None, right: None, below: None, own });
        self.nodes.len() - 1
    }

    /// Hangs a tree of siblings below its owner.
    pub fn hang(&mut self, above: Option<usize>, first: Option<usize>) {
        match above {
            Some(node) => self.nodes[node].below = first,
            None => self.top = first,
        }
    }

    pub fn path(&self, node: usize) -> Vec<u8> {
        let up = std::iter::successors(Some(node), |&node| self.nodes[node].above);
        let mut names: Vec<&[u8]> = up.map(|node| &self.nodes[node].name[..]).collect();
        names.reverse();
        names.join(&b'.')
    }

    /// All objects, each node before its entry and each entry before its value.
    pub fn objects(&self) -> Vec<Object> {
        let of = |(node, it): (usize, &Node)| {
            let entry = it.own.as_ref().map(|_| Object::Entry(node));
            let value = matches!(it.own, Some(Value::Long(_))).then_some(Object::Value(node));
            [Some(Object::Node(node)), entry, value].into_iter().flatten()
        };
        self.nodes.iter().enumerate().flat_map(of).collect()
    }

    /// The bytes that an object takes, not padded.
    pub fn size(&self, object: Object) -> usize {
        match (object, &self.nodes[object.node()].own) {
            (Object::Node(node), _) => NODE + self.nodes[node].name.len() + 1,
            (Object::Value(_), Some(Value::Long(text))) => text.len() + 1,
            // The path's length, without the path: in a deep tree it is long.
            (Object::Entry(node), _) => {
                let up = std::iter::successors(Some(node), |&node| self.nodes[node].above);
                ENTRY + up.map(|node| self.nodes[node].name.len() + 1).sum::<usize>()
            }
            (Object::Value(_), _) => 0,
        }
    }
}

/// A name of four bytes for a number below 64^4: greater for a greater number, in segment order.
pub fn numbered(number: usize) -> Vec<u8> {
    [18, 12, 6, 0].iter().map(|shift| b'0' + (number >> shift & 63) as u8).collect()
}

/// An object of the node with that number.
#[derive(Clone, Copy, PartialEq, Eq)]
pub enum Object {
    Node(usize),
    Entry(usize),
    Value(usize),
}

impl Object {
    pub fn node(self) -> usize {
        match self {
            Object::Node(node) | Object::Entry(node) | Object::Value(node) => node,
        }
    }
}

/// The offset of each object, by its node's number; 0 where there is none.
pub struct Places {
    pub node: Vec<usize>,
    pub entry: Vec<usize>,
    pub value: Vec<usize>,
    /// Behind the last object.
    pub end: usize,
}

impl Places {
    /// One object after the other from an offset on, each behind a gap.
    pub fn in_order(tree: &Tree, objects: &[Object], from: usize, mut gap: impl FnMut() -> usize) -> Self {
        let none = vec![0; tree.nodes.len()];
        let mut places = Places { node: none.clone(), entry: none.clone(), value: none, end: from };
        for &object in objects {
            let at = places.end + gap();
            *places.of(object) = at;
            places.end = at + align4(tree.size(object));
        }
        places
    }

    pub fn of(&mut self, object: Object) -> &mut usize {
        match object {
            Object::Node(node) => &mut self.node[node],
            Object::Entry(node) => &mut self.entry[node],
            Object::Value(node) => &mut self.value[node],
        }
    }
}

pub fn align4(size: usize) -> usize {
    size.div_ceil(4) * 4
}

pub fn word(area: &[u8], at: usize) -> Option<u32> {
    let four = area.get(at..at.checked_add(4)?)?;
    Some(u32::from_le_bytes(four.try_into().ok()?))
}

/// Stores bytes as far as they lie within the area.
pub fn put(area: &mut [u8], at: usize, bytes: &[u8]) {
    if let Some(rest) = area.get_mut(at..) {
        let count = bytes.len().min(rest.len());
        rest[..count].copy_from_slice(&bytes[..count]);
    }
}

pub fn put_word(area: &mut [u8], at: usize, word: u32) {
    put(area, at, &word.to_le_bytes());
}

fn put_text(area: &mut [u8], at: usize, text: &[u8]) {
    put(area, at, text);
    put(area, at + text.len(), &[0]);
}

/// The header's words that matter, and an empty root.
pub fn put_front(area: &mut [u8], used: usize) {
    put_word(area, USED, used as u32);
    put(area, MAGIC, b"PROP");
    put_word(area, VERSION, 0xfc6e_d0ab);
    put(area, DATA, &[0; NODE]);
}

/// Writes the tree's objects at their places, and the root. Bytes that belong to none stay: gaps, padding, the rest of a slot.
pub fn write(area: &mut [u8], tree: &Tree, places: &Places) {
    put_front(area, places.end);
    let link = |node: Option<usize>| node.map_or(0, |node| places.node[node] as u32);
    put_word(area, DATA + CHILDREN, link(tree.top));
    for (number, node) in tree.nodes.iter().enumerate() {
        let at = DATA + places.node[number];
        let words = [node.name.len() as u32, places.entry[number] as u32, link(node.left), link(node.right), link(node.below)];
        words.iter().enumerate().for_each(|(k, &word)| put_word(area, at + 4 * k, word));
        put_text(area, at + NODE, &node.name);
        if let Some(value) = &node.own {
            write_entry(area, DATA + places.entry[number], value, DATA + places.value[number]);
            put_text(area, DATA + places.entry[number] + ENTRY, &tree.path(number));
        }
    }
}

fn write_entry(area: &mut [u8], at: usize, value: &Value, far: usize) {
    match value {
        Value::Short(text) => {
            put_word(area, at, (text.len() as u32) << 24);
            put_text(area, at + SLOT, text);
        }
        Value::Long(text) => {
            put_word(area, at, 0x3201_0000);
            put_word(area, at + RELATIVE, (far as u32).wrapping_sub(at as u32));
            put_text(area, far, text);
        }
    }
}
