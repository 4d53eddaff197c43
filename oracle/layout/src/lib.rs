//! The layout of RULES 2: the sizes of its records, and where their fields stand in them.
//!
//! The twin and the walk count by it, and so do their broken copies. What they are held against does not: the original, the
//! checker and the trees have numbers of their own, so that a wrong one here shows as a difference.

/// What an area begins with. Offsets count from its end.
pub struct Header;

impl Header {
    pub const USED: usize = 0;
    pub const MAGIC: usize = 8;
    pub const VERSION: usize = 12;
    pub const SIZE: usize = 128;
    pub const PROP: &'static [u8; 4] = b"PROP";
    pub const VERSION_WORD: u32 = 0xfc6e_d0ab;
}

/// Its name, with a zero, follows it.
pub struct Node;

impl Node {
    pub const NAMELEN: usize = 0;
    pub const PROP: usize = 4;
    pub const LEFT: usize = 8;
    pub const RIGHT: usize = 12;
    pub const CHILDREN: usize = 16;
    pub const SIZE: usize = 20;
}

/// Its name, with a zero, follows it.
pub struct Entry;

impl Entry {
    pub const SERIAL: usize = 0;
    pub const SLOT: usize = 4;
    pub const LONG_OFFSET: usize = 60;
    pub const SIZE: usize = 96;
    pub const LONG_BIT: u32 = 1 << 16;
    pub const LONG_SERIAL: u32 = 0x3201_0000;
    pub const MESSAGE: &'static [u8; 50] = b"Must use __system_property_read_callback() to read";
    pub const MESSAGE_SIZE: usize = 56;
}

/// Bytes of a value slot, and of the backup slot: a value with its zero.
pub const SLOT_SIZE: usize = 92;
/// The place of the backup slot, right behind the root.
pub const BACKUP: usize = Header::SIZE + Node::SIZE;
/// The first offset behind root and backup slot: the used mark of a fresh area.
pub const FIRST_FREE: usize = 112;
/// The greatest length of an area.
pub const LONGEST: usize = 131_072;
