//! The ways of being unsound that the checker tells apart. Only the number, 5, is compared.

/// Why an area is not sound, by the clauses of RULES 6.
#[derive(Clone, Copy, Debug, PartialEq, Eq)]
pub enum Fault {
    /// Used is no multiple of 4 from 112 to data size.
    Used,
    /// One of the root's namelen, prop, left and right is not zero.
    Root,
    NodeStart,
    /// A node, padded, does not lie between 112 and used.
    NodePlace,
    NameEmpty,
    NameDot,
    /// There is a zero before namelen bytes, or none behind them.
    NameLength,
    /// Not greater than all that must be smaller, or not smaller than all that must be greater.
    Order,
    NodeShares,
    EntryStart,
    EntryPlace,
    EntryName,
    EntryShares,
    /// All 92 bytes of a short slot, and no zero.
    Slot,
    ValueStart,
    /// No zero before used, or padding beyond it.
    ValuePlace,
    /// The relative offset is less than the entry's own size.
    ValueNear,
    ValueShares,
}

impl Fault {
    pub const ALL: [Fault; 18] = [
        Fault::Used,
        Fault::Root,
        Fault::NodeStart,
        Fault::NodePlace,
        Fault::NameEmpty,
        Fault::NameDot,
        Fault::NameLength,
        Fault::Order,
        Fault::NodeShares,
        Fault::EntryStart,
        Fault::EntryPlace,
        Fault::EntryName,
        Fault::EntryShares,
        Fault::Slot,
        Fault::ValueStart,
        Fault::ValuePlace,
        Fault::ValueNear,
        Fault::ValueShares,
    ];
}
