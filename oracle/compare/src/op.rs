//! One step of a case: a call, or a store that damages the area. Steps hold their arguments, so a case can be replayed.

use crate::area::Area;
use calls::{Part, Side, PANICKED};
use std::fmt;
use std::panic::{catch_unwind, AssertUnwindSafe};

#[derive(Clone, PartialEq)]
pub enum Op {
    /// Makes the buffer's first `len` bytes the area and formats it.
    Format {
        len: usize,
    },
    Add {
        name: String,
        value: String,
    },
    Update {
        name: String,
        value: String,
    },
    RawUpdate {
        entry: u32,
        backup: Vec<u8>,
        value: String,
    },
    Find {
        name: String,
    },
    Value {
        entry: u32,
    },
    Name {
        entry: u32,
    },
    Serial {
        entry: u32,
    },
    BackupRead {
        wanted: usize,
    },
    Distance {
        earlier: u32,
        later: u32,
    },
    /// No call: stores a word at a place counted from the area's first byte.
    Poke {
        at: usize,
        word: u32,
    },
}

#[derive(Clone, Copy, PartialEq, Eq, PartialOrd, Ord)]
pub enum Kind {
    Format,
    Add,
    Update,
    RawUpdate,
    Find,
    Value,
    Name,
    Serial,
    BackupRead,
    Distance,
}

impl Kind {
    pub const ALL: [(Kind, &'static str); 10] = [
        (Kind::Format, "format"),
        (Kind::Add, "add"),
        (Kind::Update, "update"),
        (Kind::RawUpdate, "raw update"),
        (Kind::Find, "find"),
        (Kind::Value, "value"),
        (Kind::Name, "name"),
        (Kind::Serial, "serial"),
        (Kind::BackupRead, "backup read"),
        (Kind::Distance, "distance"),
    ];

    /// Whether no case chooses it: it is asked along with a value, at the same offset.
    pub fn asked_along(self) -> bool {
        matches!(self, Kind::Name | Kind::Serial)
    }

    /// Whether it leaves every byte of the area.
    pub fn only_reads(self) -> bool {
        self.asked_along() || matches!(self, Kind::Find | Kind::Value | Kind::BackupRead | Kind::Distance)
    }

    #[cfg(feature = "mutants")]
    pub fn name(self) -> &'static str {
        Self::ALL[self as usize].1
    }
}

/// What a call leaves beside the area's bytes.
#[derive(Clone, Debug, Default, PartialEq)]
pub struct Answer {
    pub refusal: u32,
    /// Find: the entry's offset. Value, name: the start. Serial, distance: itself.
    pub place: u32,
    /// Find: nodes compared. Value, name: the length.
    pub size: u64,
    /// Backup read: the caller's buffer.
    pub buffer: Vec<u8>,
}

/// What a caller's buffer holds before a backup read: a refusal keeps it.
pub const FILLER: u8 = 0xee;

impl Op {
    /// Which call it is; a poke is none.
    pub fn kind(&self) -> Option<Kind> {
        Some(match self {
            Op::Format { .. } => Kind::Format,
            Op::Add { .. } => Kind::Add,
            Op::Update { .. } => Kind::Update,
            Op::RawUpdate { .. } => Kind::RawUpdate,
            Op::Find { .. } => Kind::Find,
            Op::Value { .. } => Kind::Value,
            Op::Name { .. } => Kind::Name,
            Op::Serial { .. } => Kind::Serial,
            Op::BackupRead { .. } => Kind::BackupRead,
            Op::Distance { .. } => Kind::Distance,
            Op::Poke { .. } => return None,
        })
    }

    /// Makes the call; a panic is an answer like any other.
    pub fn perform(&self, side: &dyn Side, area: &mut Area) -> Answer {
        let call = AssertUnwindSafe(|| self.answer(side, area));
        catch_unwind(call).unwrap_or(Answer { refusal: PANICKED, ..Answer::default() })
    }

    fn answer(&self, side: &dyn Side, area: &mut Area) -> Answer {
        let bytes = area.bytes_mut();
        let refused = |refusal| Answer { refusal, ..Answer::default() };
        let placed = |part: Part| Answer { refusal: part.refusal, place: part.start, size: part.length, buffer: Vec::new() };
        match self {
            Op::Format { .. } => refused(side.format(bytes)),
            Op::Add { name, value } => refused(side.add(bytes, name.as_bytes(), value.as_bytes())),
            Op::Update { name, value } => refused(side.update(bytes, name.as_bytes(), value.as_bytes())),
            Op::RawUpdate { entry, backup, value } => refused(side.raw_update(bytes, *entry, backup, value.as_bytes())),
            Op::Find { name } => {
                let found = side.find(bytes, name.as_bytes());
                Answer { refusal: found.refusal, place: found.entry, size: found.compared, buffer: Vec::new() }
            }
            Op::Value { entry } => placed(side.value(bytes, *entry)),
            Op::Name { entry } => placed(side.name(bytes, *entry)),
            Op::Serial { entry } => {
                let read = side.serial(bytes, *entry);
                Answer { refusal: read.refusal, place: read.serial, ..Answer::default() }
            }
            Op::BackupRead { wanted } => {
                let mut buffer = vec![FILLER; *wanted];
                Answer { refusal: side.backup_read(bytes, &mut buffer), buffer, ..Answer::default() }
            }
            Op::Distance { earlier, later } => Answer { place: side.update_distance(*earlier, *later), ..Answer::default() },
            Op::Poke { .. } => Answer::default(),
        }
    }
}

impl fmt::Display for Op {
    fn fmt(&self, f: &mut fmt::Formatter<'_>) -> fmt::Result {
        match self {
            Op::Format { len } => write!(f, "format {len} bytes"),
            Op::Add { name, value } => write!(f, "add {name:?} = {value:?}"),
            Op::Update { name, value } => write!(f, "update {name:?} = {value:?}"),
            Op::RawUpdate { entry, backup, value } => {
                write!(f, "raw update of {entry}, backup \"{}\", value {value:?}", backup.escape_ascii())
            }
            Op::Find { name } => write!(f, "find {name:?}"),
            Op::Value { entry } => write!(f, "value of {entry}"),
            Op::Name { entry } => write!(f, "name of {entry}"),
            Op::Serial { entry } => write!(f, "serial of {entry}"),
            Op::BackupRead { wanted } => write!(f, "backup read of {wanted} bytes"),
            Op::Distance { earlier, later } => write!(f, "distance from {earlier:#x} to {later:#x}"),
            Op::Poke { at, word } => match at.checked_sub(128) {
                Some(offset) => write!(f, "poke {word:#x} at data offset {offset}"),
                None => write!(f, "poke {word:#x} at header byte {at}"),
            },
        }
    }
}

impl fmt::Display for Answer {
    fn fmt(&self, f: &mut fmt::Formatter<'_>) -> fmt::Result {
        write!(f, "{}", self.refusal)?;
        if self.place != 0 || self.size != 0 {
            write!(f, ", place {}, size {}", self.place, self.size)?;
        }
        if !self.buffer.is_empty() {
            write!(f, ", buffer \"{}\"", self.buffer.escape_ascii())?;
        }
        Ok(())
    }
}
