//! Fixed vectors: steps with their answers in one file, so that a small program in any language can replay them.
//!
//! Fields are little-endian u32; byte strings follow their lengths without padding. The file is the number of records, then the
//! records one after the other. The replaying program has one buffer of 131,080 bytes, zero at first.
//!
//! | opcode | arguments | answers |
//! |---|---|---|
//! | 1 format: the buffer's first `length` bytes, whatever they hold, become the area, and are formatted | length | refusal |
//! | 2 add | name length, value length, name, value | refusal |
//! | 3 update | name length, value length, name, value | refusal |
//! | 4 raw update | entry, backup length, value length, backup, value | refusal |
//! | 5 find | name length, name | refusal, entry, nodes compared |
//! | 6 value | entry | refusal, start, length |
//! | 7 backup read into a buffer of bytes 0xee | number wanted | refusal, Adler-32 of that buffer |
//! | 8 update distance | earlier, later | distance |
//! | 9 poke: store a word in the area | place from the area's first byte, word | none |
//!
//! A record is opcode, arguments, answers, and the Adler-32 (RFC 1950) of the area's bytes after the step.

use crate::area::Area;
use crate::op::{Answer, Op};
use crate::play::CAPACITY;
use calls::Side;

/// The whole file for these steps, with the answers that `side` gives.
#[cfg(feature = "mutants")]
pub fn file(steps: &[Op], side: &dyn Side) -> Vec<u8> {
    let mut area = Area::new(CAPACITY, 0);
    let mut out = (steps.len() as u32).to_le_bytes().to_vec();
    for op in steps {
        out.extend(record(op, side, &mut area));
    }
    out
}

/// Plays a file on `side`; the number of records, or which of them differs.
pub fn replay(file: &[u8], side: &dyn Side) -> Result<usize, String> {
    let mut reader = Reader { bytes: file, at: 0 };
    let mut area = Area::new(CAPACITY, 1);
    let count = reader.word().ok_or("no records")? as usize;
    for index in 0..count {
        let from = reader.at;
        let op = reader.op().ok_or(format!("record {index} cannot be read"))?;
        let expected = record(&op, side, &mut area);
        if file.get(from..from + expected.len()) != Some(&expected) {
            return Err(format!("record {index} differs: {op}"));
        }
        reader.at = from + expected.len();
    }
    if reader.at != file.len() {
        return Err(format!("{} bytes after the last record", file.len() - reader.at));
    }
    Ok(count)
}

/// Plays one step; its record.
fn record(op: &Op, side: &dyn Side, area: &mut Area) -> Vec<u8> {
    match *op {
        Op::Format { len } => area.set_len(len),
        Op::Poke { at, word } => area.poke(at, word),
        _ => {}
    }
    let answer = op.perform(side, area);
    let mut out = arguments(op);
    for word in answers(op, &answer) {
        out.extend(word.to_le_bytes());
    }
    out.extend(adler32(area.bytes()).to_le_bytes());
    out
}

/// Opcode and arguments.
fn arguments(op: &Op) -> Vec<u8> {
    let (words, texts): (Vec<usize>, [&[u8]; 2]) = match op {
        Op::Format { len } => (vec![1, *len], [b"", b""]),
        Op::Add { name, value } => (vec![2, name.len(), value.len()], [name.as_bytes(), value.as_bytes()]),
        Op::Update { name, value } => (vec![3, name.len(), value.len()], [name.as_bytes(), value.as_bytes()]),
        Op::RawUpdate { entry, backup, value } => {
            (vec![4, *entry as usize, backup.len(), value.len()], [backup, value.as_bytes()])
        }
        Op::Find { name } => (vec![5, name.len()], [name.as_bytes(), b""]),
        Op::Value { entry } => (vec![6, *entry as usize], [b"", b""]),
        Op::Name { .. } | Op::Serial { .. } => unreachable!("{op}: the vectors hold the eight calls that cases choose"),
        Op::BackupRead { wanted } => (vec![7, *wanted], [b"", b""]),
        Op::Distance { earlier, later } => (vec![8, *earlier as usize, *later as usize], [b"", b""]),
        Op::Poke { at, word } => (vec![9, *at, *word as usize], [b"", b""]),
    };
    let mut out: Vec<u8> = words.iter().flat_map(|&word| (word as u32).to_le_bytes()).collect();
    out.extend(texts.concat());
    out
}

fn answers(op: &Op, answer: &Answer) -> Vec<u32> {
    match op {
        Op::Poke { .. } => vec![],
        Op::Distance { .. } => vec![answer.place],
        Op::Find { .. } | Op::Value { .. } => vec![answer.refusal, answer.place, answer.size as u32],
        Op::BackupRead { .. } => vec![answer.refusal, adler32(&answer.buffer)],
        _ => vec![answer.refusal],
    }
}

fn adler32(bytes: &[u8]) -> u32 {
    let step = |(a, b): (u32, u32), &byte: &u8| {
        let a = (a + u32::from(byte)) % 65_521;
        (a, (b + a) % 65_521)
    };
    let (a, b) = bytes.iter().fold((1, 0), step);
    b << 16 | a
}

struct Reader<'a> {
    bytes: &'a [u8],
    at: usize,
}

impl Reader<'_> {
    fn word(&mut self) -> Option<u32> {
        let four = self.take(4)?;
        Some(u32::from_le_bytes(four.try_into().ok()?))
    }

    fn take(&mut self, len: usize) -> Option<Vec<u8>> {
        let part = self.bytes.get(self.at..self.at.checked_add(len)?)?;
        self.at += len;
        Some(part.to_vec())
    }

    fn text(&mut self, len: u32) -> Option<String> {
        String::from_utf8(self.take(len as usize)?).ok()
    }

    /// Opcode and arguments of the next record.
    fn op(&mut self) -> Option<Op> {
        Some(match self.word()? {
            1 => Op::Format { len: self.word()? as usize },
            opcode @ (2 | 3) => {
                let (name, value) = (self.word()?, self.word()?);
                let (name, value) = (self.text(name)?, self.text(value)?);
                if opcode == 2 {
                    Op::Add { name, value }
                } else {
                    Op::Update { name, value }
                }
            }
            4 => {
                let (entry, backup, value) = (self.word()?, self.word()?, self.word()?);
                Op::RawUpdate { entry, backup: self.take(backup as usize)?, value: self.text(value)? }
            }
            5 => {
                let len = self.word()?;
                Op::Find { name: self.text(len)? }
            }
            6 => Op::Value { entry: self.word()? },
            7 => Op::BackupRead { wanted: self.word()? as usize },
            8 => Op::Distance { earlier: self.word()?, later: self.word()? },
            9 => Op::Poke { at: self.word()? as usize, word: self.word()? },
            _ => return None,
        })
    }
}
