//! Makes each call on both sides and compares what it leaves: the answer, every byte of the area and of the buffer.

use crate::area::Area;
use crate::counts::Counts;
use crate::op::{Answer, Kind, Op};
use calls::{Side, UNMAPPED};
use std::fmt;

/// The longest area that is tried: a little over the limit of RULES 3.1.
pub const CAPACITY: usize = 131_080;

/// A side, and the one it is held against: the judge, or the twin where the bytes are none the original can be given.
#[derive(Clone, Copy)]
pub struct Ours {
    pub name: &'static str,
    pub side: &'static dyn Side,
    pub judge_name: &'static str,
    pub judge: &'static dyn Side,
}

#[cfg(feature = "original")]
impl Ours {
    pub const fn against_original(name: &'static str, side: &'static dyn Side) -> Self {
        Ours { name, side, judge_name: "original", judge: &original::Original }
    }
}

pub struct Difference {
    judge: Answer,
    ours: Answer,
    /// Place, the judge's byte, ours. A place may lie just behind the area.
    bytes: Vec<(usize, u8, u8)>,
    /// Whether a call that only reads left another area behind, on the judge's side.
    changed: bool,
}

impl fmt::Display for Difference {
    fn fmt(&self, f: &mut fmt::Formatter<'_>) -> fmt::Result {
        writeln!(f, "    judge answers {}", self.judge)?;
        writeln!(f, "    ours  answers {}", self.ours)?;
        writeln!(f, "    {} bytes differ", self.bytes.len())?;
        if self.changed {
            writeln!(f, "    a call that only reads changed the judge's area")?;
        }
        for (at, judge, ours) in self.bytes.iter().take(16) {
            writeln!(f, "    byte {at} (data offset {}): judge {judge:#04x}, ours {ours:#04x}", *at as i64 - 128)?;
        }
        Ok(())
    }
}

pub type Outcome<T = ()> = Result<T, Box<Difference>>;

/// The same area on both sides.
pub struct Pair {
    ours: Ours,
    judge: Area,
    our_area: Area,
}

impl Pair {
    pub fn new(ours: Ours) -> Self {
        // Ours starts at an odd address: the rules align offsets, not addresses.
        Pair { ours, judge: Area::new(CAPACITY, 0), our_area: Area::new(CAPACITY, 1) }
    }

    pub fn step(&mut self, op: &Op) -> Outcome<Answer> {
        match *op {
            Op::Format { len } => {
                self.judge.set_len(len);
                self.our_area.set_len(len);
            }
            Op::Poke { at, word } => {
                self.judge.poke(at, word);
                self.our_area.poke(at, word);
                return Ok(Answer::default());
            }
            _ => {}
        }
        let before = op.kind().filter(|kind| kind.only_reads()).map(|_| self.judge.guarded().to_vec());
        let judge = op.perform(self.ours.judge, &mut self.judge);
        let ours = op.perform(self.ours.side, &mut self.our_area);
        let changed = before.is_some_and(|before| before != self.judge.guarded());
        // A panic, or an error that stands for no refusal, is never right, not even on both sides.
        if judge.refusal < UNMAPPED && judge == ours && !changed && self.judge.guarded() == self.our_area.guarded() {
            return Ok(judge);
        }
        Err(Box::new(Difference { judge, ours, bytes: self.differing_bytes(), changed }))
    }

    fn differing_bytes(&self) -> Vec<(usize, u8, u8)> {
        let both = self.judge.guarded().iter().zip(self.our_area.guarded());
        both.enumerate().filter(|(_, (a, b))| a != b).map(|(at, (a, b))| (at, *a, *b)).collect()
    }
}

/// Plays a case step by step and keeps its steps.
pub struct Player {
    pair: Pair,
    /// Whether each value is followed by name and serial at its offset.
    pub asks_along: bool,
    pub log: Vec<Op>,
    /// The log's calls, each with its refusal.
    pub refusals: Vec<(Kind, u32)>,
    pub counts: Counts,
}

impl Player {
    pub fn new(ours: Ours) -> Self {
        let (log, refusals, counts) = (Vec::new(), Vec::new(), Counts::default());
        Player { pair: Pair::new(ours), asks_along: true, log, refusals, counts }
    }

    /// Makes the calls that cases choose and no other: those that the fixed vectors hold.
    #[cfg(feature = "mutants")]
    pub fn of_vectors(ours: Ours) -> Self {
        Player { asks_along: false, ..Player::new(ours) }
    }

    /// A new case starts with a buffer of zeros.
    pub fn start(&mut self) {
        self.log.clear();
        self.refusals.clear();
        self.pair.judge.clear();
        self.pair.our_area.clear();
    }

    pub fn play(&mut self, op: Op) -> Outcome<Answer> {
        self.log.push(op);
        let op = &self.log[self.log.len() - 1];
        let answer = self.pair.step(op);
        if let Some(kind) = op.kind() {
            let judged = answer.as_ref().unwrap_or_else(|difference| &difference.judge);
            self.counts.add(kind, judged);
            self.refusals.push((kind, judged.refusal));
        }
        answer
    }

    /// The area as it stands: what comes next may depend on it.
    pub fn area(&self) -> &Area {
        &self.pair.judge
    }
}
