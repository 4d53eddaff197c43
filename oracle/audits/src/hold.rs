//! Makes each call on both sides and compares what it leaves: the answer, every byte of area, scratch, list and room, and behind them.

use crate::rng::Rng;
use calls::{Audit, Count, PANICKED};
use std::fmt;
use std::panic::{catch_unwind, AssertUnwindSafe};

/// Bytes behind the area, the scratch and the room, and places behind the list, that no call may change.
const GUARD: usize = 16;

/// A side, and the one it is held against.
#[derive(Clone, Copy)]
pub struct Ours {
    pub name: &'static str,
    pub side: &'static (dyn Audit + Sync),
}

impl Ours {
    pub const JUDGE: Ours = Ours { name: "checker", side: &checker::Checker::DOCUMENT };
}

/// A call: how many bytes of scratch are lent, and to what. A list has so many places, and a room so many bytes.
#[derive(Clone, Copy)]
pub struct Call {
    pub scratch: usize,
    pub what: What,
}

#[derive(Clone, Copy)]
pub enum What {
    Check,
    List { places: usize },
    Dump { places: usize, room: usize },
}

impl Call {
    /// Places and room that are lent.
    fn lengths(self) -> (usize, usize) {
        match self.what {
            What::Check => (0, 0),
            What::List { places } => (places, 0),
            What::Dump { places, room } => (places, room),
        }
    }
}

impl fmt::Display for Call {
    fn fmt(&self, f: &mut fmt::Formatter<'_>) -> fmt::Result {
        let scratch = self.scratch;
        match self.what {
            What::Check => write!(f, "check with {scratch} bytes of scratch"),
            What::List { places } => write!(f, "list with {scratch} bytes of scratch and {places} places"),
            What::Dump { places, room } => {
                write!(f, "dump with {scratch} bytes of scratch, {places} places and room for {room} bytes")
            }
        }
    }
}

/// What is lent, with the guards. Area, scratch and room start at an odd address: they may lie anywhere.
#[derive(Clone, PartialEq)]
struct Lent {
    area: Vec<u8>,
    scratch: Vec<u8>,
    list: Vec<u32>,
    room: Vec<u8>,
}

/// Any bytes: one in front, so many, and the guard.
fn any_bytes(rng: &mut Rng, count: usize) -> Vec<u8> {
    let words = (0..(1 + count + GUARD).div_ceil(8)).map(|_| rng.next().to_le_bytes());
    words.flatten().take(1 + count + GUARD).collect()
}

impl Lent {
    /// The area as it is; the rest holds anything.
    fn new(area: &[u8], call: Call, fill: u64) -> Self {
        let mut rng = Rng::new(fill);
        let (places, room) = call.lengths();
        let scratch = any_bytes(&mut rng, call.scratch);
        let mut around = any_bytes(&mut rng, area.len());
        around[1..=area.len()].copy_from_slice(area);
        let list = (0..places + GUARD).map(|_| rng.word()).collect();
        Lent { area: around, scratch, list, room: any_bytes(&mut rng, room) }
    }

    /// The refusal, and for a list and a dump the count. A panic is an answer like any other.
    fn perform(&mut self, side: &dyn Audit, call: Call) -> Count {
        let area_len = self.area.len() - 1 - GUARD;
        let (area, scratch) = (&mut self.area[1..=area_len], &mut self.scratch[1..=call.scratch]);
        let (list, text) = (&mut self.list, &mut self.room);
        let made = catch_unwind(AssertUnwindSafe(|| match call.what {
            What::Check => Count { refusal: side.check(area, scratch), count: 0 },
            What::List { places } => side.list(area, scratch, &mut list[..places]),
            What::Dump { places, room } => side.dump(area, scratch, &mut list[..places], &mut text[1..=room]),
        }));
        made.unwrap_or(Count { refusal: PANICKED, count: 0 })
    }

    /// What another differs in, in words.
    fn differing(&self, other: &Lent) -> String {
        let first = |differ: bool, what: &str, place: Option<usize>| match place {
            Some(at) if differ => format!(" {what} from {at} on,"),
            _ => String::new(),
        };
        let bytes = |a: &[u8], b: &[u8]| a.iter().zip(b).position(|(a, b)| a != b).map(|at| at.wrapping_sub(1));
        let places = self.list.iter().zip(&other.list).position(|(a, b)| a != b);
        first(self.area != other.area, "area", bytes(&self.area, &other.area))
            + &first(self.scratch != other.scratch, "scratch", bytes(&self.scratch, &other.scratch))
            + &first(self.list != other.list, "list", places)
            + &first(self.room != other.room, "room", bytes(&self.room, &other.room))
    }

    /// What a call with this answer has handed over, cut where it is long.
    fn shown(&self, call: Call, answer: Count) -> String {
        let most = |limit: usize, held: usize| (answer.count as usize).min(held).min(limit);
        match call.what {
            What::Check => String::new(),
            What::List { .. } => format!(", count {}, list {:?}", answer.count, &self.list[..most(64, self.list.len())]),
            What::Dump { .. } => {
                let text = &self.room[1..][..most(512, self.room.len() - 1)];
                format!(", count {}, text \"{}\"", answer.count, text.escape_ascii())
            }
        }
    }
}

pub struct Difference {
    call: Call,
    /// Each side's refusal, and what it has handed over.
    judge: (u32, String),
    ours: (u32, String),
    differing: String,
}

impl fmt::Display for Difference {
    fn fmt(&self, f: &mut fmt::Formatter<'_>) -> fmt::Result {
        writeln!(f, "    {}", self.call)?;
        for (who, (refusal, shown)) in [("judge", &self.judge), ("ours ", &self.ours)] {
            writeln!(f, "    {who} answers {refusal}{shown}")?;
        }
        match self.differing.trim_end_matches(',') {
            "" => writeln!(f, "    all bytes are the same"),
            differing => writeln!(f, "    differing:{differing}"),
        }
    }
}

/// Makes one call on both sides, with the same bytes lent; the answer, if they agree and the area is as it was.
pub fn hold(ours: Ours, area: &[u8], call: Call, fill: u64) -> Result<Count, Box<Difference>> {
    let before = Lent::new(area, call, fill);
    let (mut by_judge, mut by_ours) = (before.clone(), before.clone());
    let judge = by_judge.perform(Ours::JUDGE.side, call);
    let answer = by_ours.perform(ours.side, call);
    if judge == answer && judge.refusal != PANICKED && by_judge == by_ours && by_ours.area == before.area {
        return Ok(judge);
    }
    Err(Box::new(Difference {
        call,
        judge: (judge.refusal, by_judge.shown(call, judge)),
        ours: (answer.refusal, by_ours.shown(call, answer)),
        differing: by_judge.differing(&by_ours),
    }))
}
