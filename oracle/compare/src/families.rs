//! The families of cases. Which one a case belongs to, and everything in it, follows from the seed and the case's number.

use crate::case::{Case, BRIEF_LENGTH};
use crate::damage::{self, data_size, CHILDREN, DATA, MAGIC, NODE, PROP, RIGHT, USED, VERSION};
use crate::op::Op;
use crate::play::{Outcome, Player};
use crate::rng::Rng;
use crate::text;

type Family = fn(&mut Case) -> Outcome;

/// Each family with its name and its share of the cases.
const FAMILIES: [(&str, Family, usize); 9] = [
    ("history", history, 4),
    ("damaged", damaged, 8),
    ("every length", every_length, 4),
    ("every word", every_word, 8),
    ("every used", every_used, 4),
    ("exact bound", exact_bound, 2),
    ("brim", brim, 2),
    ("overlap", overlap, 4),
    ("wrong header", wrong_header, 1),
];

/// Plays the case with that number; its family's name.
pub fn play_case(player: &mut Player, seed: u64, number: usize, brief: bool) -> Outcome<&'static str> {
    let round: usize = FAMILIES.iter().map(|(_, _, share)| share).sum();
    let mut slot = number % round;
    for (name, family, share) in FAMILIES {
        if slot < share {
            let turn = number / round * share + slot;
            let case_seed = Rng::new(seed ^ (number as u64).rotate_left(32)).next();
            return family(&mut Case::new(player, case_seed, turn, brief)).map(|()| name);
        }
        slot -= share;
    }
    unreachable!("a slot is less than all shares together")
}

/// Adds, updates and lookups on a fresh area.
fn history(case: &mut Case) -> Outcome {
    let len = case.length();
    case.format(len)?;
    let more = if len > BRIEF_LENGTH { 8 } else { 1 };
    case.calls(20, 120 * more, usize::MAX)
}

/// A history, then injuries among the calls.
fn damaged(case: &mut Case) -> Outcome {
    let len = case.length();
    case.format(len)?;
    case.calls(8, 40, usize::MAX)?;
    case.injure()?;
    case.calls(10, 40, 6)
}

/// Each length from 128 to 419 in turn: plain, or with words that look like nodes and names all over the data.
fn every_length(case: &mut Case) -> Outcome {
    case.bare(128 + case.turn % 292)?;
    if case.turn / 292 % 2 == 1 {
        soup(case)?;
    }
    case.calls(10, 40, 20)
}

fn soup(case: &mut Case) -> Outcome {
    let size = data_size(case.area());
    for at in (DATA..DATA + size).step_by(4) {
        let word = match case.rng.below(10) {
            0..=3 => 4 * case.rng.below(size / 4 + 1) as u32,
            4 | 5 => case.rng.below(6) as u32,
            6 | 7 => damage::name_word(&mut case.rng),
            _ => 0,
        };
        case.poke(at, word)?;
    }
    Ok(())
}

/// One fixed area in which one word is set to one value: all words and values in turn.
fn every_word(case: &mut Case) -> Outcome {
    const LENGTH: usize = 640;
    const NAMES: [&str; 4] = ["ab.c", "b", "ab", "b.b"];
    let values = [0, 1, 2, 3, 4, 5, 12, 16, 19, 20, 24, 96, 100, 103, 104, 108, 111, 112, 113, 116, 136, 160, 264, 288, 388, 412];
    let ends = [0, 1, 4, 20, 24, 91, 92, 96, 97, 100].map(|back| (LENGTH - DATA) as u32 - back);
    let large =
        [0x61, 0x6261, 0xffff, 0x1_0000, 0x3_0000, 0x0100_0000, 0x7fff_ffff, 0x8000_0000, 0xffff_ff80, 0xffff_fffc, u32::MAX];
    let all = [&values[..], &ends, &large].concat();
    // A stride that has no factor in common with the number of pairs meets all of them, spread.
    let pair = case.turn * 7_919 % (LENGTH / 4 * all.len());
    case.format(LENGTH)?;
    for (name, value) in NAMES.iter().zip(["12", "q", &"l".repeat(92), ""]) {
        case.add((*name).to_owned(), value.to_owned())?;
    }
    case.poke(pair / all.len() * 4, all[pair % all.len()])?;
    for name in ["ab.c", "b", "ab", "b.b", "a", "ab.c.d"] {
        let found = case.go(Op::Find { name: name.to_owned() })?;
        case.go(Op::Value { entry: found.place })?;
    }
    for name in NAMES {
        case.go(Op::Update { name: name.to_owned(), value: "345".to_owned() })?;
    }
    case.add("a".to_owned(), "new".to_owned())?;
    case.calls(1, 4, usize::MAX)
}

/// `used` set to each of its edges, then adds of names that are partly there.
fn every_used(case: &mut Case) -> Outcome {
    let len = case.length();
    case.format(len)?;
    for _ in 0..case.rng.within(0, 4) {
        let name = case.name(2);
        case.add(name, "v".to_owned())?;
    }
    for _ in 0..case.rng.within(1, 5) {
        case.set_used()?;
        let (name, value) = (case.name(1), text::value(&mut case.rng));
        case.add(name.clone(), value)?;
        case.go(Op::Find { name })?;
    }
    case.calls(2, 8, usize::MAX)
}

/// A chain of overlapping nodes as long as one segment may compare (data size / 20 + 1), one shorter or one longer. It ends in the
/// node that is looked for, or in a zero link.
fn exact_bound(case: &mut Case) -> Outcome {
    let len = if case.rng.once_in(64) && !case.brief { 131_072 } else { case.rng.within(500, 1_200) };
    case.format(len)?;
    let nodes = (len - DATA) / NODE + case.turn % 3;
    let behind = chain(case, nodes)?;
    if !case.rng.once_in(4) {
        case.poke(USED, behind)?;
    }
    for name in ["zzzz", "zzzz.zzzz"] {
        case.go(Op::Find { name: name.to_owned() })?;
        case.add(name.to_owned(), "v".to_owned())?;
        case.go(Op::Update { name: name.to_owned(), value: "w".to_owned() })?;
    }
    Ok(())
}

/// Nodes 8 or 16 bytes apart below the root, each one's right link leading to the next; the last is "zzzz" every other time.
/// The answer is the offset behind them.
///
/// What follows a node's 20 bytes is a link or a zero word of the nodes after it. With namelen 3 it holds a zero and reads as a name
/// of 3 bytes at most, so "zzzz" is greater.
fn chain(case: &mut Case, nodes: usize) -> Outcome<u32> {
    let (apart, first) = case.rng.pick(&[(8, 112), (16, 20)]);
    let node = |k: usize| DATA + first + apart * k;
    let last = node(nodes - 1);
    case.poke(DATA + CHILDREN, first as u32)?;
    for k in 0..nodes {
        case.poke(node(k), 3)?;
        case.poke(node(k) + RIGHT, (node(k + 1) - DATA) as u32)?;
    }
    case.poke(last + RIGHT, 0)?;
    if case.rng.once_in(2) {
        case.poke(last, 4)?;
        case.poke(last + NODE, u32::from_le_bytes(*b"zzzz"))?;
        case.poke(last + NODE + 4, 0)?;
        if apart == 16 {
            // At 8 bytes this word is the link to the last node: its own place serves as the entry.
            case.poke(last + PROP, 24)?;
        }
    }
    Ok((last + NODE + 8 - DATA) as u32)
}

/// An area filled to the brim, the last adds made to fit exactly, or to miss by a word.
fn brim(case: &mut Case) -> Outcome {
    let largest = if case.brief { BRIEF_LENGTH } else { 131_072 };
    let len = if case.rng.once_in(16) { largest } else { case.length() };
    case.format(len)?;
    let least = case.rng.pick(&[300, 700, largest / 2]);
    let many = case.rng.once_in(6);
    for _ in 0..1_200 {
        let room = case.room();
        if room < least {
            break;
        }
        // Long values fill it fast; without them it takes many nodes.
        let size = if many { case.rng.below(90) } else { case.rng.within(room / 8, room / 2) };
        let (name, value) = (case.name(1), text::filled(&mut case.rng, size));
        case.add(name, value)?;
    }
    for _ in 0..case.rng.within(2, 8) {
        fit(case)?;
    }
    case.calls(2, 12, usize::MAX)
}

/// Adds a name of one fresh segment whose node, entry and long value take the room that is left, or a word or two less or more.
fn fit(case: &mut Case) -> Outcome {
    let align4 = |size: usize| size.div_ceil(4) * 4;
    let goal = (case.room() + 4 * case.rng.below(5)).saturating_sub(8);
    let len = case.rng.within(1, 12);
    let long = goal.saturating_sub(align4(21 + len) + align4(97 + len)) / 4 * 4;
    let (name_len, value_len) = if long >= 96 && case.rng.once_in(2) {
        (len, long - 1 - case.rng.below(4))
    } else {
        // The name takes it all; each of its bytes counts twice, in the node and in the entry.
        ((goal.saturating_sub(118) / 2).max(1), 0)
    };
    let (name, value) = (text::filled(&mut case.rng, name_len), text::filled(&mut case.rng, value_len));
    case.add(name, value).map(|_| ())
}

/// An entry that lies over the root, the backup slot or its own node: what is stored first shows in what is read next.
fn overlap(case: &mut Case) -> Outcome {
    let len = case.rng.within(240, 500);
    case.format(len)?;
    case.add("a".to_owned(), String::new())?;
    for _ in 0..case.rng.within(1, 4) {
        let entry = if case.rng.once_in(4) { case.offset() } else { 4 * case.rng.below(40) as u32 };
        case.poke(DATA + 112 + PROP, entry)?;
        if case.rng.once_in(2) {
            let serial = damage::serial(&mut case.rng);
            case.poke(DATA + entry as usize, serial)?;
        }
        let (backup, value) = (text::backup(&mut case.rng), text::value(&mut case.rng));
        case.go(Op::Update { name: "a".to_owned(), value: value.clone() })?;
        case.go(Op::RawUpdate { entry, backup, value })?;
        case.go(Op::Value { entry })?;
    }
    case.calls(1, 5, usize::MAX)
}

/// Lengths that no area has, and headers with one bit wrong: every call on them is 8.
fn wrong_header(case: &mut Case) -> Outcome {
    let lengths = [0, 1, 7, 8, 15, 16, 64, 126, 127, 128, 129, 239, 240, 300, 131_072, 131_073, 131_080];
    let len = lengths[case.turn % if case.brief { 14 } else { lengths.len() }];
    case.bare(len)?;
    if (128..=131_072).contains(&len) {
        let (at, right) = case.rng.pick(&[MAGIC, VERSION]);
        let wrong = right ^ 1 << case.rng.below(32);
        case.poke(at, wrong)?;
    }
    case.calls(12, 24, usize::MAX)
}
