//! The rules of places, names and paths, each with its sentence.

use super::walk::Walk;
use super::{commas, quoted, Kind, Link, HEADER, NODE};

/// A text that was read: its bytes, and what it stopped at.
#[derive(Clone, Copy)]
pub(super) struct Run {
    pub(super) start: usize,
    pub(super) end: usize,
    stop: Stop,
}

#[derive(Clone, Copy)]
enum Stop {
    Zero,
    Most,
    File,
    Object(usize),
}

impl Run {
    /// The size of the object that begins at a byte and ends with this text and its zero, padded.
    pub(super) fn size_from(self, at: usize) -> usize {
        let zero = usize::from(matches!(self.stop, Stop::Zero));
        self.end.saturating_add(zero).next_multiple_of(4).saturating_sub(at)
    }
}

impl Walk<'_> {
    /// Where the words end that a link can lead to.
    fn end(&self) -> usize {
        HEADER.saturating_add(self.owner.len().saturating_mul(4))
    }

    fn owner_of(&self, at: usize) -> Option<usize> {
        self.owner.get(at.checked_sub(HEADER)? / 4).copied().flatten()
    }

    /// The place to which a link leads, if an object of that size can be read there. One behind the used part breaks a rule, and is read
    /// unless it is all zeros: the mark may be what is wrong.
    pub(super) fn place(&mut self, from: usize, field: &str, link: Link, size: usize, what: &str) -> Option<usize> {
        let to = link.to?;
        let says = format!("the {field} link leads to offset {} (byte {}),", commas(to.saturating_sub(HEADER)), commas(to));
        if let Some(why) = self.misled(to, size, what) {
            self.broken(from, link.at, format!("{says} {why}"));
            return None;
        }
        if to < self.used_end {
            return Some(to);
        }
        let end = commas(self.used_end);
        self.broken(from, link.at, format!("{says} out of the used part, which ends before byte {end}"));
        let there = self.bytes.get(to..to.saturating_add(size)).unwrap_or_default();
        there.iter().any(|&byte| byte != 0).then_some(to)
    }

    /// Why no object of that size can be read at a byte.
    fn misled(&self, to: usize, size: usize, what: &str) -> Option<String> {
        if to % 4 != 0 {
            return Some("which is no multiple of 4".to_string());
        }
        if to >= self.bytes.len() {
            return Some("out of the file".to_string());
        }
        if to.saturating_add(size) > self.end() {
            return Some(format!("too near the file's end for {what}"));
        }
        if let Some(other) = self.owner_of(to) {
            let again = self.look.object(other).is_some_and(|object| object.at == to && !matches!(object.kind, Kind::Slot(_)));
            let again = again.then(|| format!("to {}, which another link has reached", self.look.called(self.bytes, other)));
            return Some(again.unwrap_or_else(|| format!("into {}", self.placed(other))));
        }
        let mut words = (to..to.saturating_add(size)).step_by(4);
        let other = words.find_map(|at| self.owner_of(at))?;
        Some(format!("and {what} there runs into {}", self.placed(other)))
    }

    /// Reads a text up to its zero: at most so many bytes, and none of another object.
    pub(super) fn text(&self, start: usize, most: usize) -> Run {
        let mut end = start;
        let stop = loop {
            if end.saturating_sub(start) == most {
                break Stop::Most;
            }
            if end >= self.bytes.len() {
                break Stop::File;
            }
            if let Some(other) = self.owner_of(end) {
                break Stop::Object(other);
            }
            if self.bytes.get(end) == Some(&0) {
                break Stop::Zero;
            }
            end = end.saturating_add(1);
        };
        Run { start, end, stop }
    }

    /// A text of an object has its zero, before another object and in the used part; whether it has one.
    pub(super) fn ends(&mut self, number: usize, object: &str, text: &str, run: Run) -> bool {
        let what = format!("{object}{text}");
        let (at, end) = self.look.object(number).map_or((0, 0), |object| (object.at, object.at.saturating_add(object.size)));
        let past = at < self.used_end && self.used_end < end;
        let why = match run.stop {
            Stop::Object(other) => Some(format!("{what} runs into {}", self.placed(other))),
            Stop::File => Some(format!("{what} has no zero before the file's end")),
            Stop::Most => Some(format!("{what} has no zero behind it")),
            Stop::Zero => None,
        };
        let ended = why.is_none();
        if let Some(rule) = why {
            self.broken(number, run.end.saturating_sub(1), rule);
        }
        if past {
            let used = commas(self.used_end);
            self.broken(number, self.used_end, format!("{object} runs out of the used part, which ends before byte {used}"));
        }
        ended
    }

    /// A node's name is nonempty, exactly namelen long, and without dots.
    pub(super) fn node_name(&mut self, number: usize, namelen: usize, run: Run) -> bool {
        if namelen == 0 {
            self.broken(number, run.start.saturating_sub(NODE), "the node's namelen is 0".to_string());
            return false;
        }
        let mut whole = self.ends(number, "the node", "'s name", run);
        let has = run.end.saturating_sub(run.start);
        if whole && has < namelen {
            let says = format!("the node's namelen is {}, but its name has length {}", commas(namelen), commas(has));
            self.broken(number, run.end, says);
            whole = false;
        }
        let name = self.look.node(number).map(|node| node.name.of(self.bytes)).unwrap_or_default();
        if let Some(dot) = name.iter().position(|&byte| byte == b'.') {
            self.broken(number, run.start.saturating_add(dot), "the node's name has a dot".to_string());
            whole = false;
        }
        whole
    }

    /// Whether a name is the dotted path of a node; nothing, where a name on the way to the root is broken itself.
    pub(super) fn is_path(&self, name: &[u8], node: usize) -> Option<bool> {
        let (mut rest, mut number) = (name, node);
        loop {
            let node = self.look.node(number).filter(|node| node.whole)?;
            let above = node.above?;
            let Some(front) = rest.strip_suffix(node.name.of(self.bytes)) else {
                return Some(false);
            };
            if self.look.node(above)?.above.is_none() {
                return Some(front.is_empty());
            }
            let Some(front) = front.strip_suffix(b".") else {
                return Some(false);
            };
            (rest, number) = (front, above);
        }
    }

    /// The dotted path of a node, for a sentence: of a deep one, the last segments.
    pub(super) fn path(&self, node: usize) -> String {
        let mut segments = Vec::new();
        let mut next = self.look.node(node);
        while let Some((node, above)) = next.and_then(|node| Some((node, node.above?))) {
            if segments.len() == 16 {
                segments.push(&b".."[..]);
                break;
            }
            segments.push(node.name.of(self.bytes));
            next = self.look.node(above);
        }
        segments.reverse();
        quoted(&segments.join(&b'.'))
    }

    /// An object in a sentence, with its place.
    fn placed(&self, number: usize) -> String {
        let called = self.look.called(self.bytes, number);
        match self.look.object(number).map(|object| (object.at, &object.kind)) {
            Some((at, Kind::Node(_) | Kind::Entry(_) | Kind::Value(_))) => format!("{called} at byte {}", commas(at)),
            _ => called,
        }
    }
}
