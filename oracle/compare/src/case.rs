//! A case: an area that is made, hurt and called upon. Random steps that every family of cases uses.

use crate::area::Area;
use crate::damage::{self, data_size, DATA, MAGIC, USED, VERSION};
use crate::op::{Answer, Op};
use crate::play::{Outcome, Player};
use crate::rng::Rng;
use crate::text;

pub struct Case<'p> {
    player: &'p mut Player,
    pub rng: Rng,
    /// How many cases of the same family came before.
    pub turn: usize,
    /// Small areas and few calls: a sample for the fixed vectors.
    pub brief: bool,
    style: text::Style,
    /// Names whose add was accepted.
    names: Vec<String>,
}

/// The longest area of the fixed vectors.
pub const BRIEF_LENGTH: usize = 4_096;

impl<'p> Case<'p> {
    pub fn new(player: &'p mut Player, seed: u64, turn: usize, brief: bool) -> Self {
        let mut rng = Rng::new(seed);
        let style = text::Style::any(&mut rng);
        Case { player, rng, turn, brief, style, names: Vec::new() }
    }

    pub fn go(&mut self, op: Op) -> Outcome<Answer> {
        match op {
            // A store outside the area is no step.
            Op::Poke { at, .. } if self.player.area().word(at).is_none() => Ok(Answer::default()),
            // Asked along and not chosen: the generator is not drawn from, so that cases stay what they were.
            Op::Value { entry } if self.player.asks_along => {
                let answer = self.player.play(op)?;
                self.player.play(Op::Name { entry })?;
                self.player.play(Op::Serial { entry })?;
                Ok(answer)
            }
            _ => self.player.play(op),
        }
    }

    pub fn poke(&mut self, at: usize, word: u32) -> Outcome {
        self.go(Op::Poke { at, word }).map(|_| ())
    }

    pub fn area(&self) -> &Area {
        self.player.area()
    }

    /// Sets `used` to one of its edges.
    pub fn set_used(&mut self) -> Outcome {
        let word = damage::used(&mut self.rng, self.player.area());
        self.poke(USED, word)
    }

    /// Bytes of the data that are not used.
    pub fn room(&self) -> usize {
        data_size(self.area()).saturating_sub(self.area().word(USED).unwrap_or(0) as usize)
    }

    pub fn format(&mut self, len: usize) -> Outcome {
        self.go(Op::Format { len }).map(|_| ())
    }

    /// An area of any length with a right header, also where format refuses that length.
    pub fn bare(&mut self, len: usize) -> Outcome {
        self.format(len)?;
        if (240..=131_072).contains(&len) {
            return Ok(());
        }
        self.poke(USED, 112)?;
        if self.rng.once_in(2) {
            self.set_used()?;
        }
        self.poke(MAGIC.0, MAGIC.1)?;
        self.poke(VERSION.0, VERSION.1)
    }

    /// A length that format accepts: mostly small, now and then up to the largest.
    pub fn length(&mut self) -> usize {
        match self.rng.below(40) {
            0..=3 => self.rng.pick(&[240, 241, 243, 244, 263, 264, 267, 268, 363, 364, 367, 368]),
            4..=31 => self.rng.within(240, 1_500),
            32..=38 => self.rng.within(1_500, BRIEF_LENGTH),
            _ if self.brief => BRIEF_LENGTH,
            _ => self.rng.pick(&[16_384, 65_536, 131_071, 131_072]),
        }
    }

    pub fn injure(&mut self) -> Outcome {
        for op in damage::injury(&mut self.rng, self.player.area()) {
            self.go(op)?;
        }
        Ok(())
    }

    /// Between `low` and `high` calls, with an injury before one in `calm` of them.
    pub fn calls(&mut self, low: usize, high: usize, calm: usize) -> Outcome {
        let count = self.rng.within(low, high);
        for _ in 0..if self.brief { count.div_ceil(4) } else { count } {
            if self.rng.once_in(calm) {
                self.injure()?;
            }
            self.call()?;
        }
        Ok(())
    }

    /// Any call, with arguments that mostly mean something in this area.
    pub fn call(&mut self) -> Outcome<Answer> {
        let op = match self.rng.below(400) {
            0..=119 => {
                let (name, value) = (self.name(2), text::value(&mut self.rng));
                return self.add(name, value);
            }
            120..=199 => Op::Update { name: self.name(4), value: text::value(&mut self.rng) },
            200..=269 => Op::Find { name: self.name(3) },
            270..=319 => Op::Value { entry: self.offset() },
            320..=364 => {
                Op::RawUpdate { entry: self.offset(), backup: text::backup(&mut self.rng), value: text::value(&mut self.rng) }
            }
            365..=389 => Op::BackupRead { wanted: self.wanted() },
            390..=398 => {
                let (earlier, later) = (damage::serial(&mut self.rng), damage::serial(&mut self.rng));
                Op::Distance { earlier, later }
            }
            _ => Op::Format { len: self.area().bytes().len() },
        };
        self.go(op)
    }

    pub fn add(&mut self, name: String, value: String) -> Outcome<Answer> {
        let answer = self.go(Op::Add { name: name.clone(), value })?;
        if answer.refusal == 0 {
            self.names.push(name);
        }
        Ok(answer)
    }

    /// A name: once in `times` any, otherwise one that was added before.
    pub fn name(&mut self, times: usize) -> String {
        if self.names.is_empty() || self.rng.once_in(times) {
            text::name(&mut self.rng, self.style)
        } else {
            self.rng.pick(&self.names)
        }
    }

    /// An offset for a caller to ask about: every other time an entry's.
    pub fn offset(&mut self) -> u32 {
        let entries = damage::Places::of(self.player.area()).entries;
        if !entries.is_empty() && self.rng.once_in(2) {
            return (self.rng.pick(&entries) - DATA) as u32;
        }
        damage::offset(&mut self.rng, self.player.area())
    }

    /// How many bytes of the backup slot: around its size, and around what a short area holds of it.
    pub fn wanted(&mut self) -> usize {
        let held = data_size(self.player.area()).saturating_sub(20);
        match self.rng.below(3) {
            0 => self.rng.pick(&[0, 1, 2, 50, 90, 91, 92, 93, 300]),
            1 => self.rng.below(96),
            _ => (held.min(92) + self.rng.below(4)).saturating_sub(1),
        }
    }
}
