//! How many areas of each kind were sound and how many not, why not, and how each call was answered.

use crate::cases::OTHER_KINDS;
use crate::faults::FAULTS;
use crate::hold::{Call, What};
use crate::stores::STORES;
use checker::Fault;
use std::collections::HashMap;
use std::fmt;

/// What a call can be answered with.
const NUMBERS: [u32; 4] = [0, 5, 8, 10];

#[derive(Default)]
pub struct Tally {
    pub areas: u64,
    /// Check, list, dump.
    calls: [[u64; NUMBERS.len()]; 3],
    kinds: HashMap<&'static str, [u64; NUMBERS.len()]>,
    faults: [u64; Fault::ALL.len()],
    most_entries: u32,
    longest_dump: u32,
}

fn column(refusal: u32) -> usize {
    NUMBERS.iter().position(|&number| number == refusal).unwrap_or(0)
}

impl Tally {
    /// An area of a kind, with what a check answers that has scratch enough, and why.
    pub fn area(&mut self, kind: &'static str, refusal: u32, fault: Option<Fault>) {
        self.areas += 1;
        self.kinds.entry(kind).or_default()[column(refusal)] += 1;
        if let Some(at) = fault.and_then(|fault| Fault::ALL.iter().position(|&known| known == fault)) {
            self.faults[at] += 1;
        }
    }

    pub fn call(&mut self, call: Call, refusal: u32, count: u32) {
        let row = match call.what {
            What::Check => 0,
            What::List { .. } => {
                self.most_entries = self.most_entries.max(count);
                1
            }
            What::Dump { .. } => {
                self.longest_dump = self.longest_dump.max(count);
                2
            }
        };
        self.calls[row][column(refusal)] += 1;
    }
}

fn number(f: &mut fmt::Formatter<'_>, count: u64) -> fmt::Result {
    match count {
        0 => write!(f, "{:>10}", "."),
        _ => write!(f, "{count:>10}"),
    }
}

fn row(f: &mut fmt::Formatter<'_>, name: &str, counts: &[u64]) -> fmt::Result {
    write!(f, "{name:42}")?;
    counts.iter().try_for_each(|&count| number(f, count))?;
    writeln!(f)
}

impl Tally {
    fn kinds<'a>(&self, f: &mut fmt::Formatter<'_>, names: impl Iterator<Item = &'a str>) -> fmt::Result {
        for name in names {
            let [sound, damage, header, _] = self.kinds.get(name).copied().unwrap_or_default();
            row(f, &format!("  {name}"), &[sound + damage + header, sound, damage, header])?;
        }
        Ok(())
    }
}

impl fmt::Display for Tally {
    fn fmt(&self, f: &mut fmt::Formatter<'_>) -> fmt::Result {
        writeln!(f, "{:42}{:>10}{:>10}{:>10}{:>10}", "areas", "all", "sound", "5", "8")?;
        self.kinds(f, OTHER_KINDS.into_iter())?;
        writeln!(f, "built or by hand, then one store")?;
        self.kinds(f, STORES.iter().map(|(name, _)| *name))?;
        writeln!(f, "by hand, with one fault")?;
        self.kinds(f, FAULTS.iter().map(|(name, _)| *name))?;
        let sum = |column: usize| self.kinds.values().map(|counts| counts[column]).sum::<u64>();
        row(f, "all", &[self.areas, sum(0), sum(1), sum(2)])?;
        writeln!(f, "\nwhy unsound, as the checker meets it first")?;
        for (fault, count) in Fault::ALL.iter().zip(self.faults) {
            row(f, &format!("  {fault:?}"), &[count])?;
        }
        writeln!(f, "\n{:42}{:>10}{:>10}{:>10}{:>10}", "calls", "accepted", "5", "8", "10")?;
        for (name, counts) in ["  check", "  list", "  dump"].iter().zip(&self.calls) {
            row(f, name, counts)?;
        }
        write!(f, "most entries of one area: {}, longest dump: {} bytes", self.most_entries, self.longest_dump)
    }
}
