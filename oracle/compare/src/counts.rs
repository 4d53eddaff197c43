//! How often each call was accepted, and refused with each number.

use crate::op::{Answer, Kind};
use calls::{PANICKED, UNMAPPED};
use std::fmt;

const COLUMNS: [u32; 12] = [0, 1, 2, 3, 4, 5, 6, 7, 8, 9, UNMAPPED, PANICKED];

#[derive(Clone, Default)]
pub struct Counts {
    table: [[u64; COLUMNS.len()]; Kind::ALL.len()],
    calls: u64,
    chosen: u64,
    most_compared: u64,
}

impl Counts {
    pub fn add(&mut self, kind: Kind, answer: &Answer) {
        let column = COLUMNS.iter().position(|&number| number == answer.refusal).unwrap_or(COLUMNS.len() - 2);
        self.table[kind as usize][column] += 1;
        self.calls += 1;
        self.chosen += u64::from(!kind.asked_along());
        if kind == Kind::Find {
            self.most_compared = self.most_compared.max(answer.size);
        }
    }

    /// All that were compared.
    pub fn calls(&self) -> u64 {
        self.calls
    }

    /// Those that cases chose. A run ends by their number, so that it plays the same cases whatever is asked along.
    pub fn chosen(&self) -> u64 {
        self.chosen
    }
}

impl fmt::Display for Counts {
    fn fmt(&self, f: &mut fmt::Formatter<'_>) -> fmt::Result {
        let shown: Vec<usize> = (0..COLUMNS.len()).filter(|&c| self.table.iter().any(|row| row[c] > 0)).collect();
        write!(f, "{:12}", "")?;
        for &column in &shown {
            match COLUMNS[column] {
                0 => write!(f, "{:>10}", "accepted")?,
                UNMAPPED => write!(f, "{:>10}", "unmapped")?,
                PANICKED => write!(f, "{:>10}", "panicked")?,
                number => write!(f, "{number:>10}")?,
            }
        }
        for (kind, name) in Kind::ALL {
            write!(f, "\n{name:12}")?;
            for &column in &shown {
                match self.table[kind as usize][column] {
                    0 => write!(f, "{:>10}", ".")?,
                    count => write!(f, "{count:>10}")?,
                }
            }
        }
        write!(f, "\nmost nodes compared by one find: {}", self.most_compared)
    }
}
