//! The checker behind the calls: what is tested before and after the survey, and what is done to the lent buffers.

use crate::{dump_text, survey, DATA};
use calls::{Audit, Count};

/// The checker, with the greatest length of an area that is no 8.
pub struct Checker {
    pub longest: usize,
}

impl Checker {
    pub const DOCUMENT: Checker = Checker { longest: 131_072 };

    pub fn has_header(&self, area: &[u8]) -> bool {
        (DATA..=self.longest).contains(&area.len()) && area[8..12] == *b"PROP" && area[12..16] == 0xfc6e_d0ab_u32.to_le_bytes()
    }

    /// The list, or the refusal: 8, then 10 for the scratch, then 5.
    fn listed(&self, area: &[u8], scratch: &mut [u8]) -> Result<Vec<u32>, u32> {
        if !self.has_header(area) {
            return Err(8);
        }
        if scratch.len() < area.len() / 4 {
            return Err(10);
        }
        scratch.fill(0);
        survey(area).map_err(|_| 5)
    }
}

impl Audit for Checker {
    fn check(&self, area: &mut [u8], scratch: &mut [u8]) -> u32 {
        self.listed(area, scratch).err().unwrap_or(0)
    }

    fn list(&self, area: &mut [u8], scratch: &mut [u8], list: &mut [u32]) -> Count {
        let found = match self.listed(area, scratch) {
            Ok(found) if found.len() <= list.len() => found,
            Ok(_) => return Count { refusal: 10, count: 0 },
            Err(refusal) => return Count { refusal, count: 0 },
        };
        list[..found.len()].copy_from_slice(&found);
        Count { refusal: 0, count: found.len() as u32 }
    }

    fn dump(&self, area: &mut [u8], scratch: &mut [u8], list: &mut [u32], room: &mut [u8]) -> Count {
        let listed = self.list(area, scratch, list);
        if listed.refusal != 0 {
            return listed;
        }
        let text = dump_text(area, &list[..listed.count as usize]);
        if text.len() > room.len() {
            return Count { refusal: 10, count: 0 };
        }
        room[..text.len()].copy_from_slice(&text);
        Count { refusal: 0, count: text.len() as u32 }
    }
}
