//! A buffer of which the first bytes are lent as an area.

/// Bytes after the area that are compared too: a call that writes past its area is noticed.
const GUARD: usize = 64;

/// The buffer holds zeros at first. `set_len` says how many of its bytes are the area, whatever they hold.
pub struct Area {
    bytes: Vec<u8>,
    start: usize,
    len: usize,
    longest: usize,
}

impl Area {
    /// The area starts `shift` bytes after a multiple of 8: the original needs 0, the other side must not mind.
    pub fn new(capacity: usize, shift: usize) -> Self {
        let bytes = vec![0; capacity + GUARD + 16];
        let start = (bytes.as_ptr() as usize).wrapping_neg() % 8 + shift;
        Area { bytes, start, len: 0, longest: 0 }
    }

    /// As new.
    pub fn clear(&mut self) {
        self.bytes[self.start..self.start + self.longest + GUARD].fill(0);
        (self.len, self.longest) = (0, 0);
    }

    pub fn set_len(&mut self, len: usize) {
        self.len = len;
        self.longest = self.longest.max(len);
    }

    pub fn bytes(&self) -> &[u8] {
        &self.bytes[self.start..self.start + self.len]
    }

    pub fn bytes_mut(&mut self) -> &mut [u8] {
        &mut self.bytes[self.start..self.start + self.len]
    }

    /// The area and the guard.
    pub fn guarded(&self) -> &[u8] {
        &self.bytes[self.start..self.start + self.len + GUARD]
    }

    pub fn word(&self, at: usize) -> Option<u32> {
        let four = self.bytes().get(at..at.checked_add(4)?)?;
        Some(u32::from_le_bytes(four.try_into().ok()?))
    }

    /// Stores a word, if it lies within the area.
    pub fn poke(&mut self, at: usize, word: u32) {
        if self.word(at).is_some() {
            self.bytes_mut()[at..at + 4].copy_from_slice(&word.to_le_bytes());
        }
    }
}
