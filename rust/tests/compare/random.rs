//! Random patterns, records and damage, the same for the same seed.
use crate::rules::body::{Entry, LETTER, THEN, WITHIN};

/// Bytes that damage a body without making it noise.
pub const SMALL: &[u8] = &[0, 0, 1, 2, 3, 4, 5, 6, 31, 32];

pub struct Random(u64);

impl Random {
    pub fn new(seed: u64) -> Self {
        Random(seed)
    }

    pub fn word(&mut self) -> u64 {
        self.0 = self.0.wrapping_add(0x9e37_79b9_7f4a_7c15);
        let mixed = (self.0 ^ self.0 >> 30).wrapping_mul(0xbf58_476d_1ce4_e5b9);
        let mixed = (mixed ^ mixed >> 27).wrapping_mul(0x94d0_49bb_1331_11eb);
        mixed ^ mixed >> 31
    }

    pub fn below(&mut self, limit: usize) -> usize {
        (self.word() % limit as u64) as usize
    }

    pub fn one_in(&mut self, times: usize) -> bool {
        self.below(times) == 0
    }

    pub fn pick<T: Copy>(&mut self, from: &[T]) -> T {
        from[self.below(from.len())]
    }

    /// A number that is small, great, or at the edge of 32 or 64 bits.
    pub fn edge(&mut self) -> u64 {
        let near = self.below(4) as u64;
        match self.below(5) {
            0 => near,
            1 => (u32::MAX as u64) - 2 + near,
            2 => u64::MAX - near,
            3 => self.word() >> 32,
            _ => self.word() >> self.below(64),
        }
    }

    /// The entries of a pattern with as many entries, over the first few letters.
    pub fn pattern(&mut self, entries: usize, letters: usize) -> Vec<Entry> {
        let mut body = Vec::new();
        self.grow(entries, letters, &mut body);
        body
    }

    fn grow(&mut self, entries: usize, letters: usize, body: &mut Vec<Entry>) {
        if entries == 1 {
            body.push(Entry { op: LETTER, argument: self.below(letters) as u32 });
        } else if entries == 2 || self.one_in(6) {
            self.grow(entries - 1, letters, body);
            body.push(Entry { op: WITHIN, argument: self.limit() });
        } else {
            let left = 1 + self.below(entries - 2);
            self.grow(left, letters, body);
            self.grow(entries - 1 - left, letters, body);
            body.push(Entry { op: 1 + self.below(THEN.into()) as u8, argument: 0 });
        }
    }

    fn limit(&mut self) -> u32 {
        match self.below(8) {
            0 => self.edge() as u32,
            _ => self.below(20) as u32,
        }
    }

    /// A word of events, most of them among the first few letters.
    pub fn events(&mut self, letters: usize) -> u32 {
        let some = 1 << self.below(letters);
        match self.below(8) {
            0 => 0,
            1 => self.word() as u32,
            2 => some | 1 << self.below(letters),
            _ => some,
        }
    }

    /// The tick after the last, mostly soon.
    pub fn later(&mut self, next: u64) -> u64 {
        match self.below(40) {
            0 => next.saturating_add(self.word() >> 36),
            1..=5 => next.saturating_add(self.below(9) as u64),
            _ => next,
        }
    }

    /// Cuts, changes, adds or takes away bytes.
    pub fn damage(&mut self, bytes: &mut Vec<u8>, likely: &[u8]) {
        for _ in 0..=self.below(2) {
            let at = self.below(bytes.len() + 1);
            let byte = if self.one_in(4) { self.word() as u8 } else { self.pick(likely) };
            match self.below(5) {
                0 => bytes.truncate(at),
                1 => bytes.insert(at, byte),
                2 if at < bytes.len() => drop(bytes.remove(at)),
                _ if at < bytes.len() => bytes[at] = byte,
                _ => bytes.push(byte),
            }
        }
    }

    /// A length to lend: enough, just enough, or too short.
    pub fn room(&mut self, needed: usize) -> usize {
        match self.below(6) {
            0 => needed.saturating_sub(1),
            1 => self.below(needed + 1),
            2 => needed,
            _ => needed + self.below(12),
        }
    }
}
