//! Memory to be lent: bytes inside a larger memory, at any alignment, with guard bytes of random
//! content on both sides.

use crate::rng::Rng;

const GUARD: usize = 64;

pub struct Memory {
    bytes: Vec<u8>,
    /// The bytes as they were first.
    before: Vec<u8>,
    start: usize,
    end: usize,
}

impl Memory {
    pub fn new(content: &[u8], rng: &mut Rng) -> Memory {
        let start = GUARD + rng.index(8);
        let bytes = [&rng.bytes(start), content, &rng.bytes(GUARD)].concat();
        Memory {
            before: bytes.clone(),
            bytes,
            start,
            end: start + content.len(),
        }
    }

    /// The content, for a call.
    pub fn lend(&mut self) -> (*mut u8, usize) {
        let content = &mut self.bytes[self.start..self.end];
        (content.as_mut_ptr(), content.len())
    }

    pub fn content(&self) -> &[u8] {
        &self.bytes[self.start..self.end]
    }

    /// Content and guards are as they were first.
    pub fn is_unchanged(&self) -> bool {
        self.bytes == self.before
    }

    pub fn guards_unchanged(&self) -> bool {
        self.bytes[..self.start] == self.before[..self.start]
            && self.bytes[self.end..] == self.before[self.end..]
    }
}
