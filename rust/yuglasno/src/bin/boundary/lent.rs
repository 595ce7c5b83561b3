//! Slices to lend: between two guards, where a byte that is written outside shows; or alone in a block of just their
//! length, where valgrind sees a byte that is read outside too.
use crate::random::Random;

const GUARD: usize = 48;
const GUARD_BYTE: u8 = 0xC5;

#[derive(Clone)]
pub struct Lent {
    block: Box<[u8]>,
    guard: usize,
}

impl Lent {
    pub fn new(random: &mut Random, bytes: &[u8]) -> Self {
        let guard = random.of(&[0, GUARD]);
        let mut block = vec![GUARD_BYTE; bytes.len() + 2 * guard].into_boxed_slice();
        block[guard..guard + bytes.len()].copy_from_slice(bytes);
        Self { block, guard }
    }

    /// A slice of this length with random bytes.
    pub fn filled(random: &mut Random, length: usize) -> Self {
        let bytes = random.bytes(length);
        Self::new(random, &bytes)
    }

    pub fn bytes(&self) -> &[u8] {
        &self.block[self.guard..self.block.len() - self.guard]
    }

    pub fn lend(&mut self) -> &mut [u8] {
        let end = self.block.len() - self.guard;
        &mut self.block[self.guard..end]
    }

    pub fn guards_stand(&self) -> bool {
        let (front, rest) = self.block.split_at(self.guard);
        let back = &rest[rest.len() - self.guard..];
        front.iter().chain(back).all(|byte| *byte == GUARD_BYTE)
    }
}
