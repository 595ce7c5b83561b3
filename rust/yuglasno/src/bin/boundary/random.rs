//! Random numbers that a seed repeats (splitmix64).

pub struct Random(pub u64);

impl Random {
    pub fn next(&mut self) -> u64 {
        self.0 = self.0.wrapping_add(0x9E37_79B9_7F4A_7C15);
        let z = (self.0 ^ (self.0 >> 30)).wrapping_mul(0xBF58_476D_1CE4_E5B9);
        let z = (z ^ (z >> 27)).wrapping_mul(0x94D0_49BB_1331_11EB);
        z ^ (z >> 31)
    }

    /// From 0 to `n - 1`.
    pub fn below(&mut self, n: usize) -> usize {
        (self.next() % n.max(1) as u64) as usize
    }

    /// True once in `n` times.
    pub fn one_in(&mut self, n: usize) -> bool {
        self.below(n) == 0
    }

    pub fn of<T: Copy>(&mut self, choices: &[T]) -> T {
        choices[self.below(choices.len())]
    }

    pub fn bytes(&mut self, length: usize) -> Vec<u8> {
        (0..length).map(|_| self.next() as u8).collect()
    }

    /// A number of any size, often one where something changes; `near` is one such place.
    pub fn number(&mut self, near: u64) -> u64 {
        match self.below(4) {
            0 => self.of(&[0, 1, 2, 7, 8, 255, 256, 1_024, 65_535, 65_536, 65_537, 1 << 31, u64::from(u32::MAX)]),
            1 => self.of(&[1 << 32, i64::MAX as u64, 1 << 63, u64::MAX - 1, u64::MAX]),
            2 => near.wrapping_add(self.of(&[u64::MAX, 0, 1])),
            _ => self.next() >> self.below(64),
        }
    }
}
