//! Splitmix64, so that a seed gives the same cases everywhere.

pub struct Rng(u64);

impl Rng {
    pub fn new(seed: u64) -> Self {
        Self(seed)
    }

    pub fn next(&mut self) -> u64 {
        self.0 = self.0.wrapping_add(0x9E37_79B9_7F4A_7C15);
        let mixed = (self.0 ^ (self.0 >> 30)).wrapping_mul(0xBF58_476D_1CE4_E5B9);
        let mixed = (mixed ^ (mixed >> 27)).wrapping_mul(0x94D0_49BB_1331_11EB);
        mixed ^ (mixed >> 31)
    }

    /// One of the numbers below `bound`, which is not 0.
    pub fn below(&mut self, bound: usize) -> usize {
        (self.next() % bound as u64) as usize
    }

    pub fn one_in(&mut self, n: usize) -> bool {
        self.below(n) == 0
    }

    /// Below `usual`, but once in `n` times below `rare`.
    pub fn mostly_below(&mut self, usual: usize, n: usize, rare: usize) -> usize {
        let bound = if self.one_in(n) { rare } else { usual };
        self.below(bound)
    }

    pub fn pick<T: Copy>(&mut self, from: &[T]) -> T {
        from[self.below(from.len())]
    }

    pub fn fill(&mut self, bytes: &mut [u8]) {
        for chunk in bytes.chunks_mut(8) {
            let drawn = self.next().to_le_bytes();
            chunk.copy_from_slice(&drawn[..chunk.len()]);
        }
    }

    pub fn bytes(&mut self, len: usize) -> Vec<u8> {
        let mut bytes = vec![0; len];
        self.fill(&mut bytes);
        bytes
    }

    pub fn array<const N: usize>(&mut self) -> [u8; N] {
        let mut bytes = [0; N];
        self.fill(&mut bytes);
        bytes
    }

    /// A number of any count of bits, so that short ones are as likely as long ones.
    pub fn number(&mut self) -> u64 {
        match self.below(65) {
            0 => 0,
            bits => self.next() >> (64 - bits),
        }
    }

    /// Close to `centre`, and short of overflow.
    pub fn near(&mut self, centre: u64, reach: usize) -> u64 {
        let away = self.below(reach + 1) as u64;
        if self.one_in(2) {
            centre.saturating_add(away)
        } else {
            centre.saturating_sub(away)
        }
    }

    /// Close to where a number gets one byte more.
    pub fn near_byte(&mut self, reach: usize) -> u64 {
        let bytes = 1 + self.below(7);
        self.near(1 << (8 * bytes), reach)
    }
}
