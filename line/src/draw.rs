//! Splitmix64, so that a seed gives the n-th datagram of a link the same fate everywhere.

pub struct Draw(u64);

impl Draw {
    pub fn new(seed: u64) -> Self {
        Self(seed)
    }

    pub fn number(&mut self) -> u64 {
        self.0 = self.0.wrapping_add(0x9E37_79B9_7F4A_7C15);
        let mixed = (self.0 ^ (self.0 >> 30)).wrapping_mul(0xBF58_476D_1CE4_E5B9);
        let mixed = (mixed ^ (mixed >> 27)).wrapping_mul(0x94D0_49BB_1331_11EB);
        mixed ^ (mixed >> 31)
    }

    /// One of the numbers below `bound`, which is not 0.
    pub fn below(&mut self, bound: u64) -> u64 {
        self.number() % bound
    }

    /// Whether something that happens in so many of a hundred cases happens now.
    pub fn happens(&mut self, percent: u8) -> bool {
        self.below(100) < u64::from(percent)
    }
}

#[cfg(test)]
mod tests {
    use super::Draw;

    #[test]
    fn percents_are_kept() {
        let mut draw = Draw::new(7);
        let mut count = |percent| (0..10_000).filter(|_| draw.happens(percent)).count();
        assert_eq!(count(0), 0);
        assert_eq!(count(100), 10_000);
        let tenth = count(10);
        assert!((900..1_100).contains(&tenth), "{tenth} of 10,000");
    }
}
