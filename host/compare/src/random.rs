//! Random numbers that are the same on every machine, so that a failing case can be had again by its seed.

/// SplitMix64.
pub struct Random(u64);

impl Random {
    /// The numbers of a seed.
    ///
    /// ```
    /// use compare::random::Random;
    /// assert_eq!(Random::new(1).below(1000), Random::new(1).below(1000));
    /// ```
    pub fn new(seed: u64) -> Random {
        Random(seed)
    }

    pub fn word(&mut self) -> u64 {
        self.0 = self.0.wrapping_add(0x9e37_79b9_7f4a_7c15);
        let mut z = self.0;
        z = (z ^ (z >> 30)).wrapping_mul(0xbf58_476d_1ce4_e5b9);
        z = (z ^ (z >> 27)).wrapping_mul(0x94d0_49bb_1331_11eb);
        z ^ (z >> 31)
    }

    /// 0 to n - 1.
    pub fn below(&mut self, n: u64) -> u64 {
        self.word() % n
    }

    /// From least to most, both possible.
    pub fn from(&mut self, least: u32, most: u32) -> u32 {
        least + self.below(u64::from(most - least) + 1) as u32
    }

    /// As `from`, with one in four at an end or next to it.
    pub fn edged(&mut self, least: u32, most: u32) -> u32 {
        match self.below(16) {
            0 => least,
            1 => most,
            2 => (least + 1).min(most),
            3 => most.saturating_sub(1).max(least),
            _ => self.from(least, most),
        }
    }

    /// True once in n.
    pub fn once_in(&mut self, n: u64) -> bool {
        self.below(n) == 0
    }

    pub fn one_of<T: Copy>(&mut self, all: &[T]) -> T {
        all[self.below(all.len() as u64) as usize]
    }

    pub fn bytes(&mut self, length: usize) -> Vec<u8> {
        (0..length).map(|_| self.word() as u8).collect()
    }
}
