//! Pseudo-random numbers: equal seeds give equal numbers.

/// The splitmix64 generator.
pub struct Random(pub u64);

impl Random {
    pub fn next(&mut self) -> u64 {
        self.0 = self.0.wrapping_add(0x9E37_79B9_7F4A_7C15);
        let mut mixed = self.0;
        mixed = (mixed ^ (mixed >> 30)).wrapping_mul(0xBF58_476D_1CE4_E5B9);
        mixed = (mixed ^ (mixed >> 27)).wrapping_mul(0x94D0_49BB_1331_11EB);
        mixed ^ (mixed >> 31)
    }

    pub fn below(&mut self, limit: usize) -> usize {
        (self.next() % limit as u64) as usize
    }

    pub fn byte(&mut self) -> u8 {
        self.next() as u8
    }

    pub fn within(&mut self, low: i64, high: i64) -> i64 {
        low + self.below((high - low + 1) as usize) as i64
    }

    /// From low to high, half of the time at an end or one away from it.
    pub fn near_an_end(&mut self, low: i64, high: i64) -> i64 {
        let drawn = match self.below(8) {
            0 => low,
            1 => low + 1,
            2 => high - 1,
            3 => high,
            _ => self.within(low, high),
        };
        drawn.clamp(low, high)
    }

    pub fn at_an_end(&mut self, low: i64, high: i64) -> i64 {
        [low, high][self.below(2)]
    }
}
