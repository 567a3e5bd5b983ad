//! Random numbers from a fixed seed (splitmix64).

#[derive(Clone, Debug)]
pub struct Random {
    state: u64,
}

impl Random {
    pub fn new(seed: u64) -> Random {
        Random { state: seed }
    }

    /// For a seed of one of 64 sorts of inputs, so that the same seed of two sorts draws differently.
    pub fn of(seed: u64, sort: u64) -> Random {
        Random::new(seed.wrapping_mul(64).wrapping_add(sort))
    }

    /// Any 64 bits.
    pub fn any(&mut self) -> u64 {
        self.state = self.state.wrapping_add(0x9E37_79B9_7F4A_7C15);
        let mut mixed = self.state;
        mixed = (mixed ^ (mixed >> 30)).wrapping_mul(0xBF58_476D_1CE4_E5B9);
        mixed = (mixed ^ (mixed >> 27)).wrapping_mul(0x94D0_49BB_1331_11EB);
        mixed ^ (mixed >> 31)
    }

    /// From 0 to bound − 1.
    pub fn below(&mut self, bound: u64) -> u64 {
        self.any() % bound
    }

    /// From first to last, both included.
    pub fn between(&mut self, first: u64, last: u64) -> u64 {
        first + self.below(last - first + 1)
    }

    /// True in so many of so many cases.
    pub fn chance(&mut self, part: u64, whole: u64) -> bool {
        self.below(whole) < part
    }

    pub fn pick<T: Copy>(&mut self, from: &[T]) -> T {
        from[self.below(from.len() as u64) as usize]
    }

    /// A bound, one below it or one above it.
    pub fn near(&mut self, bound: u64) -> u64 {
        self.pick(&[bound.saturating_sub(1), bound, bound.saturating_add(1)])
    }

    pub fn bytes(&mut self, count: usize) -> Vec<u8> {
        (0..count).map(|_| self.any() as u8).collect()
    }
}
