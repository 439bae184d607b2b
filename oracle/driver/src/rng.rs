//! A small generator of random numbers (splitmix64), the same on every machine.

pub struct Rng(u64);

impl Rng {
    /// Numbers for one history. Histories of one seed are independent of each
    /// other, so that each can be made alone.
    pub fn new(seed: u64, history: u64) -> Self {
        let mut rng = Rng(seed);
        let mixed = rng.next() ^ history.wrapping_mul(0x9e37_79b9_7f4a_7c15);
        Rng(mixed)
    }

    fn next(&mut self) -> u64 {
        self.0 = self.0.wrapping_add(0x9e37_79b9_7f4a_7c15);
        let mut z = self.0;
        z = (z ^ (z >> 30)).wrapping_mul(0xbf58_476d_1ce4_e5b9);
        z = (z ^ (z >> 27)).wrapping_mul(0x94d0_49bb_1331_11eb);
        z ^ (z >> 31)
    }

    /// A number below `bound`, which is not zero.
    pub fn below(&mut self, bound: usize) -> usize {
        (self.next() % bound as u64) as usize
    }

    /// A number from `least` to `most`.
    pub fn between(&mut self, least: usize, most: usize) -> usize {
        least + self.below(most - least + 1)
    }

    /// Whether a chance of so many in a hundred came up.
    pub fn percent(&mut self, chance: usize) -> bool {
        self.below(100) < chance
    }

    pub fn pick<T: Copy>(&mut self, from: &[T]) -> T {
        from[self.below(from.len())]
    }
}
