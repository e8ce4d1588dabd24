//! A deterministic random generator (splitmix64) for tests.

#[derive(Debug, Clone)]
pub struct Random(u64);

impl Random {
    pub fn new(seed: u64) -> Self {
        Random(seed)
    }

    pub fn any(&mut self) -> u64 {
        self.0 = self.0.wrapping_add(0x9E37_79B9_7F4A_7C15);
        let mut mixed = self.0;
        mixed = (mixed ^ (mixed >> 30)).wrapping_mul(0xBF58_476D_1CE4_E5B9);
        mixed = (mixed ^ (mixed >> 27)).wrapping_mul(0x94D0_49BB_1331_11EB);
        mixed ^ (mixed >> 31)
    }

    /// A number from 0 to `limit` - 1. The slight bias of the remainder does
    /// not matter to tests.
    pub fn below(&mut self, limit: u64) -> u64 {
        self.any() % limit
    }

    /// An index into something of that length.
    pub fn index(&mut self, length: usize) -> usize {
        (self.any() % length as u64) as usize
    }

    /// True once in `times` on average.
    pub fn once_in(&mut self, times: u64) -> bool {
        self.below(times) == 0
    }

    /// One of the items, which may not be empty.
    pub fn pick<T: Copy>(&mut self, items: &[T]) -> T {
        items[self.index(items.len())]
    }

    /// A number of any magnitude, small ones as often as large ones.
    pub fn magnitude(&mut self) -> u64 {
        let shift = self.below(64);
        self.any() >> shift
    }
}

#[cfg(test)]
mod tests {
    use super::*;

    #[test]
    fn the_seed_decides_the_numbers() {
        // The first number that splitmix64 gives for seed 0.
        assert_eq!(Random::new(0).any(), 0xE220_A839_7B1D_CDAF);
        assert_ne!(Random::new(1).any(), Random::new(2).any());
    }

    #[test]
    fn below_reaches_its_whole_range() {
        let mut random = Random::new(3);
        let mut seen = [0; 5];
        for _ in 0..1000 {
            seen[random.below(5) as usize] += 1;
        }
        assert!(seen.iter().all(|&times| times > 100));
    }
}
