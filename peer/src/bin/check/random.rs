//! Random numbers that depend on the seed and the day's number alone (splitmix64).

pub struct Random {
    state: u64,
}

impl Random {
    pub fn for_day(seed: u64, number: u64) -> Self {
        let mut random = Random { state: seed };
        random.state = random.next() ^ number.wrapping_mul(0xd1b5_4a32_d192_ed03);
        random
    }

    pub fn next(&mut self) -> u64 {
        self.state = self.state.wrapping_add(0x9e37_79b9_7f4a_7c15);
        let mixed = (self.state ^ (self.state >> 30)).wrapping_mul(0xbf58_476d_1ce4_e5b9);
        let mixed = (mixed ^ (mixed >> 27)).wrapping_mul(0x94d0_49bb_1331_11eb);
        mixed ^ (mixed >> 31)
    }

    /// A number below the limit, which is not 0.
    pub fn below(&mut self, limit: u64) -> u64 {
        ((u128::from(self.next()) * u128::from(limit)) >> 64) as u64
    }

    pub fn index(&mut self, length: usize) -> usize {
        self.below(length as u64) as usize
    }

    /// A number from the first to the last, both included.
    pub fn between(&mut self, first: u64, last: u64) -> u64 {
        first + self.below(last - first + 1)
    }

    pub fn one_in(&mut self, limit: u64) -> bool {
        self.below(limit) == 0
    }

    /// True this many times in a hundred.
    pub fn percent(&mut self, share: u64) -> bool {
        self.below(100) < share
    }

    pub fn pick<T: Copy>(&mut self, from: &[T]) -> T {
        from[self.index(from.len())]
    }

    /// A place in the list, each as often as its weight says.
    pub fn weighted(&mut self, weights: &[u64]) -> usize {
        let mut left = self.below(weights.iter().sum());
        weights
            .iter()
            .position(|&weight| {
                let is_here = left < weight;
                left = left.wrapping_sub(weight);
                is_here
            })
            .expect("some weight is not 0")
    }

    /// A number of any size from 1 to the last, small ones as often as great ones.
    pub fn of_any_size(&mut self, last: u64) -> u64 {
        let bits = self.below(64 - u64::from(last.leading_zeros())) as u32 + 1;
        let most = if bits == 64 { u64::MAX } else { (1 << bits) - 1 };
        self.between(1, most.min(last))
    }
}

#[cfg(test)]
mod tests {
    use super::*;

    #[test]
    fn numbers_depend_on_seed_and_day_alone() {
        let first = |seed, number| Random::for_day(seed, number).next();
        assert_eq!(first(1, 2), first(1, 2));
        assert_ne!(first(1, 2), first(1, 3));
        assert_ne!(first(1, 2), first(2, 2));
    }

    #[test]
    fn numbers_keep_to_their_limits() {
        let mut random = Random::for_day(1, 1);
        for _ in 0..10_000 {
            assert!(random.below(3) < 3);
            assert!((5..=6).contains(&random.between(5, 6)));
            assert!((1..=1000).contains(&random.of_any_size(1000)));
            assert!((1..=u64::MAX).contains(&random.of_any_size(u64::MAX)));
            assert_eq!(random.weighted(&[0, 3, 0]), 1);
        }
    }
}
