//! A small generator of numbers from a seed (splitmix64).

#[derive(Clone, Debug)]
pub struct Rng {
    state: u64,
}

impl Rng {
    pub fn new(seed: u64) -> Rng {
        Rng { state: seed }
    }

    /// The generator of one journal: from the run's seed, the family's name
    /// and the journal's index in its family.
    pub fn for_journal(seed: u64, family: &str, index: u64) -> Rng {
        let mut rng = Rng::new(seed);
        for byte in family.bytes() {
            rng = Rng::new(rng.word() ^ u64::from(byte));
        }
        Rng::new(rng.word() ^ index.wrapping_mul(0x9e37_79b9_7f4a_7c15))
    }

    pub fn word(&mut self) -> u64 {
        self.state = self.state.wrapping_add(0x9e37_79b9_7f4a_7c15);
        let mut z = self.state;
        z = (z ^ (z >> 30)).wrapping_mul(0xbf58_476d_1ce4_e5b9);
        z = (z ^ (z >> 27)).wrapping_mul(0x94d0_49bb_1331_11eb);
        z ^ (z >> 31)
    }

    /// A number below `limit`, which is not 0.
    pub fn below(&mut self, limit: u64) -> u64 {
        ((u128::from(self.word()) * u128::from(limit)) >> 64) as u64
    }

    /// A number from `low` to `high`, both included.
    pub fn within(&mut self, low: u64, high: u64) -> u64 {
        match (high - low).checked_add(1) {
            Some(width) => low + self.below(width),
            None => self.word(),
        }
    }

    pub fn index(&mut self, length: usize) -> usize {
        self.below(length as u64) as usize
    }

    /// True `part` times out of `whole`.
    pub fn chance(&mut self, part: u64, whole: u64) -> bool {
        self.below(whole) < part
    }

    pub fn pick<T: Copy>(&mut self, choices: &[T]) -> T {
        choices[self.index(choices.len())]
    }

    pub fn byte(&mut self) -> u8 {
        self.word() as u8
    }

    /// A number from 1 to `limit`, of any magnitude.
    pub fn magnitude(&mut self, limit: u64) -> u64 {
        let bits = 64 - limit.leading_zeros();
        let length = self.within(1, u64::from(bits));
        let number = self.word() >> (64 - length);
        number.clamp(1, limit)
    }

    pub fn bytes(&mut self, length: usize) -> Vec<u8> {
        (0..length).map(|_| self.byte()).collect()
    }

    pub fn shuffle<T>(&mut self, items: &mut [T]) {
        for last in (1..items.len()).rev() {
            items.swap(last, self.index(last + 1));
        }
    }
}

#[cfg(test)]
mod tests {
    use super::Rng;

    #[test]
    fn stays_within_its_limits() {
        let mut rng = Rng::new(1);
        for _ in 0..1000 {
            assert!(rng.below(7) < 7);
            assert!((3..=5).contains(&rng.within(3, 5)));
            assert!((1..=100).contains(&rng.magnitude(100)));
            assert_eq!(rng.magnitude(1), 1);
        }
        rng.within(0, u64::MAX);
        rng.magnitude(u64::MAX);
    }

    #[test]
    fn same_seed_same_numbers() {
        let first = Rng::for_journal(5, "honest", 3).word();
        assert_eq!(first, Rng::for_journal(5, "honest", 3).word());
        assert_ne!(first, Rng::for_journal(5, "honest", 4).word());
        assert_ne!(first, Rng::for_journal(6, "honest", 3).word());
        assert_ne!(first, Rng::for_journal(5, "faults", 3).word());
    }
}
