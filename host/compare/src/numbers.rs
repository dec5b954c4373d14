//! Pseudo-random numbers, the same in every run (SplitMix64).

pub const SEED: u64 = 0xce11_9815_005e_ed01;

pub struct Numbers(u64);

impl Numbers {
    /// A sequence of its own for each test, so that a test's numbers do not depend on the others.
    pub fn for_test(number: u64) -> Numbers {
        Numbers(SEED ^ number << 56)
    }

    /// A sequence of its own for each part of a test, whichever thread it runs on.
    pub fn for_part(test: u64, part: u64) -> Numbers {
        Numbers(Numbers(SEED ^ test << 56 ^ part).next())
    }

    pub fn next(&mut self) -> u64 {
        self.0 = self.0.wrapping_add(0x9e37_79b9_7f4a_7c15);
        let mut z = self.0;
        z = (z ^ z >> 30).wrapping_mul(0xbf58_476d_1ce4_e5b9);
        z = (z ^ z >> 27).wrapping_mul(0x94d0_49bb_1331_11eb);
        z ^ z >> 31
    }

    /// A number below `bound`, near enough to evenly spread.
    pub fn below(&mut self, bound: u64) -> u64 {
        self.next() % bound
    }

    /// So many words of any sort.
    pub fn words(&mut self, words: usize) -> Vec<u64> {
        (0..words).map(|_| self.next()).collect()
    }

    /// An element with about half of its bits set.
    pub fn dense(&mut self) -> u128 {
        u128::from(self.next()) << 64 | u128::from(self.next())
    }

    /// An element with a few bits set.
    pub fn sparse(&mut self) -> u128 {
        let bits = 1 + self.below(5);
        (0..bits).fold(0, |element, _| element | self.power())
    }

    /// An element 2^k.
    pub fn power(&mut self) -> u128 {
        1 << self.below(128)
    }

    /// An element 0 or 1.
    pub fn bit(&mut self) -> u128 {
        u128::from(self.below(2))
    }
}
