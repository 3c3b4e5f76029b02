//! Numbers that look random and are the same for the same seed everywhere.

pub struct Chance(u64);

impl Chance {
    /// One stream for each seed and index, so that any single trial of a long
    /// series can be made again without the ones before it.
    pub fn new(seed: u64, index: u64) -> Chance {
        let mut start = Chance(seed);
        let mixed = start.next_word() ^ index.wrapping_mul(0xd6e8_feb8_6659_fd93);
        Chance(mixed)
    }

    /// The step known as splitmix64.
    pub fn next_word(&mut self) -> u64 {
        self.0 = self.0.wrapping_add(0x9e37_79b9_7f4a_7c15);
        let mut mixed = self.0;
        mixed = (mixed ^ (mixed >> 30)).wrapping_mul(0xbf58_476d_1ce4_e5b9);
        mixed = (mixed ^ (mixed >> 27)).wrapping_mul(0x94d0_49bb_1331_11eb);
        mixed ^ (mixed >> 31)
    }

    /// A number from 0 up to, not with, the limit.
    pub fn below(&mut self, limit: usize) -> usize {
        (self.next_word() % limit as u64) as usize
    }

    /// A number from the first to the last of the two, both included.
    pub fn between(&mut self, first: usize, last: usize) -> usize {
        first + self.below(last - first + 1)
    }

    pub fn one_in(&mut self, times: usize) -> bool {
        self.below(times) == 0
    }

    pub fn pick<T: Copy>(&mut self, choices: &[T]) -> T {
        choices[self.below(choices.len())]
    }
}
