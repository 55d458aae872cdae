//! A small generator: the same numbers for the same seed.

pub struct Seed(u64);

impl Seed {
    pub fn new(seed: u64) -> Self {
        Self(seed)
    }

    /// Splitmix over 64 bits.
    pub fn word(&mut self) -> u64 {
        self.0 = self.0.wrapping_add(0x9e37_79b9_7f4a_7c15);
        let mut word = self.0;
        word = (word ^ (word >> 30)).wrapping_mul(0xbf58_476d_1ce4_e5b9);
        word = (word ^ (word >> 27)).wrapping_mul(0x94d0_49bb_1331_11eb);
        word ^ (word >> 31)
    }

    /// A number under a bound that is not 0.
    pub fn under(&mut self, bound: usize) -> usize {
        (self.word() % bound as u64) as usize
    }

    pub fn one_in(&mut self, bound: usize) -> bool {
        self.under(bound) == 0
    }

    pub fn of<T: Copy>(&mut self, all: &[T]) -> T {
        all[self.under(all.len())]
    }

    /// A value of the field, small or at its end as often as not.
    pub fn value(&mut self) -> u64 {
        match self.under(6) {
            0 => self.word() % 256,
            1 => model::FIELD - 1 - self.word() % 3,
            2 => 0,
            _ => self.word() % model::FIELD,
        }
    }
}
