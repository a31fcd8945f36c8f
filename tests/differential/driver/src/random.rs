//! A small generator of random numbers (splitmix64), so that a seed gives the same cases everywhere.

pub struct Random(u64);

impl Random {
    pub fn new(seed: u64) -> Random {
        Random(seed)
    }

    pub fn next(&mut self) -> u64 {
        self.0 = self.0.wrapping_add(0x9E37_79B9_7F4A_7C15);
        let mixed = (self.0 ^ (self.0 >> 30)).wrapping_mul(0xBF58_476D_1CE4_E5B9);
        let mixed = (mixed ^ (mixed >> 27)).wrapping_mul(0x94D0_49BB_1331_11EB);
        mixed ^ (mixed >> 31)
    }

    /// a number below `end`
    pub fn below(&mut self, end: u64) -> u64 {
        self.next() % end
    }

    /// true once in `times`
    pub fn once_in(&mut self, times: u64) -> bool {
        self.below(times) == 0
    }

    /// a number of up to so many digits, of each length as often as of the next
    pub fn of_length(&mut self, most: u32) -> u64 {
        let length = self.below(u64::from(most)) as u32 + 1;
        self.below(10u64.pow(length))
    }

    pub fn of<T: Clone>(&mut self, all: &[T]) -> T {
        all[self.below(all.len() as u64) as usize].clone()
    }
}
