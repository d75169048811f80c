//! A small generator of random numbers (SplitMix64): the same seed gives the
//! same numbers, everywhere and always.

pub struct Rng(u64);

impl Rng {
    pub fn new(seed: u64) -> Rng {
        // one draw first, lest neighbouring seeds start alike
        let mut rng = Rng(seed);
        rng.0 = rng.draw() ^ seed.rotate_left(32);
        rng
    }

    pub fn draw(&mut self) -> u64 {
        self.0 = self.0.wrapping_add(0x9e37_79b9_7f4a_7c15);
        let mut mixed = self.0;
        mixed = (mixed ^ (mixed >> 30)).wrapping_mul(0xbf58_476d_1ce4_e5b9);
        mixed = (mixed ^ (mixed >> 27)).wrapping_mul(0x94d0_49bb_1331_11eb);
        mixed ^ (mixed >> 31)
    }

    /// 0 up to, not including, `count`.
    pub fn below(&mut self, count: u64) -> u64 {
        self.draw() % count
    }

    pub fn one_in(&mut self, count: u64) -> bool {
        self.below(count) == 0
    }

    /// `least` to `most`, evenly; `least` where the range is empty.
    pub fn between(&mut self, least: u64, most: u64) -> u64 {
        least + self.below(most.saturating_sub(least) + 1)
    }

    /// `least` to `most`, with the limits and small numbers often; `least`
    /// where the range is empty.
    pub fn field(&mut self, least: u64, most: u64) -> u64 {
        let most = most.max(least);
        match self.below(8) {
            0 => least,
            1 => most,
            2 => self.between(least, most.min(least + 3)),
            3 => self.between(most.saturating_sub(3).max(least), most),
            4 | 5 => {
                let bits = self.below(u64::from(64 - (most - least).leading_zeros()) + 1);
                self.between(least, most.min(least + (1 << bits)))
            }
            _ => self.between(least, most),
        }
    }

    pub fn pick<'a, T>(&mut self, list: &'a [T]) -> &'a T {
        &list[self.below(list.len() as u64) as usize]
    }
}
