//! A small deterministic generator of random numbers (splitmix64), so that a seed names the same cases everywhere.

pub struct Random {
    state: u64,
}

impl Random {
    pub fn new(seed: u64) -> Random {
        Random { state: seed }
    }

    /// 64 random bits.
    pub fn bits(&mut self) -> u64 {
        self.state = self.state.wrapping_add(0x9e37_79b9_7f4a_7c15);
        let mut mixed = self.state;
        mixed = (mixed ^ (mixed >> 30)).wrapping_mul(0xbf58_476d_1ce4_e5b9);
        mixed = (mixed ^ (mixed >> 27)).wrapping_mul(0x94d0_49bb_1331_11eb);
        mixed ^ (mixed >> 31)
    }

    /// A number below a limit that is not 0.
    pub fn below(&mut self, limit: u32) -> u32 {
        (((self.bits() >> 32) * u64::from(limit)) >> 32) as u32
    }

    /// An index into something of a length that is not 0.
    pub fn index(&mut self, length: usize) -> usize {
        self.below(length as u32) as usize
    }

    /// A number from a range, both ends included.
    pub fn between(&mut self, least: u32, most: u32) -> u32 {
        least + self.below(most - least + 1)
    }

    /// True that many times in a hundred.
    pub fn chance(&mut self, percent: u32) -> bool {
        self.below(100) < percent
    }

    pub fn choose<T: Copy>(&mut self, choices: &[T]) -> T {
        choices[self.index(choices.len())]
    }

    /// An amount, often one at which arithmetic changes.
    pub fn amount(&mut self) -> i32 {
        match self.below(10) {
            0..=2 => self.choose(&[0, 1, -1]),
            3..=5 => self.between(0, 20) as i32 - 10,
            6 => self.choose(&[i32::MIN, i32::MIN + 1, i32::MAX, i32::MAX - 1]),
            7 => self.choose(&[46_340, 46_341, -46_340, -46_341, 65_536, 1 << 30]),
            _ => self.bits() as i32,
        }
    }
}
