//! A small random generator (splitmix64): the same seed gives the same numbers everywhere.

pub struct Random {
    state: u64,
}

impl Random {
    pub fn new(seed: u64) -> Random {
        Random { state: seed }
    }

    /// 64 random bits.
    pub fn bits(&mut self) -> u64 {
        self.state = self.state.wrapping_add(0x9e37_79b9_7f4a_7c15);
        let mut z = self.state;
        z = (z ^ (z >> 30)).wrapping_mul(0xbf58_476d_1ce4_e5b9);
        z = (z ^ (z >> 27)).wrapping_mul(0x94d0_49bb_1331_11eb);
        z ^ (z >> 31)
    }

    /// A number from `least` to `most`, both included.
    pub fn between(&mut self, least: u64, most: u64) -> u64 {
        let width = u128::from(most - least) + 1;
        least + (u128::from(self.bits()) * width >> 64) as u64
    }

    /// The same for the 32-bit numbers of a feed.
    pub fn between32(&mut self, least: u32, most: u32) -> u32 {
        self.between(u64::from(least), u64::from(most)) as u32
    }

    /// A place in a list of this length.
    pub fn place(&mut self, length: usize) -> usize {
        self.between(0, length as u64 - 1) as usize
    }

    pub fn pick<T: Copy>(&mut self, list: &[T]) -> T {
        list[self.place(list.len())]
    }

    pub fn one_in(&mut self, many: u64) -> bool {
        self.between(1, many) == 1
    }

    /// 0 to `most`, with a liking for both ends.
    pub fn edgy(&mut self, most: u32) -> u32 {
        match self.between(0, 7) {
            0 | 1 => 0,
            2 | 3 => most,
            4 => most.min(1),
            5 => most - most.min(1),
            _ => self.between32(0, most),
        }
    }
}
