//! A deterministic generator of books: the same seed always gives the same bytes.

pub mod call;
pub mod change;
pub mod damage;
pub mod district;
pub mod standard;
pub mod ties;

/// A source of numbers (splitmix64).
pub struct Numbers {
    state: u64,
}

impl Numbers {
    /// Numbers that follow from the seed.
    pub fn new(seed: u64) -> Self {
        Numbers { state: seed }
    }

    /// The next number.
    pub fn any(&mut self) -> u64 {
        self.state = self.state.wrapping_add(0x9e37_79b9_7f4a_7c15);
        let mut z = self.state;
        z = (z ^ (z >> 30)).wrapping_mul(0xbf58_476d_1ce4_e5b9);
        z = (z ^ (z >> 27)).wrapping_mul(0x94d0_49bb_1331_11eb);
        z ^ (z >> 31)
    }

    /// A number from least to most.
    pub fn between(&mut self, least: u64, most: u64) -> u64 {
        least + self.any() % (most - least + 1)
    }

    /// A u16 from least to most.
    pub fn between16(&mut self, least: u16, most: u16) -> u16 {
        self.between(u64::from(least), u64::from(most)) as u16
    }

    /// True once in so many times.
    pub fn once_in(&mut self, times: u64) -> bool {
        self.any().is_multiple_of(times)
    }

    /// Some distinct values below a limit, at most all of them, in rising order.
    pub fn some_below(&mut self, count: u16, limit: u16) -> Vec<u16> {
        let mut values: Vec<u16> = (0..limit).collect();
        while values.len() > usize::from(count) {
            let place = self.between(0, values.len() as u64 - 1) as usize;
            values.swap_remove(place);
        }
        values.sort_unstable();
        values
    }
}
