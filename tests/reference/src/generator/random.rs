//! A small source of random numbers: a counter that goes up by an odd step, mixed.

/// The numbers of one program.
#[derive(Clone, Debug)]
pub struct Random {
    state: u64,
}

/// The bits of a word spread over all of it.
fn mixed(word: u64) -> u64 {
    let word = (word ^ (word >> 30)).wrapping_mul(0xbf58_476d_1ce4_e5b9);
    let word = (word ^ (word >> 27)).wrapping_mul(0x94d0_49bb_1331_11eb);
    word ^ (word >> 31)
}

impl Random {
    /// The numbers for program number `index` of a seed.
    pub fn new(seed: u64, index: u64) -> Self {
        Self {
            state: mixed(mixed(seed).wrapping_add(index)),
        }
    }

    /// Any word.
    pub fn word(&mut self) -> u64 {
        self.state = self.state.wrapping_add(0x9e37_79b9_7f4a_7c15);
        mixed(self.state)
    }

    /// A number below a limit that is not 0.
    pub fn below(&mut self, limit: u64) -> u64 {
        ((u128::from(self.word()) * u128::from(limit)) >> 64) as u64
    }

    /// A number from the least to the most, both included.
    pub fn between(&mut self, least: u64, most: u64) -> u64 {
        match (most - least).checked_add(1) {
            Some(limit) => least + self.below(limit),
            None => self.word(),
        }
    }

    /// True so many times in a hundred.
    pub fn chance(&mut self, percent: u64) -> bool {
        self.below(100) < percent
    }

    /// One of some values.
    pub fn pick<T: Copy>(&mut self, values: &[T]) -> T {
        values[self.below(values.len() as u64) as usize]
    }

    /// A place, each as often as its weight says; one weight at least is not 0.
    pub fn weighted(&mut self, weights: &[u64]) -> usize {
        let mut left = self.below(weights.iter().sum());
        for (place, &weight) in weights.iter().enumerate() {
            if left < weight {
                return place;
            }
            left -= weight;
        }
        unreachable!("the number drawn is below the sum")
    }

    /// A float from the least on, below the most.
    pub fn float(&mut self, least: f64, most: f64) -> f64 {
        let part = (self.word() >> 11) as f64 / (1u64 << 53) as f64;
        least + part * (most - least)
    }

    /// Some of the bits of a mask, at most so many.
    pub fn bits_of(&mut self, mask: u64, most: u64) -> u64 {
        let mut left = mask;
        let mut chosen = 0;
        for _ in 0..most.min(u64::from(mask.count_ones())) {
            let bit = self.bit_of(left);
            left &= !bit;
            chosen |= bit;
        }
        chosen
    }

    /// One bit of a mask that is not 0.
    pub fn bit_of(&mut self, mask: u64) -> u64 {
        let mut left = mask;
        for _ in 0..self.below(u64::from(mask.count_ones())) {
            left &= left - 1;
        }
        left & left.wrapping_neg()
    }
}
