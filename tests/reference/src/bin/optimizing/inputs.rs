//! The calls of a run, by number: the listed ones first, then the random ones.

use midvokt_reference::pending::Call;
use midvokt_reference::pending::lists::{self, Part};

pub struct Inputs {
    parts: Vec<Part>,
    seed: u64,
    count: u64,
}

impl Inputs {
    /// The listed calls and so many random ones.
    pub fn new(seed: u64, count: u64) -> Self {
        Self {
            parts: lists::parts(),
            seed,
            count,
        }
    }

    /// How many calls there are.
    pub fn len(&self) -> u64 {
        self.parts.iter().map(|part| part.count).sum::<u64>() + self.count
    }

    /// The call of a number.
    pub fn call(&self, index: u64) -> Call {
        let mut left = index;
        for part in &self.parts {
            if left < part.count {
                return (part.make)(left);
            }
            left -= part.count;
        }
        lists::call(self.seed, left)
    }

    /// How many calls there are of each part.
    pub fn text(&self) -> String {
        let parts = self.parts.iter();
        let parts: Vec<String> = parts
            .map(|part| format!("{} {}", part.name, part.count))
            .collect();
        format!(
            "calls {}: {}, random {} of seed {}",
            self.len(),
            parts.join(", "),
            self.count,
            self.seed
        )
    }
}
