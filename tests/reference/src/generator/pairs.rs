//! Sines and cosines at the bounds of refusal 25 (02, CR 5).

use super::draft::floats;
use crate::refusals::sums_to_one;

/// Above this a sine or cosine is not made larger, so that it does not pass 1.
const MOST_ENLARGED: f64 = 0.99;

/// An angle with its own pair, the larger number of which is moved step by step, outward or
/// inward: the last that passes, and the first that does not.
pub fn at_a_bound(angle: f64, outward: bool) -> [[u64; 3]; 2] {
    let mut last = floats(angle).map(f64::from_bits);
    let place = if last[1].abs() > last[2].abs() { 1 } else { 2 };
    let outward = outward && last[place].abs() < MOST_ENLARGED;
    loop {
        let mut next = last;
        next[place] = match outward == (last[place] > 0.0) {
            true => last[place].next_up(),
            false => last[place].next_down(),
        };
        if !sums_to_one(next[1], next[2]) {
            return [last, next].map(|words| words.map(f64::to_bits));
        }
        last = next;
    }
}
