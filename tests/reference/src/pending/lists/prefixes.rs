//! Preserved prefixes of a list, in any order, with repeats.

use crate::generator::Numbers;
use crate::pending::form::MOST_PREFIXES;

/// A way to choose the prefixes of so many operations.
type Choice = fn(&mut Numbers, u64) -> Vec<u64>;

/// How often each choice is made.
const CHOICES: [(u64, Choice); 6] = [
    (40, |_, _| Vec::new()),
    (30, |random, size| some(random, size, 4)),
    (6, |random, size| some(random, size, MOST_PREFIXES as u64)),
    (10, every),
    (4, |_, size| vec![size, 0]),
    (1, |random, size| {
        (0..MOST_PREFIXES)
            .map(|_| random.between(0, size))
            .collect()
    }),
];

/// At most so many, any of those that there are.
fn some(random: &mut Numbers, size: u64, most: u64) -> Vec<u64> {
    let most = most.min(2 * size + 2);
    (0..random.between(1, most))
        .map(|_| random.between(0, size))
        .collect()
}

/// All that there are, or the first 1,024: ascending, descending, or in a mixed order.
fn every(random: &mut Numbers, size: u64) -> Vec<u64> {
    let mut all: Vec<u64> = (0..=size).take(MOST_PREFIXES).collect();
    match random.below(3) {
        0 => {}
        1 => all.reverse(),
        _ => {
            for place in 1..all.len() {
                all.swap(place, random.below(place as u64 + 1) as usize);
            }
        }
    }
    all
}

/// Prefixes of a list of so many operations.
pub fn of(random: &mut Numbers, size: u64) -> Vec<u64> {
    let weights = CHOICES.map(|(weight, _)| weight);
    let (_, choice) = CHOICES[random.weighted(&weights)];
    choice(random, size)
}
