//! Lists of the most operations, by sort: all commute and none fuses, one chain, many moves,
//! mixtures, and classical records alone. The benchmark times these.

use super::draft::{NONE, Sign, Words, classical, hermitian, measurement, rotation, sign};
use crate::generator::Numbers;
use crate::pending::Call;
use crate::pending::form::MOST_OPERATIONS;

/// Operations of each list.
const OPERATIONS: u64 = MOST_OPERATIONS as u64;
const SEED: u64 = 11;
/// How many lists of each sort are listed.
const OF_EACH: u64 = 12;

/// Makes operation number `place`.
type Make = fn(&mut Numbers, u64) -> Words;

/// A sort of lists.
#[derive(Clone, Copy)]
pub struct Sort {
    pub name: &'static str,
    /// Whether all operations are classical records.
    pub is_classical: bool,
    width: u64,
    /// How many operations there are between two preserved prefixes, where there are any.
    segment: Option<usize>,
    make: Make,
}

/// At most so many conditions, any constant.
fn any_sign(random: &mut Numbers, most: u64) -> Sign {
    let mut last = 0;
    let conditions: Vec<u64> = (0..random.between(0, most))
        .map(|_| {
            last += random.between(1, 5);
            last
        })
        .collect();
    sign(random.below(2), &conditions)
}

/// A rotation by some angle about a string, with at most so many conditions.
fn turn(random: &mut Numbers, x: u64, z: u64, conditions: u64) -> Words {
    let phase = hermitian(x, z, random.chance(50));
    let angle = random.between(1, 2000) as f64 / 128.0;
    rotation(angle, [x, z, phase], &any_sign(random, conditions))
}

/// A measurement of a string into a record of its own.
fn measure(random: &mut Numbers, x: u64, z: u64, place: u64) -> Words {
    let string = [x, z, hermitian(x, z, false)];
    let options = [[1, place], [1, place + 1], NONE];
    measurement(string, &any_sign(random, 4), options)
}

/// A classical record of just so many conditions.
fn record(random: &mut Numbers, conditions: u64, place: u64) -> Words {
    let conditions: Vec<u64> = (1..=conditions).map(|step| 3 * step).collect();
    let outcome = sign(random.below(2), &conditions);
    classical(&outcome, [[1, place], [1, place + 1]])
}

/// All kinds, strings of any letters at so many places.
fn mixed(random: &mut Numbers, letters: u64, place: u64) -> Words {
    let (x, z) = (random.below(1 << letters), random.below(1 << letters));
    match random.below(6) {
        0..=3 => turn(random, x, z, 0),
        4 => measure(random, x, z, place),
        _ => record(random, 2, place),
    }
}

/// Rotations about different strings of Z.
const COMMUTING: Make = |random, place| turn(random, 0, place + 1, 4);

/// Rotations about one string, without conditions.
const CHAIN: Make = |random, _| turn(random, 3, 5, 0);

/// Two rotations that fuse, different ones, then as many measurements that pass them all.
const FAR_MOVES: Make = |random, place| match place {
    0 | 1 => turn(random, 0, 1, 0),
    _ if place < OPERATIONS / 2 => turn(random, 0, place + 1, 4),
    _ => measure(random, 0, place, place),
};

/// Rotations and measurements in turn, behind two rotations that fuse.
const NEAR_MOVES: Make = |random, place| match place {
    0 | 1 => turn(random, 0, 1, 0),
    _ if place % 2 == 0 => turn(random, 0, place + 1, 4),
    _ => measure(random, 0, place, place),
};

/// All kinds, most of them rotations, strings of Z at six places.
const MIXTURE_OF_Z: Make = |random, place| {
    let z = random.below(64);
    match random.below(8) {
        0..=5 => turn(random, 0, z, 1),
        6 => measure(random, 0, z, place),
        _ => record(random, 2, place),
    }
};

/// A sort of strings of a width.
const fn sort(name: &'static str, width: u64, segment: Option<usize>, make: Make) -> Sort {
    Sort {
        name,
        is_classical: false,
        width,
        segment,
        make,
    }
}

/// A sort of classical records.
const fn classical_sort(name: &'static str, make: Make) -> Sort {
    Sort {
        is_classical: true,
        ..sort(name, 1, None, make)
    }
}

pub const SORTS: [Sort; 10] = [
    sort("all commute, none fuses", 64, None, COMMUTING),
    sort("one chain", 64, None, CHAIN),
    sort("far moves", 64, None, FAR_MOVES),
    sort("near moves", 64, None, NEAR_MOVES),
    sort(
        "mixture at two places, in segments",
        2,
        Some(50),
        |random, place| mixed(random, 2, place),
    ),
    sort("mixture at four places", 4, None, |random, place| {
        mixed(random, 4, place)
    }),
    sort("mixture of Z, in segments", 6, Some(300), MIXTURE_OF_Z),
    classical_sort("records without conditions", |random, place| {
        record(random, 0, place)
    }),
    classical_sort("records of four conditions", |random, place| {
        record(random, 4, place)
    }),
    classical_sort("records of eight conditions", |random, place| {
        record(random, 8, place)
    }),
];

impl Sort {
    /// List number `index` of the sort.
    pub fn call(&self, index: u64) -> Call {
        let mut random = Numbers::new(SEED, index);
        let operations = (0..OPERATIONS).flat_map(|place| (self.make)(&mut random, place));
        let words = operations.collect();
        let ends = self.segment.into_iter();
        Call {
            width: self.width,
            words,
            prefixes: ends
                .flat_map(|step| (0..=OPERATIONS).step_by(step))
                .collect(),
            lengths: None,
        }
    }
}

/// How many of them are listed.
pub fn count() -> u64 {
    SORTS.len() as u64 * OF_EACH
}

/// A call of the list, by number.
pub fn listed(number: u64) -> Call {
    SORTS[(number / OF_EACH) as usize].call(number % OF_EACH)
}
