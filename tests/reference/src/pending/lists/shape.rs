//! What the operations of a random list are like: of which strings, angles and signs they are
//! drawn, and how often each kind comes. Where there are few strings much fuses and cancels; where
//! all commute, rotations and measurements pass far.

use super::draft::{self, Maybe, NONE, Words};
use crate::generator::Numbers;
use crate::pending::form::{MOST_ANGLE, MOST_NUMBER, MOST_WIDTH};
use crate::pending::operations::{MEASUREMENT, ROTATION, SIGN_CONDITIONS};

/// How often rotations, measurements and classical records are made.
type Weights = [u64; 3];

const MIXTURES: [Weights; 10] = [
    [6, 2, 1],
    [1, 0, 0],
    [1, 1, 0],
    [4, 1, 0],
    [2, 1, 1],
    [8, 1, 1],
    [3, 0, 1],
    [1, 5, 1],
    [0, 1, 1],
    [0, 0, 1],
];

/// A string's two masks.
type Masks = [u64; 2];

/// The lowest so many bits.
fn low_bits(count: u64) -> u64 {
    match count {
        0 => 0,
        _ => u64::MAX >> (64 - count),
    }
}

/// A way to draw a string's masks from the bits that there are.
type StringRule = fn(&mut Numbers, u64) -> Masks;

/// Z alone, X alone, pairs of equal letters, which all commute; few letters, any, one at the top.
const STRING_RULES: [StringRule; 6] = [
    |random, all| [0, random.word() & all],
    |random, all| [random.word() & all, 0],
    |random, all| {
        let pairs = low_bits(u64::from(all.count_ones()) & !1) & 0x5555_5555_5555_5555;
        [3 * (random.word() & pairs), 3 * (random.word() & pairs)]
    },
    |random, all| {
        let most = [random.pick(&[0, 1, 1, 2]), random.pick(&[0, 1, 1, 2])];
        most.map(|most| random.bits_of(all, most))
    },
    |random, all| [random.word() & all, random.word() & all],
    |random, all| {
        let top = all & !(all >> 1);
        [random.pick(&[0, top]), random.pick(&[0, top])]
    },
];

/// A way to draw an angle.
type AngleRule = fn(&mut Numbers) -> f64;

/// Plain ones, zeros, ones that nearly cancel, subnormal ones, ones near the bounds, any, and any
/// of any size.
const ANGLE_RULES: [AngleRule; 7] = [
    |random| random.pick(&[0.5, 0.25, 0.75, 1.0]),
    |random| random.pick(&[0.0, 0.0, 0.5]),
    |random| random.pick(&[0.5, 0.1, 3.0, 0.5f64.next_up(), 0.1f64.next_down()]),
    |random| f64::from_bits(random.pick(&[0, 1, 1, 2, 3, 1 << 52])),
    |random| random.pick(&[MOST_ANGLE, MOST_ANGLE.next_down(), MOST_ANGLE / 2.0]),
    |random| random.float(-7.0, 7.0),
    |random| random.float(-1.0, 1.0) * 2f64.powi(20 - random.below(1090) as i32),
];

/// Ascending conditions: none, one, two or more, small ones or up to the largest.
fn conditions(random: &mut Numbers) -> Vec<u64> {
    let some = random.between(0, SIGN_CONDITIONS as u64);
    let count = random.pick(&[0, 0, 1, 2, SIGN_CONDITIONS as u64, some]);
    let step = random.pick(&[1, 3, MOST_NUMBER / SIGN_CONDITIONS as u64]);
    let mut last = 0;
    let mut all: Vec<u64> = (0..count)
        .map(|_| {
            last += random.between(1, step);
            last
        })
        .collect();
    if let Some(last) = all.last_mut()
        && random.chance(10)
    {
        *last = MOST_NUMBER;
    }
    all
}

/// The same conditions but for the last: one more, one fewer, or one that differs in one bit.
fn nearly(random: &mut Numbers, conditions: &[u64]) -> Vec<u64> {
    let mut all = conditions.to_vec();
    let last = all.pop().unwrap_or(0);
    let other = last | 1 << random.below(31);
    match random.below(3) {
        0 => {}
        1 if last > 0 && all.len() + 1 < SIGN_CONDITIONS && other > last => {
            all.extend([last, other]);
        }
        _ => all.push(other),
    }
    all
}

/// So many lists of conditions; half of those behind the first nearly the same.
fn all_conditions(random: &mut Numbers) -> Vec<Vec<u64>> {
    let first = conditions(random);
    let mut all = vec![first];
    for _ in 0..random.pick(&[0, 0, 1, 3]) {
        let next = match random.chance(50) {
            true => nearly(random, &all[0]),
            false => conditions(random),
        };
        all.push(next);
    }
    all
}

/// An Option that is none, or some number.
fn maybe(random: &mut Numbers) -> Maybe {
    let any = random.below(1000);
    match random.below(4) {
        0 => NONE,
        _ => [1, random.pick(&[0, any, any, MOST_NUMBER])],
    }
}

/// So many things drawn by a rule.
fn pool<T>(random: &mut Numbers, counts: &[u64], draw: impl Fn(&mut Numbers) -> T) -> Vec<T> {
    let count = random.pick(counts);
    (0..count).map(|_| draw(random)).collect()
}

/// One thing of some.
fn one<'a, T>(random: &mut Numbers, things: &'a [T]) -> &'a T {
    &things[random.below(things.len() as u64) as usize]
}

/// What the operations of a list are drawn from.
pub struct Shape {
    pub width: u64,
    weights: Weights,
    strings: Vec<Masks>,
    angles: Vec<f64>,
    conditions: Vec<Vec<u64>>,
}

impl Shape {
    /// A shape of any width.
    pub fn new(random: &mut Numbers) -> Self {
        let any = random.between(1, MOST_WIDTH);
        let width = random.pick(&[1, 2, 3, 5, MOST_WIDTH, any, any]);
        Self::of_width(random, width)
    }

    /// A shape of a width.
    pub fn of_width(random: &mut Numbers, width: u64) -> Self {
        let rule = random.pick(&STRING_RULES);
        let angle = random.pick(&ANGLE_RULES);
        let all = low_bits(width);
        Self {
            width,
            weights: random.pick(&MIXTURES),
            strings: pool(random, &[1, 2, 3, 6, 20, 120], |random| rule(random, all)),
            angles: pool(random, &[1, 2, 4, 12], angle),
            conditions: all_conditions(random),
        }
    }

    /// One of the signs, with any constant.
    fn sign(&self, random: &mut Numbers) -> draft::Sign {
        let conditions: &Vec<u64> = one(random, &self.conditions);
        draft::sign(random.below(2), conditions)
    }

    /// One of the angles, or its opposite.
    fn angle(&self, random: &mut Numbers) -> f64 {
        let angle = *one(random, &self.angles);
        random.pick(&[angle, -angle])
    }

    /// A Hermitian rotation.
    fn rotation(&self, random: &mut Numbers) -> Words {
        let [x, z] = *one(random, &self.strings);
        let phase = draft::hermitian(x, z, random.chance(50));
        draft::rotation(self.angle(random), [x, z, phase], &self.sign(random))
    }

    /// A measurement of any phase, without an expectation value.
    fn measurement(&self, random: &mut Numbers) -> Words {
        let [x, z] = *one(random, &self.strings);
        let string = [x, z, random.below(4)];
        let options = [maybe(random), maybe(random), NONE];
        draft::measurement(string, &self.sign(random), options)
    }

    /// An operation of a kind.
    pub fn operation(&self, random: &mut Numbers, kind: u64) -> Words {
        match kind {
            ROTATION => self.rotation(random),
            MEASUREMENT => self.measurement(random),
            _ => draft::classical(&self.sign(random), [maybe(random), maybe(random)]),
        }
    }

    /// So many operations.
    pub fn list(&self, random: &mut Numbers, size: u64) -> Vec<Words> {
        (0..size)
            .map(|_| {
                let kind = random.weighted(&self.weights) as u64;
                self.operation(random, kind)
            })
            .collect()
    }
}
