//! All short lists over a small alphabet, and all somewhat longer ones over fewer operations, each
//! with several choices of preserved prefixes. Strings have two letters.

use super::draft::{Maybe, NONE, Words, classical, measurement, rotation, sign};
use crate::pending::Call;

/// The width of all strings.
const WIDTH: u64 = 2;

// The masks of strings: X, Y or Z at the first place, Z at the second, Z at both.
const X: [u64; 2] = [1, 0];
const Y: [u64; 2] = [1, 1];
const Z: [u64; 2] = [0, 1];
const Z_SECOND: [u64; 2] = [0, 2];
const Z_BOTH: [u64; 2] = [0, 3];

/// Makes an operation.
type Letter = fn() -> Words;

/// A rotation with this phase, constant and these conditions.
fn turn(angle: f64, [x, z]: [u64; 2], phase: u64, constant: u64, conditions: &[u64]) -> Words {
    rotation(angle, [x, z, phase], &sign(constant, conditions))
}

/// A measurement with this phase and this exp_val.
fn measure([x, z]: [u64; 2], phase: u64, exp_val: Maybe) -> Words {
    measurement([x, z, phase], &sign(0, &[1]), [[1, 7], NONE, exp_val])
}

/// Everything that the optimizer tells apart: equal and opposite angles, opposite signs by phase
/// and by constant, other conditions, -0, strings that commute and that do not, a measurement of
/// no Hermitian string, a record, a rotation that 28 refuses and an expectation value of 0.
const LETTERS: [Letter; 14] = [
    || turn(0.5, X, 0, 0, &[]),
    || turn(-0.5, X, 0, 0, &[]),
    || turn(0.5, X, 2, 0, &[]),
    || turn(0.25, X, 0, 1, &[1]),
    || turn(-0.0, X, 0, 0, &[]),
    || turn(0.25, Z, 0, 0, &[]),
    || turn(0.5, Y, 1, 1, &[1]),
    || turn(0.5, Z_SECOND, 0, 0, &[]),
    || measure(X, 0, NONE),
    || measure(Z, 3, NONE),
    || measure(Z_BOTH, 0, NONE),
    || classical(&sign(1, &[1, 2]), [[1, 0], NONE]),
    || turn(0.5, X, 1, 0, &[]),
    || measure(X, 0, [1, 0]),
];
/// The most operations of a list over these.
const MOST_SHORT: u32 = 4;

/// The fewer operations, of which lists may be longer.
const FEWER: [Letter; 6] = [
    LETTERS[0], LETTERS[1], LETTERS[5], LETTERS[7], LETTERS[8], LETTERS[9],
];
/// The most operations of a list over these.
const MOST_LONG: u32 = 6;

/// The prefixes of so many operations: none, the middle, two in descending order with one twice,
/// all from the last one down.
const PREFIXES: [fn(u64) -> Vec<u64>; 4] = [
    |_| Vec::new(),
    |size| vec![size / 2],
    |size| vec![size - size / 3, size / 3, size - size / 3],
    |size| (0..=size).rev().collect(),
];

/// How many lists of at most so many operations there are, over so many letters.
fn lists(letters: usize, most: u32) -> u64 {
    (0..=most).map(|size| (letters as u64).pow(size)).sum()
}

/// The words of list number `number` over these letters, the shorter lists first, and its size.
fn list(letters: &[Letter], mut number: u64) -> (Vec<u64>, u64) {
    let base = letters.len() as u64;
    let mut size = 0;
    while number >= base.pow(size) {
        number -= base.pow(size);
        size += 1;
    }
    let mut words = Vec::new();
    for _ in 0..size {
        words.extend(letters[(number % base) as usize]());
        number /= base;
    }
    (words, u64::from(size))
}

/// Call number `number` over these letters.
fn call(letters: &[Letter], number: u64) -> Call {
    let choices = PREFIXES.len() as u64;
    let (words, size) = list(letters, number / choices);
    Call {
        width: WIDTH,
        words,
        prefixes: PREFIXES[(number % choices) as usize](size),
        lengths: None,
    }
}

/// How many calls with short lists there are.
pub fn short_count() -> u64 {
    lists(LETTERS.len(), MOST_SHORT) * PREFIXES.len() as u64
}

/// A call with a short list.
pub fn short_call(number: u64) -> Call {
    call(&LETTERS, number)
}

/// How many calls with longer lists there are.
pub fn long_count() -> u64 {
    lists(FEWER.len(), MOST_LONG) * PREFIXES.len() as u64
}

/// A call with a longer list.
pub fn long_call(number: u64) -> Call {
    call(&FEWER, number)
}
