//! The words of operations that fit.

use crate::pending::operations::{
    CLASSICAL, LAYOUTS, MEASUREMENT, OPERATION_WORDS, ROTATION, SIGN_CONDITIONS,
};

/// The words of an operation.
pub type Words = [u64; OPERATION_WORDS];
/// A sign's constant, count and conditions.
pub type Sign = [u64; 2 + SIGN_CONDITIONS];
/// An Option's flag and value.
pub type Maybe = [u64; 2];

/// None.
pub const NONE: Maybe = [0, 0];

/// The sign of a constant and at most eight conditions.
pub fn sign(constant: u64, conditions: &[u64]) -> Sign {
    let mut sign = [0; 2 + SIGN_CONDITIONS];
    sign[0] = constant;
    sign[1] = conditions.len() as u64;
    sign[2..2 + conditions.len()].copy_from_slice(conditions);
    sign
}

/// The phase with which a string is Hermitian, plus or minus.
pub fn hermitian(x: u64, z: u64, is_negative: bool) -> u64 {
    (u64::from((x & z).count_ones()) + 2 * u64::from(is_negative)) % 4
}

/// An operation of a kind with these words at its places for sign and Options.
fn operation(kind: u64, sign: &Sign, options: &[Maybe]) -> Words {
    let layout = &LAYOUTS[kind as usize];
    let mut words = [0; OPERATION_WORDS];
    words[0] = kind;
    words[layout.sign..layout.sign + sign.len()].copy_from_slice(sign);
    for (&start, option) in layout.options.iter().zip(options) {
        words[start..start + 2].copy_from_slice(option);
    }
    words
}

/// A rotation about a string: x, z, phase.
pub fn rotation(angle: f64, string: [u64; 3], sign: &Sign) -> Words {
    let mut words = operation(ROTATION, sign, &[]);
    words[1] = angle.to_bits();
    words[2..5].copy_from_slice(&string);
    words
}

/// A measurement of a string: x, z, phase. The Options are record, record_condition, exp_val.
pub fn measurement(string: [u64; 3], sign: &Sign, options: [Maybe; 3]) -> Words {
    let mut words = operation(MEASUREMENT, sign, &options);
    words[1..4].copy_from_slice(&string);
    words
}

/// A classical record. The Options are record and record_condition.
pub fn classical(outcome: &Sign, options: [Maybe; 2]) -> Words {
    operation(CLASSICAL, outcome, &options)
}
