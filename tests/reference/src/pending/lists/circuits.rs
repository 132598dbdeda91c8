//! Known small lists, each for one rule of 02, CR 6.

use super::draft::{Maybe, NONE, Words, classical, measurement, rotation, sign};
use crate::pending::Call;
use crate::pending::form::MOST_ANGLE;

// Strings of width 2 as x, z and phase: letters at the first place, at the second, at both.
const X: [u64; 3] = [1, 0, 0];
const MINUS_X: [u64; 3] = [1, 0, 2];
const Y: [u64; 3] = [1, 1, 1];
const MINUS_Y: [u64; 3] = [1, 1, 3];
const Z: [u64; 3] = [0, 1, 0];
const Z_SECOND: [u64; 3] = [0, 2, 0];
const X_SECOND: [u64; 3] = [2, 0, 0];
const XX: [u64; 3] = [3, 0, 0];
const ZZ: [u64; 3] = [0, 3, 0];
const YY: [u64; 3] = [3, 3, 2];
/// No Hermitian string.
const ODD_X: [u64; 3] = [1, 0, 1];

/// A rotation without a sign.
fn turn(angle: f64, string: [u64; 3]) -> Words {
    rotation(angle, string, &sign(0, &[]))
}

/// A rotation by a half about X with a sign.
fn signed(constant: u64, conditions: &[u64]) -> Words {
    rotation(0.5, X, &sign(constant, conditions))
}

/// A measurement into record 7 with this exp_val.
fn probe(string: [u64; 3], exp_val: Maybe) -> Words {
    measurement(string, &sign(1, &[2]), [[1, 7], [1, 8], exp_val])
}

/// A measurement into record 7.
fn measure(string: [u64; 3]) -> Words {
    probe(string, NONE)
}

/// A classical record.
fn record() -> Words {
    classical(&sign(0, &[1, 4]), [[1, 0], NONE])
}

/// Lists of rotations alone, with their prefixes.
fn of_rotations() -> Vec<(Vec<Words>, Vec<u64>)> {
    let half = turn(0.5, X);
    let least = f64::from_bits(1);
    vec![
        (vec![], vec![]),
        (vec![], vec![0, 0]),
        (vec![half], vec![]),
        (vec![half, turn(0.25, Z), turn(-0.25, Z), half], vec![]),
        (vec![half, turn(-0.5, X)], vec![]),
        (vec![half, turn(0.5, MINUS_X)], vec![2]),
        (vec![half, half, half, turn(-1.5, X), half], vec![]),
        (vec![turn(0.0, X), turn(-0.0, Z), turn(0.0, Y)], vec![]),
        (vec![turn(-0.0, X), turn(-0.0, X)], vec![]),
        (vec![turn(0.25, MINUS_X), signed(1, &[])], vec![]),
        (vec![turn(0.25, Y), turn(0.5, MINUS_Y)], vec![]),
        (
            vec![turn(0.25, XX), turn(1.0, ZZ), turn(0.5, YY), turn(4.0, XX)],
            vec![],
        ),
        (vec![signed(0, &[1, 2]), signed(1, &[1, 2])], vec![]),
        (
            vec![signed(0, &[1, 2]), signed(0, &[1, 3]), signed(1, &[1, 2])],
            vec![],
        ),
        (vec![turn(MOST_ANGLE, X), turn(MOST_ANGLE, X)], vec![]),
        (
            vec![turn(-MOST_ANGLE, X), turn(-MOST_ANGLE.next_down(), X)],
            vec![],
        ),
        (vec![half, turn(-(0.5f64.next_up()), X)], vec![]),
        (vec![turn(least, X), turn(least, X)], vec![]),
        (vec![half, half, half, half], vec![2]),
        (vec![half, half, half, half], vec![3, 1, 4, 0, 3]),
    ]
}

/// Lists with other operations among the rotations, with their prefixes.
fn of_all_kinds() -> Vec<(Vec<Words>, Vec<u64>)> {
    let half = turn(0.5, X);
    let other = signed(0, &[3]);
    vec![
        (vec![record(), measure(X), record()], vec![1]),
        (vec![half, record(), record(), half], vec![]),
        (vec![half, measure(X), half], vec![]),
        (vec![half, measure(Z), half], vec![]),
        (vec![half, measure(XX), measure(X_SECOND), half], vec![]),
        (vec![half, other, measure(X)], vec![]),
        (vec![half, turn(0.25, Z_SECOND), measure(X)], vec![]),
        (vec![turn(0.25, Z_SECOND), measure(X)], vec![]),
        (vec![half, half, turn(0.25, Z_SECOND), measure(X)], vec![]),
        (vec![half, half, turn(0.25, Z_SECOND), measure(X)], vec![2]),
        (
            vec![half, turn(-0.5, X), turn(0.25, Z_SECOND), measure(X)],
            vec![],
        ),
        (
            vec![half, half, measure(X), measure(Z_SECOND), measure(X)],
            vec![],
        ),
        (vec![half, half, record(), measure(X)], vec![]),
        (vec![half, turn(0.25, Z), measure(X)], vec![]),
        (vec![half, half, probe(X, [1, 0]), half], vec![2]),
        (
            vec![half, half, probe(X, [1, 5]), turn(0.5, ODD_X)],
            vec![9],
        ),
        (
            vec![half, turn(-0.5, X), turn(0.5, ODD_X), turn(0.5, ODD_X)],
            vec![1],
        ),
        (vec![measure(ODD_X), turn(0.5, ODD_X)], vec![3]),
        (vec![measure(ODD_X), half], vec![2, 2]),
    ]
}

/// All of them, and one of width 64.
fn all() -> Vec<Call> {
    let lists = [of_rotations(), of_all_kinds()].concat();
    let call = |(list, prefixes): (Vec<Words>, Vec<u64>)| Call {
        width: 2,
        words: list.concat(),
        prefixes,
        lengths: None,
    };
    let mut calls: Vec<Call> = lists.into_iter().map(call).collect();
    let top = [1 << 63 | 1, 1 << 63, 3];
    let wide = [turn(0.5, top), turn(0.5, Z), turn(0.25, top), measure(top)];
    calls.push(Call {
        width: 64,
        ..call((wide.to_vec(), vec![]))
    });
    calls
}

/// How many there are.
pub fn count() -> u64 {
    all().len() as u64
}

/// A call of the list, by number.
pub fn listed(number: u64) -> Call {
    all().swap_remove(number as usize)
}
