//! Rotations about Y as a newcomer writes them, applied to a state with the plan's kernel.

#![cfg(feature = "std")]

use midvokt::{plan, Complex, Head, Record, LARGEST_CEILING};

const THETA: f64 = 0.7;

/// A state of one qubit after a planned rotation about i^phase X^x Z^z that turns by THETA.
fn rotated(x: u64, z: u64, phase: u64, state: [Complex; 2]) -> [Complex; 2] {
    let head = Head {
        initial_k: 1,
        max_k: 8,
        nexpvals: 0,
        ceiling: LARGEST_CEILING,
    };
    let record = Record::rotation(1, x, z, phase, THETA / 2.0);
    let kernel = plan(&head, &[record]).unwrap().rotations[0].kernel;
    [0, 1].map(|target: usize| {
        let source = target ^ kernel.action.xmask as usize;
        state[target] * kernel.cos_kernel_angle + kernel.coefficient(source, false) * state[source]
    })
}

/// Whether two states are the same but for rounding.
fn are_near(left: [Complex; 2], right: [Complex; 2]) -> bool {
    (0..2).all(|place| (left[place] - right[place]).norm_sqr() < 1e-30)
}

/// A state of no special form.
fn state() -> [Complex; 2] {
    [Complex::new(0.6, 0.0), Complex::new(0.48, -0.64)]
}

/// The sum of the squares of a state.
fn norm(state: [Complex; 2]) -> f64 {
    state.iter().map(Complex::norm_sqr).sum()
}

#[test]
fn y_with_phase_one_turns_as_ry_does() {
    let (sine, cosine) = (THETA / 2.0).sin_cos();
    let [low, high] = state();
    let turned = [low * cosine - high * sine, low * sine + high * cosine];
    assert!(are_near(rotated(1, 1, 1, state()), turned));
    let back = [low * cosine + high * sine, high * cosine - low * sine];
    assert!(are_near(rotated(1, 1, 3, state()), back));
}

#[test]
fn y_with_phase_zero_is_no_rotation() {
    assert!((norm(rotated(1, 1, 1, state())) - 1.0).abs() < 1e-14);
    assert!((norm(rotated(1, 1, 0, state())) - 1.0).abs() > 0.1);
}

#[test]
fn x_and_z_need_no_phase() {
    let (sine, cosine) = (THETA / 2.0).sin_cos();
    let [low, high] = state();
    let slope = Complex::new(0.0, -sine);
    let turned = [low * cosine + slope * high, high * cosine + slope * low];
    assert!(are_near(rotated(1, 0, 0, state()), turned));
    let turned = [
        low * Complex::new(cosine, -sine),
        high * Complex::new(cosine, sine),
    ];
    assert!(are_near(rotated(0, 1, 0, state()), turned));
}
