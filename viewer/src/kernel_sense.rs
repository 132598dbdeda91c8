//! What a row's kernel has to be by its own masks, phase, sine and pivot: each word that follows
//! from others is computed again and held to them, floats by their bits. What the circuit alone
//! tells (masks, angle, sine, cosine, pivot) is held to its bounds.

use std::fmt::Display;

use midvokt::{
    ActivePauliAction, Complex, PrecomputedActivePauliMeasurementKernel as Measurement,
    PrecomputedActivePauliRotationKernel as Rotation,
};

use crate::sense::require;

/// The even phases of the exponents 0 to 3.
const PHASES: [Complex; 4] = [
    Complex { re: 1.0, im: 0.0 },
    Complex { re: 0.0, im: 1.0 },
    Complex { re: -1.0, im: 0.0 },
    Complex { re: 0.0, im: -1.0 },
];

/// How far the squares of a sine and a cosine may sum from 1.
const LEEWAY: f64 = 1.0 / (1u64 << 50) as f64;

/// The bits of the root of one half.
const ROOT_OF_HALF: u64 = 0x3FE6_A09E_667F_3BCD;

/// A word is the one that others make it.
fn follows<T: Display + PartialEq>(
    name: &str,
    found: T,
    origin: &str,
    wanted: T,
) -> Result<(), String> {
    require(found == wanted, || {
        format!("its {name} is {found}, and by {origin} it is {wanted}")
    })
}

/// A complex number as a pair, with all digits that its floats need.
fn pair(number: Complex) -> String {
    format!("({:?}, {:?})", number.re, number.im)
}

/// Whether two complex numbers have the same bits.
fn is_same(one: Complex, other: Complex) -> bool {
    let bits = |number: Complex| (number.re.to_bits(), number.im.to_bits());
    bits(one) == bits(other)
}

/// A complex number has the bits of the one that others make it.
fn pair_follows(name: &str, found: Complex, origin: &str, wanted: Complex) -> Result<(), String> {
    require(is_same(found, wanted), || {
        let (found, wanted) = (pair(found), pair(wanted));
        format!("its {name} is {found}, and by {origin} it is {wanted}")
    })
}

/// The phases and the overlap of a row; the phase exponent that the even phase stands for.
fn action(action: &ActivePauliAction) -> Result<usize, String> {
    let even = action.even_phase;
    let exponent = PHASES.iter().position(|&phase| is_same(phase, even));
    let exponent = exponent.ok_or_else(|| {
        let [first, second, third, last] = PHASES.map(pair);
        let found = pair(even);
        format!("its even phase is {found}, and there are {first}, {second}, {third} and {last}")
    })?;
    pair_follows("odd phase", action.odd_phase, "its even phase", -even)?;
    let is_odd = (action.xmask & action.zmask).count_ones() % 2 == 1;
    follows("overlap flag", action.xz_overlap_odd, "its masks", is_odd)?;
    Ok(exponent)
}

/// What the squares of a sine and a cosine sum to, each operation rounded.
fn squares(sine: f64, cosine: f64) -> f64 {
    sine * sine + cosine * cosine
}

/// Whether a sine and a cosine are of one angle, as far as their squares tell.
pub fn are_of_one_angle(sine: f64, cosine: f64) -> bool {
    (1.0 - LEEWAY..=1.0 + LEEWAY).contains(&squares(sine, cosine))
}

/// The angle is finite, and sine and cosine are of one angle, as far as their squares tell.
fn floats(kernel: &Rotation) -> Result<(), String> {
    let (angle, sine, cosine) = (
        kernel.kernel_angle,
        kernel.sin_kernel_angle,
        kernel.cos_kernel_angle,
    );
    require(angle.is_finite(), || {
        format!("its angle is {angle:?}, and a finite one is expected")
    })?;
    for (name, float) in [("sine", sine), ("cosine", cosine)] {
        require((-1.0..=1.0).contains(&float), || {
            format!("its {name} is {float:?}, and one from -1 to 1 is expected")
        })?;
    }
    require(are_of_one_angle(sine, cosine), || {
        let sum = squares(sine, cosine);
        format!(
            "its sine and cosine are of no one angle: their squares sum to {sum:?}, \
             and to 1 is expected, give or take 2^-50"
        )
    })
}

/// What the row of a rotation, of fewer than 62 members, says besides its masks and its angle.
pub fn rotation(kernel: &Rotation) -> Result<(), String> {
    let exponent = action(&kernel.action)?;
    floats(kernel)?;
    let (x, z, masks) = (kernel.action.xmask, kernel.action.zmask, "its masks");
    let is_real = kernel.action.xz_overlap_odd && exponent % 2 == 1;
    let (bit, count) = match x {
        0 => (0, 0),
        _ => (x.ilog2(), 1 << kernel.action.nqubits >> 1),
    };
    follows("diagonal flag", kernel.is_diagonal, masks, x == 0)?;
    let uniform = kernel.uniform_imag_pairs;
    follows("uniform flag", uniform, masks, x != 0 && z == 0)?;
    let flip = kernel.real_pair_flip;
    follows("flip flag", flip, "its masks and phase", is_real)?;
    follows("pair bit", kernel.pair_bit, masks, bit)?;
    follows(
        "pair count",
        kernel.pair_count,
        "its x mask and size",
        count,
    )?;
    pair_follows(
        "coefficient",
        kernel.minus_even_coefficient,
        "its sine and even phase",
        Complex::new(0.0, -kernel.sin_kernel_angle) * kernel.action.even_phase,
    )
}

/// Diagonal flag, phase bit and z without pivot of a measurement that is not diagonal.
fn nondiagonal(kernel: &Measurement) -> Result<(bool, i32, u64), String> {
    let pivot = kernel.pivot;
    require(kernel.action.xmask >> pivot & 1 == 1, || {
        format!("its pivot is {pivot}, and a member with X or Y is expected")
    })?;
    Ok((false, 0, 0))
}

/// The same of a diagonal measurement, by its phase exponent.
fn diagonal(kernel: &Measurement, exponent: usize) -> Result<(bool, i32, u64), String> {
    let (pivot, z) = (kernel.pivot, kernel.action.zmask);
    require(z >> pivot & 1 == 1, || {
        format!("its pivot is {pivot}, and a member with Z is expected")
    })?;
    require(exponent % 2 == 0, || {
        let even = pair(kernel.action.even_phase);
        format!("its even phase is {even}, and without X a real one is expected")
    })?;
    Ok((true, i32::from(exponent == 2), z & !(1 << pivot)))
}

/// What a measurement row says besides its masks, if its pivot is one of fewer than 62 members.
pub fn measurement(kernel: &Measurement) -> Result<(), String> {
    let exponent = action(&kernel.action)?;
    let (is_diagonal, bit, rest) = match kernel.action.xmask {
        0 => diagonal(kernel, exponent)?,
        _ => nondiagonal(kernel)?,
    };
    follows(
        "diagonal flag",
        kernel.is_diagonal,
        "its masks",
        is_diagonal,
    )?;
    let phase_bit = kernel.diagonal_phase_bit;
    follows("phase bit", phase_bit, "its masks and phase", bit)?;
    let found = kernel.z_without_pivot;
    follows("z without pivot", found, "its masks and pivot", rest)?;
    let dimension = 1 << kernel.action.nqubits >> 1;
    follows("out dimension", kernel.out_dim, "its size", dimension)?;
    let (even, root) = (kernel.action.even_phase, f64::from_bits(ROOT_OF_HALF));
    pair_follows(
        "coefficient",
        kernel.nondiagonal_coefficient1_even,
        "its even phase",
        even.conj() * root,
    )
}

#[cfg(test)]
mod tests {
    use super::*;
    use crate::lives::Replay;
    use midvokt::{plan, Head, Record, StoredPlan, LARGEST_CEILING};

    /// Rotations about YX, ZZ and iX, then measurements of XX and -ZZ with pivot 1, and of Z.
    fn planned() -> StoredPlan {
        let head = Head {
            initial_k: 4,
            max_k: 8,
            nexpvals: 0,
            ceiling: LARGEST_CEILING,
        };
        let records = [
            Record::Rotation(midvokt::Rotation {
                width: 4,
                x: 3,
                z: 1,
                phase: 1,
                angle: 0.5,
                sine: 0.6,
                cosine: 0.8,
            }),
            Record::rotation(4, 0, 3, 0, 0.0),
            Record::rotation(4, 4, 0, 1, 0.25),
            Record::measurement(4, 3, 0, 1, 1),
            Record::measurement(3, 0, 3, 2, 1),
            Record::measurement(2, 0, 1, 0, 0),
        ];
        StoredPlan::from(plan(&head, &records).unwrap())
    }

    /// What is said of the plan with a change.
    fn said(change: impl Fn(&mut StoredPlan)) -> String {
        let mut plan = planned();
        change(&mut plan);
        Replay::of(&plan).unwrap_err()
    }

    /// What is said of the plan with a rotation's kernel changed.
    fn turned(row: usize, change: impl Fn(&mut Rotation)) -> String {
        said(|plan| change(&mut plan.rotations[row].kernel))
    }

    /// What is said of the plan with a measurement's kernel changed.
    fn measured(row: usize, change: impl Fn(&mut Measurement)) -> String {
        said(|plan| change(&mut plan.measurements[row].kernel))
    }

    #[test]
    fn the_kernels_of_the_library_follow() {
        assert!(Replay::of(&planned()).is_ok());
    }

    #[test]
    fn phases_are_those_of_an_exponent() {
        for even in [(0.5, 0.0), (1.0, -0.0), (f64::INFINITY, 0.0), (1.0, 1.0)] {
            let even = Complex::new(even.0, even.1);
            let found = turned(1, |kernel| kernel.action.even_phase = even);
            let pair = pair(even);
            let wanted = format!(
                "record 1: its even phase is {pair}, and there are (1.0, 0.0), (0.0, 1.0), \
                 (-1.0, 0.0) and (0.0, -1.0)"
            );
            assert_eq!(found, wanted);
        }
        assert_eq!(
            turned(1, |kernel| kernel.action.odd_phase.im = 0.0),
            "record 1: its odd phase is (-1.0, 0.0), and by its even phase it is (-1.0, -0.0)"
        );
        assert_eq!(
            measured(0, |kernel| kernel.action.odd_phase.re = 0.0),
            "record 3: its odd phase is (0.0, -1.0), and by its even phase it is (-0.0, -1.0)"
        );
    }

    #[test]
    fn angles_sines_and_cosines_have_their_bounds() {
        assert_eq!(
            turned(0, |kernel| kernel.kernel_angle = f64::NEG_INFINITY),
            "record 0: its angle is -inf, and a finite one is expected"
        );
        assert_eq!(
            turned(1, |kernel| kernel.sin_kernel_angle = -1.5),
            "record 1: its sine is -1.5, and one from -1 to 1 is expected"
        );
        assert_eq!(
            turned(1, |kernel| kernel.cos_kernel_angle = 1.0 + f64::EPSILON),
            "record 1: its cosine is 1.0000000000000002, and one from -1 to 1 is expected"
        );
        assert_eq!(
            turned(1, |kernel| kernel.sin_kernel_angle = 0.5),
            "record 1: its sine and cosine are of no one angle: their squares sum to 1.25, and \
             to 1 is expected, give or take 2^-50"
        );
    }

    /// The squares of 0 and of a cosine that is so many steps below 1.
    #[test]
    fn squares_may_sum_to_a_little_less_than_1() {
        let below = |steps: u64| f64::from_bits(1f64.to_bits() - steps);
        let follow = |cosine| {
            let mut plan = planned();
            plan.rotations[1].kernel.cos_kernel_angle = cosine;
            Replay::of(&plan).is_ok()
        };
        assert_eq!(below(4).powi(2), 1.0 - LEEWAY);
        assert!(follow(below(4)) && follow(-below(4)) && !follow(below(5)));
    }

    #[test]
    fn rotations_follow_from_their_masks() {
        let found = [
            turned(0, |kernel| kernel.action.xz_overlap_odd = false),
            turned(0, |kernel| kernel.is_diagonal = true),
            turned(2, |kernel| kernel.uniform_imag_pairs = false),
            turned(0, |kernel| kernel.real_pair_flip = false),
            turned(0, |kernel| kernel.pair_bit = 0),
            turned(0, |kernel| kernel.pair_count = 4),
            turned(1, |kernel| kernel.is_diagonal = false),
            turned(1, |kernel| kernel.uniform_imag_pairs = true),
            turned(1, |kernel| kernel.real_pair_flip = true),
            turned(1, |kernel| kernel.pair_bit = 1),
            turned(1, |kernel| kernel.pair_count = 2),
        ];
        let wanted = [
            "record 0: its overlap flag is false, and by its masks it is true",
            "record 0: its diagonal flag is true, and by its masks it is false",
            "record 2: its uniform flag is false, and by its masks it is true",
            "record 0: its flip flag is false, and by its masks and phase it is true",
            "record 0: its pair bit is 0, and by its masks it is 1",
            "record 0: its pair count is 4, and by its x mask and size it is 2",
            "record 1: its diagonal flag is false, and by its masks it is true",
            "record 1: its uniform flag is true, and by its masks it is false",
            "record 1: its flip flag is true, and by its masks and phase it is false",
            "record 1: its pair bit is 1, and by its masks it is 0",
            "record 1: its pair count is 2, and by its x mask and size it is 0",
        ];
        assert_eq!(found, wanted);
    }

    #[test]
    fn coefficients_follow_bit_by_bit() {
        assert_eq!(
            turned(1, |kernel| kernel.minus_even_coefficient.re = -0.0),
            "record 1: its coefficient is (-0.0, 0.0), and by its sine and even phase it is \
             (0.0, 0.0)"
        );
        let more = |part: &mut f64| *part = f64::from_bits(part.to_bits() + 1);
        let found = [
            turned(0, |kernel| more(&mut kernel.minus_even_coefficient.re)),
            measured(0, |kernel| {
                more(&mut kernel.nondiagonal_coefficient1_even.im)
            }),
        ];
        let wanted = [
            "record 0: its coefficient is (0.6000000000000001, 0.0), and by its sine and even \
             phase it is (0.6, 0.0)",
            "record 3: its coefficient is (0.0, -0.7071067811865477), and by its even phase it \
             is (0.0, -0.7071067811865476)",
        ];
        assert_eq!(found, wanted);
    }

    #[test]
    fn measurements_follow_from_masks_and_pivot() {
        let found = [
            measured(0, |kernel| kernel.is_diagonal = true),
            measured(0, |kernel| kernel.diagonal_phase_bit = 1),
            measured(0, |kernel| kernel.z_without_pivot = 1),
            measured(0, |kernel| kernel.out_dim = 4),
            measured(1, |kernel| kernel.is_diagonal = false),
            measured(1, |kernel| kernel.diagonal_phase_bit = 0),
            measured(1, |kernel| kernel.z_without_pivot = 3),
            measured(1, |kernel| kernel.pivot = 0),
            measured(0, |kernel| kernel.action.xmask = 1),
            measured(2, |kernel| kernel.action.zmask = 0),
            measured(2, |kernel| {
                kernel.action.even_phase = PHASES[3];
                kernel.action.odd_phase = -PHASES[3];
            }),
            measured(2, |kernel| kernel.out_dim = 0),
        ];
        let wanted = [
            "record 3: its diagonal flag is true, and by its masks it is false",
            "record 3: its phase bit is 1, and by its masks and phase it is 0",
            "record 3: its z without pivot is 1, and by its masks and pivot it is 0",
            "record 3: its out dimension is 4, and by its size it is 2",
            "record 4: its diagonal flag is false, and by its masks it is true",
            "record 4: its phase bit is 0, and by its masks and phase it is 1",
            "record 4: its z without pivot is 3, and by its masks and pivot it is 1",
            "record 4: its z without pivot is 1, and by its masks and pivot it is 2",
            "record 3: its pivot is 1, and a member with X or Y is expected",
            "record 5: its pivot is 0, and a member with Z is expected",
            "record 5: its even phase is (0.0, -1.0), and without X a real one is expected",
            "record 5: its out dimension is 0, and by its size it is 1",
        ];
        assert_eq!(found, wanted);
    }
}
