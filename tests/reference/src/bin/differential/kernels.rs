//! The kernels of the crate `midvokt` beside the Rust's own: their defaults, and what each
//! method gives for the kernels of a plan and for random ones.

use midvokt_reference::active::{
    ActivePauliAction, PrecomputedActivePauliMeasurementKernel,
    PrecomputedActivePauliRotationKernel, insert_zero_bit,
};
use midvokt_reference::component_plan::{
    ActiveComponentPlan, ActiveComponentStepKind, ActiveComponentStepRef,
};
use midvokt_reference::generator::Numbers;
use num_complex::Complex64 as Complex;

use crate::complex;
use crate::dropin;
use crate::results::Results;

/// Indices at which the methods of a kernel are compared.
const INDICES: u64 = 3;

/// Random kernels of each kind for a plan.
const KERNELS: u64 = 4;

/// A basis index: any word, or one with few bits.
fn index(random: &mut Numbers) -> usize {
    let bits = random.pick(&[1, 3, 8, 62, 64]);
    (random.word() >> (64 - bits)) as usize
}

/// Compares the methods of a rotation kernel and of its action.
fn compare_rotation(
    ours: &midvokt::PrecomputedActivePauliRotationKernel,
    theirs: &PrecomputedActivePauliRotationKernel,
    random: &mut Numbers,
    results: &mut Results,
) {
    for _ in 0..INDICES {
        let (index, sign) = (index(random), random.chance(50));
        results.same(
            "phase_odd",
            ours.action.phase_odd(index),
            theirs.action.phase_odd(index),
        );
        results.same(
            "coefficient",
            ours.coefficient(index, sign),
            theirs.coefficient(index, sign),
        );
    }
}

/// Compares the methods of a measurement kernel.
fn compare_measurement(
    ours: &midvokt::PrecomputedActivePauliMeasurementKernel,
    theirs: &PrecomputedActivePauliMeasurementKernel,
    random: &mut Numbers,
    results: &mut Results,
) {
    for _ in 0..INDICES {
        let (index, branch) = (index(random), random.chance(50));
        results.same(
            "diagonal_source",
            ours.diagonal_source(index, branch),
            theirs.diagonal_source(index, branch),
        );
        results.same(
            "nondiagonal_source0",
            ours.nondiagonal_source0(index),
            theirs.nondiagonal_source0(index),
        );
        results.same(
            "nondiagonal_source1",
            ours.nondiagonal_source1(index),
            theirs.nondiagonal_source1(index),
        );
        results.same(
            "nondiagonal_coefficient1",
            ours.nondiagonal_coefficient1(index, branch),
            theirs.nondiagonal_coefficient1(index, branch),
        );
    }
}

/// An action with any masks.
fn random_action(random: &mut Numbers) -> midvokt::ActivePauliAction {
    midvokt::ActivePauliAction {
        xmask: random.word(),
        zmask: random.word(),
        ..Default::default()
    }
}

/// A rotation kernel with any masks and any coefficient.
fn random_rotation(random: &mut Numbers) -> midvokt::PrecomputedActivePauliRotationKernel {
    midvokt::PrecomputedActivePauliRotationKernel {
        action: random_action(random),
        minus_even_coefficient: complex::random(random),
        ..Default::default()
    }
}

/// A measurement kernel with any fields; from pivot 64 on the Rust would panic.
fn random_measurement(random: &mut Numbers) -> midvokt::PrecomputedActivePauliMeasurementKernel {
    midvokt::PrecomputedActivePauliMeasurementKernel {
        action: random_action(random),
        pivot: random.below(64) as usize,
        diagonal_phase_bit: match random.below(4) {
            0 => random.word() as i32,
            bit => i32::from(bit == 1),
        },
        z_without_pivot: random.pick(&[0, 1, u64::MAX]) & random.word(),
        nondiagonal_coefficient1_even: complex::random(random),
        ..Default::default()
    }
}

/// Compares the methods of random kernels.
fn compare_random(random: &mut Numbers, results: &mut Results) {
    for _ in 0..KERNELS {
        let ours = random_rotation(random);
        compare_rotation(&ours, &dropin::rotation_kernel(&ours), random, results);
        let ours = random_measurement(random);
        compare_measurement(&ours, &dropin::measurement_kernel(&ours), random, results);
        let (packed, bit) = (index(random), random.below(64) as usize);
        results.same(
            "insert_zero_bit",
            midvokt::insert_zero_bit(packed, bit),
            insert_zero_bit(packed, bit),
        );
    }
}

/// Compares the methods of a plan's kernels, and of random ones.
pub fn compare(
    ours: &midvokt::ActiveComponentPlan,
    theirs: &ActiveComponentPlan,
    random: &mut Numbers,
) -> Results {
    let mut results = Results::default();
    for (ours, theirs) in ours.rotations.iter().zip(&theirs.rotations) {
        compare_rotation(&ours.kernel, &theirs.kernel, random, &mut results);
    }
    for (ours, theirs) in ours.measurements.iter().zip(&theirs.measurements) {
        compare_measurement(&ours.kernel, &theirs.kernel, random, &mut results);
    }
    compare_random(random, &mut results);
    results
}

/// Compares the defaults of all types that have one in both.
pub fn compare_defaults() -> Results {
    let mut results = Results::default();
    macro_rules! compare {
        ($($name:ident)*) => {
            $(results.same_text(
                stringify!($name),
                &format!("{:?}", midvokt::$name::default()),
                &format!("{:?}", $name::default()),
            );)*
        };
    }
    compare!(
        Complex
        ActivePauliAction
        PrecomputedActivePauliRotationKernel
        PrecomputedActivePauliMeasurementKernel
        ActiveComponentStepKind
        ActiveComponentStepRef
    );
    results.same_text(
        "ActiveComponentPlan",
        &format!("{:?}", dropin::plan(&Default::default())),
        &format!("{:?}", ActiveComponentPlan::default()),
    );
    results
}
