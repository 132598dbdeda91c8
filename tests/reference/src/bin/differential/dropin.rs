//! The typed plan of the crate `midvokt` as the Rust's own plan, field by field, compared
//! with the one that the Rust made.

use midvokt_reference::active::{
    ActivePauliAction, PrecomputedActivePauliMeasurementKernel,
    PrecomputedActivePauliRotationKernel,
};
use midvokt_reference::answer::Answer;
use midvokt_reference::component_plan::{
    ActiveComponentMeasurementStep, ActiveComponentPlan, ActiveComponentPromotionStep,
    ActiveComponentRotationStep, ActiveComponentStepKind, ActiveComponentStepRef,
};
use midvokt_reference::expected::Expected;
use midvokt_reference::replay;
use midvokt_reference::whole::WholeWorks;
use num_complex::Complex64;

/// A complex number of theirs.
fn complex(ours: midvokt::Complex) -> Complex64 {
    Complex64::new(ours.re, ours.im)
}

/// An action of theirs.
fn action(ours: &midvokt::ActivePauliAction) -> ActivePauliAction {
    ActivePauliAction {
        nqubits: ours.nqubits,
        xmask: ours.xmask,
        zmask: ours.zmask,
        even_phase: complex(ours.even_phase),
        odd_phase: complex(ours.odd_phase),
        xz_overlap_odd: ours.xz_overlap_odd,
    }
}

/// A step of theirs.
fn step(ours: &midvokt::ActiveComponentStepRef) -> ActiveComponentStepRef {
    use midvokt::ActiveComponentStepKind as Ours;
    let kind = match ours.kind {
        Ours::None => ActiveComponentStepKind::None,
        Ours::IgnoredGlobalPhase => ActiveComponentStepKind::IgnoredGlobalPhase,
        Ours::Rotation => ActiveComponentStepKind::Rotation,
        Ours::Promotion => ActiveComponentStepKind::Promotion,
        Ours::Measurement => ActiveComponentStepKind::Measurement,
    };
    ActiveComponentStepRef {
        kind,
        payload: ours.payload,
    }
}

/// A rotation kernel of theirs.
pub fn rotation_kernel(
    ours: &midvokt::PrecomputedActivePauliRotationKernel,
) -> PrecomputedActivePauliRotationKernel {
    PrecomputedActivePauliRotationKernel {
        action: action(&ours.action),
        is_diagonal: ours.is_diagonal,
        uniform_imag_pairs: ours.uniform_imag_pairs,
        real_pair_flip: ours.real_pair_flip,
        pair_bit: ours.pair_bit,
        pair_count: ours.pair_count,
        kernel_angle: ours.kernel_angle,
        cos_kernel_angle: ours.cos_kernel_angle,
        sin_kernel_angle: ours.sin_kernel_angle,
        minus_even_coefficient: complex(ours.minus_even_coefficient),
    }
}

/// A rotation row of theirs.
fn rotation(ours: &midvokt::ActiveComponentRotationStep) -> ActiveComponentRotationStep {
    ActiveComponentRotationStep {
        component: ours.component,
        merge_offset: ours.merge_offset,
        merge_count: ours.merge_count,
        kernel: rotation_kernel(&ours.kernel),
    }
}

/// A measurement kernel of theirs.
pub fn measurement_kernel(
    ours: &midvokt::PrecomputedActivePauliMeasurementKernel,
) -> PrecomputedActivePauliMeasurementKernel {
    PrecomputedActivePauliMeasurementKernel {
        action: action(&ours.action),
        pivot: ours.pivot,
        is_diagonal: ours.is_diagonal,
        diagonal_phase_bit: ours.diagonal_phase_bit,
        z_without_pivot: ours.z_without_pivot,
        out_dim: ours.out_dim,
        nondiagonal_coefficient1_even: complex(ours.nondiagonal_coefficient1_even),
    }
}

/// A measurement row of theirs.
fn measurement(ours: &midvokt::ActiveComponentMeasurementStep) -> ActiveComponentMeasurementStep {
    ActiveComponentMeasurementStep {
        component: ours.component,
        merge_offset: ours.merge_offset,
        merge_count: ours.merge_count,
        kernel: measurement_kernel(&ours.kernel),
        deactivate_after: ours.deactivate_after,
    }
}

/// A promotion row of theirs.
fn promotion(ours: &midvokt::ActiveComponentPromotionStep) -> ActiveComponentPromotionStep {
    ActiveComponentPromotionStep {
        component: ours.component,
    }
}

/// A plan of theirs.
pub fn plan(ours: &midvokt::ActiveComponentPlan) -> ActiveComponentPlan {
    ActiveComponentPlan {
        selected: ours.selected,
        initial_components: ours.initial_components,
        component_count: ours.component_count,
        component_max_k: ours.component_max_k.clone(),
        instruction_steps: ours.instruction_steps.iter().map(step).collect(),
        merge_components: ours.merge_components.clone(),
        rotations: ours.rotations.iter().map(rotation).collect(),
        promotions: ours.promotions.iter().map(promotion).collect(),
        measurements: ours.measurements.iter().map(measurement).collect(),
        estimated_dense_work: ours.estimated_dense_work,
        estimated_component_work: ours.estimated_component_work,
        dense_peak_dimension: ours.dense_peak_dimension,
        component_peak_live_dimension: ours.component_peak_live_dimension,
        component_allocated_dimension: ours.component_allocated_dimension,
    }
}

/// Whole works of theirs.
fn whole_works(ours: midvokt::WholeWorks) -> WholeWorks {
    use midvokt::WholeWorks as Ours;
    match ours {
        Ours::TooWide => WholeWorks::TooWide,
        Ours::WithoutQuotient { dense } => WholeWorks::WithoutQuotient { dense },
        Ours::WithQuotient {
            dense,
            component,
            quotient,
            remainder,
        } => WholeWorks::WithQuotient {
            dense,
            component,
            quotient,
            remainder,
        },
    }
}

/// What differs: a field by the Rust's own comparison, which takes both zeros as one, then
/// the groups, then the whole works, then the bits of all floats.
pub fn difference(
    ours: &midvokt::ActiveComponentPlan,
    theirs: &ActiveComponentPlan,
    whole: WholeWorks,
) -> Option<String> {
    let turned = plan(ours);
    if turned != *theirs {
        return Some("a field of the typed plan".to_owned());
    }
    if replay::groups(theirs).as_ref() != Ok(&ours.groups) {
        return Some("the groups of the typed plan".to_owned());
    }
    if whole_works(ours.whole_works) != whole {
        return Some("the whole works of the typed plan".to_owned());
    }
    let words = |plan| Expected::of(&Answer::Plan(plan, whole));
    if words(turned) != words(theirs.clone()) {
        return Some("a float's bits in the typed plan".to_owned());
    }
    None
}
