//! A plan's fields and rows in 01's formats: the words of the seven outputs, the scalar fields
//! and the whole works, each a number or a float.

use std::fmt;

use Word::{Float, Number};
use num_complex::Complex64;

use crate::active::ActivePauliAction;
use crate::component_plan::{
    ActiveComponentMeasurementStep, ActiveComponentPlan, ActiveComponentRotationStep,
    ActiveComponentStepKind, ActiveComponentStepRef,
};
use crate::replay::groups;
use crate::whole::WholeWorks;

/// One output word: a number, or a float that stands as its bits.
pub enum Word {
    Number(u64),
    Float(f64),
}

impl Word {
    /// The word as it stands in a buffer.
    pub fn bits(&self) -> u64 {
        match self {
            Number(number) => *number,
            Float(float) => float.to_bits(),
        }
    }
}

impl fmt::Display for Word {
    /// Floats as their bits in hexadecimal, all else in decimal.
    fn fmt(&self, formatter: &mut fmt::Formatter<'_>) -> fmt::Result {
        match self {
            Number(number) => write!(formatter, "{number}"),
            Float(float) => write!(formatter, "{:#018x}", float.to_bits()),
        }
    }
}

/// A size, an index or a count.
fn number(value: usize) -> Word {
    Number(value as u64)
}

/// 1 or 0.
fn flag(value: bool) -> Word {
    Number(u64::from(value))
}

/// Real and imaginary part.
fn pair(value: Complex64) -> [Word; 2] {
    [Float(value.re), Float(value.im)]
}

/// The eight scalar fields, in 01's order.
fn scalars(plan: &ActiveComponentPlan) -> [Word; 8] {
    [
        flag(plan.selected),
        number(plan.initial_components),
        number(plan.component_count),
        Float(plan.estimated_dense_work),
        Float(plan.estimated_component_work),
        number(plan.dense_peak_dimension),
        number(plan.component_peak_live_dimension),
        number(plan.component_allocated_dimension),
    ]
}

/// The words of a result behind the first: the eight scalar fields, then the whole works.
pub fn fields(plan: &ActiveComponentPlan, whole: &WholeWorks) -> Vec<Word> {
    let whole = whole.words().map(Number);
    scalars(plan).into_iter().chain(whole).collect()
}

/// Kind and payload.
fn step(step: &ActiveComponentStepRef) -> [Word; 2] {
    let kind = match step.kind {
        ActiveComponentStepKind::None => 0,
        ActiveComponentStepKind::IgnoredGlobalPhase => 1,
        ActiveComponentStepKind::Rotation => 2,
        ActiveComponentStepKind::Promotion => 3,
        ActiveComponentStepKind::Measurement => 4,
    };
    [Number(kind), number(step.payload)]
}

/// The words from the component to the overlap, which both kinds of row have.
fn row_head(
    component: usize,
    offset: usize,
    count: usize,
    action: &ActivePauliAction,
) -> Vec<Word> {
    let mut words = vec![
        number(component),
        number(offset),
        number(count),
        number(action.nqubits),
        Number(action.xmask),
        Number(action.zmask),
    ];
    words.extend(pair(action.even_phase));
    words.extend(pair(action.odd_phase));
    words.push(flag(action.xz_overlap_odd));
    words
}

/// The 21 words of a rotation row.
fn rotation(row: &ActiveComponentRotationStep) -> Vec<Word> {
    let kernel = &row.kernel;
    let mut words = row_head(
        row.component,
        row.merge_offset,
        row.merge_count,
        &kernel.action,
    );
    words.extend([
        flag(kernel.is_diagonal),
        flag(kernel.uniform_imag_pairs),
        flag(kernel.real_pair_flip),
        Number(u64::from(kernel.pair_bit)),
        number(kernel.pair_count),
        Float(kernel.kernel_angle),
        Float(kernel.cos_kernel_angle),
        Float(kernel.sin_kernel_angle),
    ]);
    words.extend(pair(kernel.minus_even_coefficient));
    words
}

/// The 19 words of a measurement row.
fn measurement(row: &ActiveComponentMeasurementStep) -> Vec<Word> {
    let kernel = &row.kernel;
    let mut words = row_head(
        row.component,
        row.merge_offset,
        row.merge_count,
        &kernel.action,
    );
    words.extend([
        number(kernel.pivot),
        flag(kernel.is_diagonal),
        flag(kernel.diagonal_phase_bit == 1),
        Number(kernel.z_without_pivot),
        number(kernel.out_dim),
    ]);
    words.extend(pair(kernel.nondiagonal_coefficient1_even));
    words.push(flag(row.deactivate_after));
    words
}

/// A member count and the members, for each live component.
fn group_words(plan: &ActiveComponentPlan) -> Result<Vec<Word>, String> {
    let counted = |members: Vec<usize>| std::iter::once(members.len()).chain(members);
    Ok(groups(plan)?
        .into_iter()
        .flat_map(counted)
        .map(number)
        .collect())
}

/// The used words of the seven outputs, in the order of the buffers.
pub fn outputs(plan: &ActiveComponentPlan) -> Result<[Vec<Word>; 7], String> {
    Ok([
        plan.instruction_steps.iter().flat_map(step).collect(),
        plan.merge_components.iter().copied().map(number).collect(),
        plan.component_max_k.iter().copied().map(number).collect(),
        plan.rotations.iter().flat_map(rotation).collect(),
        plan.promotions
            .iter()
            .map(|row| number(row.component))
            .collect(),
        plan.measurements.iter().flat_map(measurement).collect(),
        group_words(plan)?,
    ])
}
