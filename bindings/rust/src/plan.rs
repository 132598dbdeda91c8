//! A whole plan in memory of its own, with the field names of the Rust simulator, and the calls
//! that make one.

use alloc::vec::Vec;

use crate::call::{plan_into, Head, Summary};
use crate::lent::{Buffers, Owned};
use crate::record::{encode, Record, MOST_RECORDS, RECORD_WORDS};
use crate::refusal::Refusal;
use crate::rows::{
    part, ActiveComponentMeasurementStep, ActiveComponentPromotionStep,
    ActiveComponentRotationStep, ActiveComponentStepKind, ActiveComponentStepRef,
};
use crate::works::WholeWorks;

/// A whole plan.
#[derive(Clone, Debug, Default, PartialEq)]
pub struct ActiveComponentPlan {
    /// Whether the split pays, by the rule at [`Summary::selected`].
    pub selected: bool,
    /// The components at the start.
    pub initial_components: usize,
    /// All components ever made.
    pub component_count: usize,
    /// The longest size of each component, by its number.
    pub component_max_k: Vec<usize>,
    /// A step for each record; none where the records are left unread.
    pub instruction_steps: Vec<ActiveComponentStepRef>,
    /// The sources of all rows, one row's after the other's.
    pub merge_components: Vec<usize>,
    /// The rotation rows.
    pub rotations: Vec<ActiveComponentRotationStep>,
    /// The promotion rows.
    pub promotions: Vec<ActiveComponentPromotionStep>,
    /// The measurement rows.
    pub measurements: Vec<ActiveComponentMeasurementStep>,
    /// The work of one wide register.
    pub estimated_dense_work: f64,
    /// The work of the components.
    pub estimated_component_work: f64,
    /// The dimension of one wide register.
    pub dense_peak_dimension: usize,
    /// The greatest sum of the live components' dimensions.
    pub component_peak_live_dimension: usize,
    /// The sum of all components' greatest dimensions, at most 2^64 - 1.
    pub component_allocated_dimension: usize,
    /// Both works as whole numbers, and how many times cheaper the split is.
    pub whole_works: WholeWorks,
    /// The members, which are coordinates in the order of local bits, of each component that lives
    /// at the end, by ascending component number, each once: the first is the live component with
    /// the smallest number, and so on.
    pub groups: Vec<Vec<usize>>,
}

impl ActiveComponentPlan {
    /// The part of the merge list that a row names; empty if it runs past the end.
    /// Of a row that planning wrote: its component, then all others that the record touches, each
    /// once, by strictly ascending number, and nothing else.
    pub fn sources(&self, merge_offset: usize, merge_count: usize) -> &[usize] {
        part(&self.merge_components, merge_offset, merge_count).unwrap_or(&[])
    }
}

/// How many steps are of this kind, which is how many rows of it there are.
fn count(steps: &[ActiveComponentStepRef], kind: ActiveComponentStepKind) -> usize {
    steps.iter().filter(|step| step.kind == kind).count()
}

/// Words as sizes or numbers.
pub(crate) fn sizes(words: &[u64]) -> Vec<usize> {
    words.iter().map(|&word| word as usize).collect()
}

/// The typed plan that stands in the buffers, with a step for each of so many records.
fn collect(summary: Summary, buffers: &Buffers<'_>, records: usize) -> ActiveComponentPlan {
    use ActiveComponentStepKind::{Measurement, Promotion, Rotation};
    let instruction_steps: Vec<_> = (0..records).filter_map(|i| buffers.step(i)).collect();
    let rows = |kind| 0..count(&instruction_steps, kind);
    let rotations: Vec<_> = rows(Rotation).filter_map(|i| buffers.rotation(i)).collect();
    let promotions = rows(Promotion)
        .filter_map(|i| buffers.promotion(i))
        .collect();
    let measurements: Vec<_> = rows(Measurement)
        .filter_map(|i| buffers.measurement(i))
        .collect();
    let merged = rotations.iter().map(|row| row.merge_count).sum::<usize>()
        + measurements
            .iter()
            .map(|row| row.merge_count)
            .sum::<usize>();
    ActiveComponentPlan {
        selected: summary.selected,
        initial_components: summary.initial_components,
        component_count: summary.component_count,
        component_max_k: sizes(&buffers.sizes[..summary.component_count]),
        merge_components: sizes(&buffers.merges[..merged]),
        instruction_steps,
        rotations,
        promotions,
        measurements,
        estimated_dense_work: summary.estimated_dense_work,
        estimated_component_work: summary.estimated_component_work,
        dense_peak_dimension: summary.dense_peak_dimension,
        component_peak_live_dimension: summary.component_peak_live_dimension,
        component_allocated_dimension: summary.component_allocated_dimension,
        whole_works: summary.whole_works,
        groups: buffers.groups().map(sizes).collect(),
    }
}

/// Plans records given as words, eight a record, in buffers of its own. The plan is empty where
/// `max_k` is below 8 or `nexpvals` is not 0.
pub fn plan_encoded(head: &Head, records: &[u64]) -> Result<ActiveComponentPlan, Refusal> {
    let whole = records.len() / RECORD_WORDS;
    // More records are refused, or left unread, whatever the buffers.
    let mut owned = Owned::for_records(whole.min(MOST_RECORDS));
    let mut buffers = owned.lend();
    let summary = plan_into(head, records, &mut buffers)?;
    let read = if head.leaves_unread() { 0 } else { whole };
    Ok(collect(summary, &buffers, read))
}

/// Plans records in buffers of its own. The plan is empty where `max_k` is below 8 or `nexpvals`
/// is not 0.
pub fn plan(head: &Head, records: &[Record]) -> Result<ActiveComponentPlan, Refusal> {
    plan_encoded(head, &encode(records))
}
