//! The call of the proved library over lent buffers, with nothing allocated.

use crate::lent::{call_with, Buffers};
use crate::refusal::{Reason, Refusal};
use crate::words::Words;
use crate::works::WholeWorks;

/// Words of a whole result: the refusal's record, then the eight scalar fields, then a mark and the
/// four numbers of the whole works.
pub const RESULT_WORDS: usize = 14;

/// The largest ceiling that a head may have, which is that of the published Rust.
pub const LARGEST_CEILING: u64 = 62;

/// The least `max_k` with which records are read.
const LEAST_PLANNED: u64 = 8;

/// What planning knows of a program beside its records.
#[derive(Clone, Copy, Debug, PartialEq, Eq)]
pub struct Head {
    /// The number of active coordinates at the start.
    pub initial_k: u64,
    /// The greatest number of active coordinates, which gives the dense peak; it is not held to
    /// the records. Below 8 no record is read and the plan is empty: give 8, as [`Head::new`]
    /// does, to have the rows of a small circuit. The ceiling or more is refused.
    pub max_k: u64,
    /// The number of expectation values. While it is 0, expectations
    /// ([`Record::expectation`](crate::Record::expectation)) are passed over. Where it is more, no
    /// record is read and the plan is empty ([`Head::leaves_unread`]).
    pub nexpvals: u64,
    /// The controller holds components of fewer coordinates than this. It is 1 to 62
    /// ([`LARGEST_CEILING`]); any other is refused with number 24, before all else. Below 9 no
    /// record is read, since `max_k` then has to be below 8.
    pub ceiling: u64,
}

impl Default for Head {
    /// No coordinate, no expectation value and a `max_k` of 0, at the largest ceiling. Below 8
    /// nothing is planned, so with this `max_k` a plan is empty, whatever `initial_k` and the
    /// records are: [`Head::new`] has one of at least 8.
    fn default() -> Self {
        Self {
            initial_k: 0,
            max_k: 0,
            nexpvals: 0,
            ceiling: LARGEST_CEILING,
        }
    }
}

impl Head {
    /// A head of so many coordinates at the start: `max_k` is as many, but at least 8, so that a
    /// small circuit is planned too; no expectation value, and the largest ceiling. With fewer
    /// than 8 coordinates the dense peak is 2^8 = 256, and the choice ([`Summary::selected`])
    /// counts with that.
    ///
    /// `max_k` gives the dense peak, so where promotions make the register wider give it yourself:
    /// `Head { max_k: 12, ..Head::new(3) }`.
    ///
    /// Rotations and measurements are planned only while at most 62 coordinates are active. From
    /// 62 on give a `max_k` of 61, `Head { max_k: 61, ..Head::new(62) }`: one of the ceiling or
    /// more is refused ([`Reason::MaxK`]). Nothing is judged here.
    pub const fn new(initial_k: u64) -> Self {
        Self {
            initial_k,
            max_k: if initial_k < LEAST_PLANNED {
                LEAST_PLANNED
            } else {
                initial_k
            },
            nexpvals: 0,
            ceiling: LARGEST_CEILING,
        }
    }

    /// Whether planning reads neither records nor buffers: `max_k` is below 8, or `nexpvals` is
    /// not 0. Then only the ceiling and `max_k` can be refused.
    pub fn leaves_unread(&self) -> bool {
        self.max_k < LEAST_PLANNED || self.nexpvals != 0
    }
}

/// The scalar fields of a plan.
#[derive(Clone, Copy, Debug, Default, PartialEq)]
pub struct Summary {
    /// Whether the split pays: rotations, promotions and measurements with flag 0 are 4 or more
    /// together, the dense work is at least 1.8 times the component work and at least 8,192 more,
    /// and what is allocated is at most 1.25 times the dense peak.
    pub selected: bool,
    /// The components at the start.
    pub initial_components: usize,
    /// All components ever made.
    pub component_count: usize,
    /// The work of one wide register.
    pub estimated_dense_work: f64,
    /// The work of the components.
    pub estimated_component_work: f64,
    /// The dimension of one wide register.
    pub dense_peak_dimension: usize,
    /// The greatest sum of the live components' dimensions.
    pub component_peak_live_dimension: usize,
    /// The sum of all components' greatest dimensions, at most 2^64 - 1.
    pub component_allocated_dimension: usize,
    /// Both works as whole numbers, and how many times cheaper the split is.
    pub whole_works: WholeWorks,
}

impl Summary {
    /// The fields from words 1 to 13 of a result.
    fn from_result(result: &[u64; RESULT_WORDS]) -> Self {
        let mut words = Words::new(&result[1..]);
        Self {
            selected: words.flag(),
            initial_components: words.size(),
            component_count: words.size(),
            estimated_dense_work: words.float(),
            estimated_component_work: words.float(),
            dense_peak_dimension: words.size(),
            component_peak_live_dimension: words.size(),
            component_allocated_dimension: words.size(),
            whole_works: WholeWorks::read(&mut words),
        }
    }
}

extern "C" {
    /// The function of the library that plans, as include/midvokt.h declares it.
    fn midvokt_plan(
        initial_k: u64,
        max_k: u64,
        nexpvals: u64,
        ceiling: u64,
        records: *const u64,
        records_len: usize,
        steps: *mut u64,
        steps_len: usize,
        merges: *mut u64,
        merges_len: usize,
        sizes: *mut u64,
        sizes_len: usize,
        rotations: *mut u64,
        rotations_len: usize,
        promotions: *mut u64,
        promotions_len: usize,
        measurements: *mut u64,
        measurements_len: usize,
        groups: *mut u64,
        groups_len: usize,
        result: *mut u64,
        result_len: usize,
    ) -> u64;
}

/// The library's own call: 0 for a plan, else the refusal's number, with every word of
/// the buffers and of the result written. A short result gets its first words, and words
/// behind the fourteenth are zero.
pub fn plan_words(
    head: &Head,
    records: &[u64],
    buffers: &mut Buffers<'_>,
    result: &mut [u64],
) -> u64 {
    // SAFETY: slices are aligned and never null, exclusive ones overlap nothing, and the
    // library reads and writes only below the lengths given with them.
    unsafe {
        call_with!(
            midvokt_plan,
            [head.initial_k, head.max_k, head.nexpvals, head.ceiling],
            records,
            buffers.sections,
            [buffers.groups, result]
        )
    }
}

/// Plans record words into lent buffers. Nothing is allocated.
pub fn plan_into(
    head: &Head,
    records: &[u64],
    buffers: &mut Buffers<'_>,
) -> Result<Summary, Refusal> {
    let mut result = [0; RESULT_WORDS];
    match plan_words(head, records, buffers, &mut result) {
        0 => Ok(Summary::from_result(&result)),
        number => Err(Refusal {
            reason: Reason::from_number(number),
            index: result[0] as usize,
        }),
    }
}

#[cfg(test)]
mod tests {
    use super::{Head, LARGEST_CEILING};

    #[test]
    fn a_new_head_has_a_max_of_at_least_8() {
        let widths = [0, 3, 7, 8, 9, 61, 62, u64::MAX];
        let heads = widths.map(Head::new);
        let starts = heads.map(|head| head.initial_k);
        assert_eq!(starts, widths);
        let greatest = heads.map(|head| head.max_k);
        assert_eq!(greatest, [8, 8, 8, 8, 9, 61, 62, u64::MAX]);
        assert!(!heads.iter().any(Head::leaves_unread));
        assert!(heads.iter().all(|head| head.ceiling == LARGEST_CEILING));
    }

    #[test]
    fn a_default_head_leaves_all_unread() {
        assert!(Head::default().leaves_unread());
        let wide = Head {
            initial_k: 9,
            ..Head::default()
        };
        assert!(wide.leaves_unread());
    }

    #[test]
    fn a_default_head_has_the_largest_ceiling() {
        let head = Head::default();
        assert_eq!((head.initial_k, head.max_k, head.nexpvals), (0, 0, 0));
        assert_eq!((head.ceiling, LARGEST_CEILING), (62, 62));
    }
}
