//! Plans as files, over lent buffers and with nothing allocated: the calls of the proved library
//! that store a plan and load it again. What is loaded is unjudged.

use crate::call::Head;
use crate::lent::{call_with, Buffers, Sections};
use crate::refusal::{Reason, Refusal};
use crate::rows::{ROTATION_WORDS, STEP_WORDS};

/// Words of the section of scalar fields.
pub const SCALAR_WORDS: usize = 8;
/// Words of the trailer that ends a file.
pub const TRAILER_WORDS: usize = 16;
/// The version of a file's form.
pub const FILE_VERSION: u64 = 1;
/// Words of a whole result of [`store_words`]: the refused record, and the file's length.
pub const STORE_RESULT_WORDS: usize = 2;
/// Words of a whole result of [`load_words`]: 0, the eight scalar fields, and the six counts.
pub const LOAD_RESULT_WORDS: usize = 15;

/// How many bytes are enough for the file of a plan of so many records: two words of steps a
/// record, a word of merges for each row and for each of at most 511 joins, 512 words of sizes, 21
/// words for the one row that a record may have, scalars and trailer. A length that no usize holds
/// is the greatest one; so many records are refused, or left unread.
pub const fn file_bytes(records: usize) -> usize {
    let words = records
        .saturating_mul(STEP_WORDS + 1 + ROTATION_WORDS)
        .saturating_add(511 + 512 + SCALAR_WORDS + TRAILER_WORDS);
    words.saturating_mul(8)
}

/// The scalar fields of a stored plan as words, as they stand in the file. Only `component_count`
/// is judged: it is the count of the section of sizes.
#[derive(Clone, Copy, Debug, Default, PartialEq, Eq)]
pub struct Scalars {
    /// Whether the split pays: 1 or 0 from planning.
    pub selected: u64,
    /// The components at the start.
    pub initial_components: u64,
    /// All components ever made.
    pub component_count: u64,
    /// The work of one wide register, as the bits of a float.
    pub estimated_dense_work: u64,
    /// The work of the components, as the bits of a float.
    pub estimated_component_work: u64,
    /// The dimension of one wide register.
    pub dense_peak_dimension: u64,
    /// The greatest sum of the live components' dimensions.
    pub component_peak_live_dimension: u64,
    /// The sum of all components' greatest dimensions.
    pub component_allocated_dimension: u64,
}

impl From<[u64; SCALAR_WORDS]> for Scalars {
    /// Eight words in the file's order.
    fn from(words: [u64; SCALAR_WORDS]) -> Self {
        Self {
            selected: words[0],
            initial_components: words[1],
            component_count: words[2],
            estimated_dense_work: words[3],
            estimated_component_work: words[4],
            dense_peak_dimension: words[5],
            component_peak_live_dimension: words[6],
            component_allocated_dimension: words[7],
        }
    }
}

impl Scalars {
    /// The eight words in the file's order.
    pub const fn in_order(&self) -> [u64; SCALAR_WORDS] {
        [
            self.selected,
            self.initial_components,
            self.component_count,
            self.estimated_dense_work,
            self.estimated_component_work,
            self.dense_peak_dimension,
            self.component_peak_live_dimension,
            self.component_allocated_dimension,
        ]
    }
}

/// How many words of each output a loaded plan uses.
#[derive(Clone, Copy, Debug, Default, PartialEq, Eq)]
pub struct Counts {
    /// Two words a record.
    pub steps: usize,
    /// A word for each source of each row.
    pub merges: usize,
    /// A word for each component.
    pub sizes: usize,
    /// 21 words a rotation row.
    pub rotations: usize,
    /// A word for each promotion row.
    pub promotions: usize,
    /// 19 words a measurement row.
    pub measurements: usize,
}

/// What a loaded plan has beside the words in its outputs.
#[derive(Clone, Copy, Debug, Default, PartialEq, Eq)]
pub struct Loaded {
    /// The scalar fields, unjudged.
    pub scalars: Scalars,
    /// The used words of each output.
    pub counts: Counts,
}

impl Loaded {
    /// The fields from words 1 to 14 of a result.
    fn from_result(result: &[u64; LOAD_RESULT_WORDS]) -> Self {
        let [_, scalars @ .., steps, merges, sizes, rotations, promotions, measurements] = *result;
        Self {
            scalars: Scalars::from(scalars),
            counts: Counts {
                steps: steps as usize,
                merges: merges as usize,
                sizes: sizes as usize,
                rotations: rotations as usize,
                promotions: promotions as usize,
                measurements: measurements as usize,
            },
        }
    }
}

extern "C" {
    /// The function that plans and stores, as include/midvokt.h declares it.
    fn midvokt_store(
        initial_k: u64,
        max_k: u64,
        nexpvals: u64,
        ceiling: u64,
        records: *const u64,
        records_len: usize,
        steps: *mut u64,
        steps_len: usize,
        merges: *mut u64,
        merges_len: usize,
        sizes: *mut u64,
        sizes_len: usize,
        rotations: *mut u64,
        rotations_len: usize,
        promotions: *mut u64,
        promotions_len: usize,
        measurements: *mut u64,
        measurements_len: usize,
        groups: *mut u64,
        groups_len: usize,
        file: *mut u8,
        file_len: usize,
        result: *mut u64,
        result_len: usize,
    ) -> u64;

    /// The function that loads, as include/midvokt.h declares it.
    fn midvokt_load(
        file: *const u8,
        file_len: usize,
        steps: *mut u64,
        steps_len: usize,
        merges: *mut u64,
        merges_len: usize,
        sizes: *mut u64,
        sizes_len: usize,
        rotations: *mut u64,
        rotations_len: usize,
        promotions: *mut u64,
        promotions_len: usize,
        measurements: *mut u64,
        measurements_len: usize,
        result: *mut u64,
        result_len: usize,
    ) -> u64;
}

/// The library's own call for storing: 0 for a plan and its file, else the refusal's number, with
/// every word of the buffers and of the result and every byte of the file written. A short result
/// gets its first words, and words behind the second are zero.
pub fn store_words(
    head: &Head,
    records: &[u64],
    buffers: &mut Buffers<'_>,
    file: &mut [u8],
    result: &mut [u64],
) -> u64 {
    // SAFETY: slices are aligned and never null, exclusive ones overlap nothing, and the
    // library reads and writes only below the lengths given with them.
    unsafe {
        call_with!(
            midvokt_store,
            [head.initial_k, head.max_k, head.nexpvals, head.ceiling],
            records,
            buffers.sections,
            [buffers.groups, file, result]
        )
    }
}

/// The library's own call for loading: 0, else the refusal's number, with every word of the outputs
/// and of the result written. A short result gets its first words, and words behind the fifteenth
/// are zero.
pub fn load_words(file: &[u8], sections: &mut Sections<'_>, result: &mut [u64]) -> u64 {
    // SAFETY: slices are aligned and never null, exclusive ones overlap nothing, and the
    // library reads and writes only below the lengths given with them.
    unsafe { call_with!(midvokt_load, [], file, sections, [result]) }
}

/// Plans record words into lent buffers and writes the plan's file, of which [`file_bytes`] says how
/// long it may be. Gives the file's length: the bytes behind are zero and no part of it. Nothing is
/// allocated.
pub fn store_into(
    head: &Head,
    records: &[u64],
    buffers: &mut Buffers<'_>,
    file: &mut [u8],
) -> Result<usize, Refusal> {
    let mut result = [0; STORE_RESULT_WORDS];
    match store_words(head, records, buffers, file, &mut result) {
        0 => Ok(result[1] as usize),
        number => Err(Refusal {
            reason: Reason::from_number(number),
            index: result[0] as usize,
        }),
    }
}

/// Loads a file into lent outputs, each at least as long as its section. What was stored is read
/// back word for word, and any other words as they stand, unjudged: a program that applies rows of a
/// file from elsewhere must check every number that it uses as a place or as a size. Nothing is
/// allocated.
pub fn load_into(file: &[u8], sections: &mut Sections<'_>) -> Result<Loaded, Refusal> {
    let mut result = [0; LOAD_RESULT_WORDS];
    match load_words(file, sections, &mut result) {
        0 => Ok(Loaded::from_result(&result)),
        number => Err(Refusal {
            reason: Reason::from_number(number),
            index: 0,
        }),
    }
}

#[cfg(test)]
mod tests {
    use super::*;

    #[test]
    fn a_file_has_room_for_its_words() {
        assert_eq!(file_bytes(0), 8 * (511 + 512 + 8 + 16));
        assert_eq!(file_bytes(1024), 8 * (2048 + 1024 + 21_504) + file_bytes(0));
        assert_eq!(file_bytes(usize::MAX), usize::MAX);
        assert_eq!(file_bytes(usize::MAX / 24), usize::MAX);
    }

    #[test]
    fn a_result_has_its_words_in_order() {
        let loaded = Loaded::from_result(&core::array::from_fn(|place| place as u64));
        assert_eq!(loaded.scalars.in_order(), [1, 2, 3, 4, 5, 6, 7, 8]);
        assert_eq!(loaded.scalars.selected, 1);
        assert_eq!(loaded.scalars.component_allocated_dimension, 8);
        let counts = loaded.counts;
        assert_eq!((counts.steps, counts.merges, counts.sizes), (9, 10, 11));
        assert_eq!((counts.rotations, counts.promotions), (12, 13));
        assert_eq!(counts.measurements, 14);
    }
}
