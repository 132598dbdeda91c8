//! Lists of pending operations, as words over lent buffers and with nothing allocated: the call of
//! the proved library that optimizes one.

use crate::refusal::{Reason, Refusal};
use crate::words::Words;

/// Words of a pending operation; `include/midvokt.h` says which word is which.
pub const OPERATION_WORDS: usize = 32;
/// The most operations of a list.
pub const MOST_OPERATIONS: usize = 1024;
/// The most preserved prefixes of a call.
pub const MOST_PREFIXES: usize = 1024;
/// The largest width of a list: its strings have 1 to so many qubits.
pub const MOST_QUBITS: usize = 64;
/// The most conditions of a sign.
pub const SIGN_CONDITIONS: usize = 8;
/// Words of a whole result of [`optimize_words`]: the refused operation, then the five counts.
pub const OPTIMIZE_RESULT_WORDS: usize = 6;
/// What the map has for a boundary that was not asked for: 2^64 - 1, which is the -1 of
/// `prefix_remap`.
pub const NO_BOUNDARY: u64 = u64::MAX;

/// What optimizing a list came to.
#[derive(Clone, Copy, Debug, Default, PartialEq, Eq)]
pub struct OptimizationCounts {
    /// The operations that were given.
    pub input_operations: usize,
    /// The operations that are left.
    pub output_operations: usize,
    /// How often two rotations were fused, cancelled ones counted too.
    pub fused_rotations: usize,
    /// How often two rotations cancelled, so that none of the two is left.
    pub cancelled_rotations: usize,
    /// How many pairs there are of a measurement and a rotation that it passed: a rotation counts
    /// once for each measurement that moved in front of it.
    pub measurement_left_swaps: usize,
}

impl OptimizationCounts {
    /// The counts from words 1 to 5 of a result.
    fn from_result(result: &[u64; OPTIMIZE_RESULT_WORDS]) -> Self {
        let mut words = Words::new(&result[1..]);
        Self {
            input_operations: words.size(),
            output_operations: words.size(),
            fused_rotations: words.size(),
            cancelled_rotations: words.size(),
            measurement_left_swaps: words.size(),
        }
    }
}

extern "C" {
    /// The function that optimizes, as include/midvokt.h declares it.
    fn midvokt_optimize(
        width: u64,
        operations: *const u64,
        operations_len: usize,
        prefixes: *const u64,
        prefixes_len: usize,
        optimized: *mut u64,
        optimized_len: usize,
        map: *mut u64,
        map_len: usize,
        result: *mut u64,
        result_len: usize,
    ) -> u64;
}

/// The library's own call for optimizing: 0, else the refusal's number, with every word of list,
/// map and result written. A short result gets its first words, and words behind the sixth are
/// zero.
pub fn optimize_words(
    width: u64,
    operations: &[u64],
    prefixes: &[u64],
    optimized: &mut [u64],
    map: &mut [u64],
    result: &mut [u64],
) -> u64 {
    // SAFETY: slices are aligned and never null, exclusive ones overlap nothing, and the
    // library reads and writes only below the lengths given with them.
    unsafe {
        midvokt_optimize(
            width,
            operations.as_ptr(),
            operations.len(),
            prefixes.as_ptr(),
            prefixes.len(),
            optimized.as_mut_ptr(),
            optimized.len(),
            map.as_mut_ptr(),
            map.len(),
            result.as_mut_ptr(),
            result.len(),
        )
    }
}

/// Optimizes a list of operation words into a lent list, which has to be as long at least, and a
/// lent map, which has to have a word more than the list has operations. The first
/// `output_operations` operations of the lent list are what is left; words behind them are zero.
/// Nothing is allocated.
pub fn optimize_into(
    width: u64,
    operations: &[u64],
    prefixes: &[u64],
    optimized: &mut [u64],
    map: &mut [u64],
) -> Result<OptimizationCounts, Refusal> {
    let mut result = [0; OPTIMIZE_RESULT_WORDS];
    match optimize_words(width, operations, prefixes, optimized, map, &mut result) {
        0 => Ok(OptimizationCounts::from_result(&result)),
        number => Err(Refusal {
            reason: Reason::from_number(number),
            index: result[0] as usize,
        }),
    }
}

#[cfg(test)]
mod tests {
    use super::OptimizationCounts;

    #[test]
    fn a_result_has_its_counts_in_order() {
        let counts = OptimizationCounts::from_result(&[0, 1, 2, 3, 4, 5]);
        assert_eq!((counts.input_operations, counts.output_operations), (1, 2));
        assert_eq!((counts.fused_rotations, counts.cancelled_rotations), (3, 4));
        assert_eq!(counts.measurement_left_swaps, 5);
    }
}
