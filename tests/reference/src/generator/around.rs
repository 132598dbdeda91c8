//! Complete lists of programs around ceilings (02, CR 4): heads at their limits, and joins at every
//! ceiling, just below it and just above, with and without a fault in the same record.

use super::draft::low_bits;
use super::edits::{self, Words};
use super::small::program;
use crate::input::Program;

/// The ceilings of the heads: outside of what may be, at its ends, and where records begin to
/// be read.
const CEILINGS: [u64; 10] = [0, 1, 2, 7, 8, 9, 10, 61, 63, u64::MAX];

/// Every combination of a ceiling with heads, record words and buffers at their limits.
fn of_heads() -> Vec<Program> {
    let mut programs = Vec::new();
    for ceiling in CEILINGS {
        let (below, above) = (ceiling.wrapping_sub(1), ceiling.wrapping_add(1));
        for max_k in [0, 7, 8, below, ceiling, above, 61, 62, u64::MAX] {
            for (nexpvals, initial_k) in [(0, 0), (0, 513), (1, 0), (1, 513)] {
                for words in [vec![], vec![6], vec![6; 8]] {
                    programs.extend([None, Some([0; 7])].map(|lengths| Program {
                        initial_k,
                        max_k,
                        nexpvals,
                        ceiling,
                        lengths,
                        words: words.clone(),
                    }));
                }
            }
        }
    }
    programs
}

/// A rotation and a measurement that join so many of the first coordinates of a width, and both
/// with each fault.
fn joins(width: u64, size: u64) -> Vec<Words> {
    let mut records = Vec::new();
    for is_measurement in [false, true] {
        let mut joined = edits::fitting(is_measurement, width);
        joined[2] = low_bits(size);
        records.push(joined);
        for edit in edits::for_kind(is_measurement) {
            let mut faulty = joined;
            edit(&mut faulty, width);
            records.push(faulty);
        }
    }
    records
}

/// Joins of a size, at once or onto a join of half of it.
fn of_size(ceiling: u64, width: u64, size: u64) -> Vec<Program> {
    let mut half = edits::fitting(false, width);
    half[2] = low_bits(size / 2);
    let records = joins(width, size);
    let programs = records.iter().flat_map(|&record| {
        let at_once = program(width, &[record]);
        [at_once, program(width, &[half, record])]
    });
    programs.map(|program| program.under(ceiling)).collect()
}

/// Joins around every ceiling under which records are read, in just the joined width and in the
/// widest that a record may have.
fn of_joins() -> Vec<Program> {
    let mut programs = Vec::new();
    for ceiling in 9..=61 {
        for size in [ceiling - 1, ceiling, ceiling + 1] {
            programs.extend(of_size(ceiling, size, size));
            programs.extend(of_size(ceiling, 62, size));
        }
    }
    programs
}

/// All of them.
pub fn around_ceilings() -> Vec<Program> {
    [of_heads(), of_joins()].concat()
}
